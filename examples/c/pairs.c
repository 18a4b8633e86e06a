/* Runs the C text of a pipeline over pairs of ints, and compares what it does with what the language
   says.

   The pipeline is `array a | map z -> FORM | print` with the inputs x: int, y: int and a: array. Its
   function is called over an array of one item, for each of 36 pairs x, y. What is wanted is worked
   out here by the rules of docs/LANGUAGE.md, in integers of 128 bits.

   With no argument it prints the forms of pairs/forms.h, one a line. With a form it prints a line for
   each pair and then how many were right; at the first pair that is wrong it says so on standard
   error and ends with 1. */
#include <inttypes.h>
#include <stdbool.h>
#include <stdint.h>
#include <stdio.h>
#include <stdlib.h>
#include <string.h>

#include "pipeline.h"

int pipeline(uint64_t i0, uint64_t i1, const uint64_t *a2, uint64_t n2);

/* What a run wrote: a blank and a number for each word, and ` |` for each end of a row. */
static char written[256];

static void write_more(const char *text) {
  strncat(written, text, sizeof written - strlen(written) - 1);
}

void take_word(uint64_t word) {
  char text[32];
  snprintf(text, sizeof text, " %" PRId64, (int64_t)word);
  write_more(text);
}

void end_row(void) { write_more(" |"); }

/* Whether a divisor was 0 in what is wanted. */
static bool failed;

typedef __int128 wide;

/* The number from -2^63 up to but without 2^63 that differs from n by a multiple of 2^64. */
static int64_t wrapped(wide n) {
  const wide all = (wide)1 << 64;
  wide rest = n % all;
  if (rest < -(all / 2)) {
    rest += all;
  }
  if (rest >= all / 2) {
    rest -= all;
  }
  return (int64_t)rest;
}

static int64_t sum(int64_t x, int64_t y) { return wrapped((wide)x + y); }
static int64_t difference(int64_t x, int64_t y) { return wrapped((wide)x - y); }
static int64_t product(int64_t x, int64_t y) { return wrapped((wide)x * y); }
static int64_t negated(int64_t x) { return wrapped(-(wide)x); }

/* The quotient, cut towards 0. */
static int64_t quotient(int64_t x, int64_t y) {
  if (y == 0) {
    failed = true;
    return 0;
  }
  return wrapped((wide)x / y);
}

/* What x is more than that quotient times y: it has the sign of x. */
static int64_t remaining(int64_t x, int64_t y) {
  if (y == 0) {
    failed = true;
    return 0;
  }
  return wrapped(x - (wide)x / y * y);
}

/* The word that a form is worth, or any word where it sets `failed`. */
static int64_t word_of(const char *form, int64_t x, int64_t y) {
#define FORM(text, word) \
  if (strcmp(form, text) == 0) { \
    return (word); \
  }
#include "forms.h"
#undef FORM
  fprintf(stderr, "there is no form %s\n", form);
  exit(2);
}

static void print_forms(void) {
#define FORM(text, word) puts(text);
#include "forms.h"
#undef FORM
}

/* Puts into text what a run is wanted to write and to return. */
static void want(char *text, size_t room, const char *form, int64_t x, int64_t y) {
  failed = false;
  int64_t word = word_of(form, x, y);
  if (failed) {
    snprintf(text, room, " returned 1");
  } else {
    snprintf(text, room, " %" PRId64 " | returned 0", word);
  }
}

/* Runs the pipeline over a pair, prints what it did, and says whether that is what is wanted. */
static bool is_right(const char *form, int64_t x, int64_t y) {
  const uint64_t items[] = {5};
  char wanted[64];
  char returned[32];
  want(wanted, sizeof wanted, form, x, y);
  written[0] = '\0';
  snprintf(returned, sizeof returned, " returned %d", pipeline((uint64_t)x, (uint64_t)y, items, 1));
  write_more(returned);
  printf("x = %" PRId64 ", y = %" PRId64 ":%s\n", x, y, written);
  if (strcmp(written, wanted) == 0) {
    return true;
  }
  fprintf(stderr, "%s is wrong at x = %" PRId64 ", y = %" PRId64 ":%s, and wanted is%s\n", form, x, y,
          written, wanted);
  return false;
}

int main(int argc, char **argv) {
  const int64_t values[] = {INT64_MIN, INT64_MIN + 1, -1, 0, 1, INT64_MAX};
  const size_t count = sizeof values / sizeof *values;
  if (argc < 2) {
    print_forms();
    return 0;
  }
  for (size_t k = 0; k < count * count; k++) {
    if (!is_right(argv[1], values[k / count], values[k % count])) {
      return 1;
    }
  }
  printf("%zu right\n", count * count);
  return 0;
}
