/* Times each loop of list.h: as strymonas wrote it, as written by hand and, with WITH_RUST, with Rust's
   iterators, each at three offsets of its code. All run over the same random items, one after the other, in
   rounds. The least time of each counts.

   It takes the numbers of items and of rounds, and prints a line for each loop: the milliseconds of the loop
   by hand, and how many times as long the emitted loop and Rust's iterators take. Where a loop doesn't give
   the result of the loop by hand, or the emitted one doesn't give one word and return 0, it says so on standard
   error and ends with 1. */
#define _POSIX_C_SOURCE 199309L
#include <stdio.h>
#include <stdlib.h>
#include <time.h>

#include "loop.h"
#include "pipeline.h"

uint64_t emitted_word;
uint64_t emitted_words;

enum { OFFSETS = 3, SHORT_COUNT = 3000 };
enum { EMITTED, HAND, RUST, KINDS };

static const char *const kind_names[KINDS] = {"the emitted loop", "the loop by hand", "Rust's iterators"};

typedef int emitted_loop(const uint64_t *a0, uint64_t n0, const uint64_t *a1, uint64_t n1,
                         const uint64_t *a2, uint64_t n2);
typedef int64_t other_loop(LOOP_INPUTS);

#ifdef WITH_RUST
#define IF_RUST(...) __VA_ARGS__
#else
#define IF_RUST(...)
#endif

#define LOOP(name) \
  emitted_loop emitted_##name##_0, emitted_##name##_1, emitted_##name##_2; \
  other_loop hand_##name##_0, hand_##name##_1, hand_##name##_2; \
  IF_RUST(other_loop rust_##name##_0, rust_##name##_1, rust_##name##_2;)
#include "list.h"
#undef LOOP

struct loop {
  const char *name;
  emitted_loop *emitted[OFFSETS];
  other_loop *hand[OFFSETS];
  other_loop *rust[OFFSETS];
};

static const struct loop loops[] = {
#define LOOP(name) \
  {#name, \
   {emitted_##name##_0, emitted_##name##_1, emitted_##name##_2}, \
   {hand_##name##_0, hand_##name##_1, hand_##name##_2}, \
   {IF_RUST(rust_##name##_0, rust_##name##_1, rust_##name##_2)}},
#include "list.h"
#undef LOOP
};

enum { LOOPS = sizeof loops / sizeof *loops };

static int64_t *a;
static int64_t *b;
static int64_t *c;
static int64_t n;

/* Items from -1000 up to but without 1000, so that no sum or product of a loop leaves its type. */
static int64_t *random_items(int64_t count, uint64_t state) {
  int64_t *items = malloc((size_t)count * sizeof *items);
  if (items == NULL) {
    perror("items");
    exit(2);
  }
  for (int64_t k = 0; k < count; k++) {
    state = state * 6364136223846793005ULL + 1442695040888963407ULL;
    items[k] = (int64_t)((state >> 33) % 2000) - 1000;
  }
  return items;
}

/* Runs a loop, and says whether it gave one result. */
static int gives(const struct loop *loop, int kind, int offset, int64_t *result) {
  if (kind == EMITTED) {
    emitted_words = 0;
    int returned = loop->emitted[offset]((const uint64_t *)a, (uint64_t)n, (const uint64_t *)b, (uint64_t)n,
                                         (const uint64_t *)c, SHORT_COUNT);
    *result = (int64_t)emitted_word;
    return returned == 0 && emitted_words == 1;
  }
  other_loop *run = kind == HAND ? loop->hand[offset] : loop->rust[offset];
  *result = run(a, b, n, c, SHORT_COUNT);
  return 1;
}

static double now(void) {
  struct timespec time;
  clock_gettime(CLOCK_MONOTONIC, &time);
  return (double)time.tv_sec * 1e3 + (double)time.tv_nsec / 1e6;
}

/* Runs a loop in each of its forms once, and notes the least time of each and whether its result is wrong. */
static void run_forms(const struct loop *loop, int kinds, double least[KINDS], int is_wrong[KINDS]) {
  int64_t wanted = 0;
  gives(loop, HAND, 0, &wanted);
  for (int offset = 0; offset < OFFSETS; offset++) {
    for (int kind = 0; kind < kinds; kind++) {
      int64_t result = 0;
      double from = now();
      int is_given = gives(loop, kind, offset, &result);
      double spent = now() - from;
      if (least[kind] == 0 || spent < least[kind]) {
        least[kind] = spent;
      }
      if (!is_given || result != wanted) {
        is_wrong[kind] = 1;
      }
    }
  }
}

/* The number in a word, from 1 to a thousand million. */
static int64_t number_in(const char *word) {
  char *end = NULL;
  long long number = strtoll(word, &end, 10);
  if (end == word || *end != '\0' || number < 1 || number > 1000000000) {
    fprintf(stderr, "%s is no number from 1 to 1000000000\n", word);
    exit(2);
  }
  return number;
}

int main(int count, char **words) {
  static double least[LOOPS][KINDS];
  static int is_wrong[LOOPS][KINDS];
  int differs = 0;
  int kinds = KINDS;
#ifndef WITH_RUST
  kinds = RUST;
#endif
  if (count != 3) {
    fprintf(stderr, "usage: %s ITEMS ROUNDS\n", words[0]);
    return 2;
  }
  n = number_in(words[1]);
  int64_t rounds = number_in(words[2]);
  a = random_items(n, 1);
  b = random_items(n, 2);
  c = random_items(SHORT_COUNT, 3);
  for (int64_t round = 0; round < rounds; round++) {
    for (int k = 0; k < LOOPS; k++) {
      run_forms(&loops[k], kinds, least[k], is_wrong[k]);
    }
  }
  printf("%-20s %10s %14s %12s\n", "loop", "hand, ms", "emitted/hand", "rust/hand");
  for (int k = 0; k < LOOPS; k++) {
    printf("%-20s %10.2f %14.2f ", loops[k].name, least[k][HAND], least[k][EMITTED] / least[k][HAND]);
    if (kinds > RUST) {
      printf("%12.2f\n", least[k][RUST] / least[k][HAND]);
    } else {
      printf("%12s\n", "-");
    }
  }
  for (int k = 0; k < LOOPS; k++) {
    for (int kind = 0; kind < kinds; kind++) {
      if (is_wrong[k][kind]) {
        fprintf(stderr, "%s: the result of %s is wrong\n", loops[k].name, kind_names[kind]);
        differs = 1;
      }
    }
  }
  return differs;
}
