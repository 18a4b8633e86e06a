/* What the programs that driver.sh writes are made of: they take their inputs as `strymonas exec` does, an array from
   a file of values and an int from a word, and end with its statuses and its lines, behind the word `pipeline`. The
   table `inputs` of the examples says of texts what both answer. */
#ifndef DRIVER_H
#define DRIVER_H

#include <errno.h>
#include <inttypes.h>
#include <stdint.h>
#include <stdio.h>
#include <stdlib.h>
#include <string.h>

/* The numbers that a program ends with. */
enum {
  DONE = 0,
  MISSING = 2,
  TRAP = 4,
  READ_FAULT = 6,
  WRITE_FAULT = 7,
  NO_MEMORY = 8,
  BAD_INPUT = 9,
  TOO_LONG = 10
};

/* The most bytes of a file of values, and the most items. */
enum { MOST_VALUE_BYTES = 67108864, MOST_ITEMS = 4194304 };

struct items {
  uint64_t *items;
  uint64_t count;
};

struct text {
  char *bytes;
  size_t count;
};

/* Ends the program with a status, a line for it, and the name of a file where one is given. */
static inline void end_with(int status, const char *line, const char *name) {
  fprintf(stderr, "pipeline: %s%s\n", line, name);
  exit(status);
}

/* Ends the program where the input of a position is wrong. */
static inline void end_with_bad_input(int position, const char *why) {
  fprintf(stderr, "pipeline: bad input: %d: %s\n", position, why);
  exit(BAD_INPUT);
}

/* The same where an item of its file is, at a place. */
static inline void end_with_bad_item(int position, const char *why, size_t place) {
  fprintf(stderr, "pipeline: bad input: %d: %s at %zu\n", position, why, place);
  exit(BAD_INPUT);
}

/* Ends the program unless it was given a word for each of its inputs. */
static inline void expect_inputs(int count, int inputs) {
  int given = count - 1;
  if (given < inputs) {
    end_with_bad_input(given, "absent");
  }
  if (given > inputs) {
    end_with_bad_input(inputs, "unknown");
  }
}

/* Room for more, of so many bytes, behind what stands there. */
static inline void *with_room(void *old, size_t size) {
  void *room = realloc(old, size);
  if (room == NULL) {
    end_with(NO_MEMORY, "no memory", "");
  }
  return room;
}

/* Reads a file to its end, or to one byte more than it may have. */
static inline struct text text_in(const char *name) {
  const size_t most = (size_t)MOST_VALUE_BYTES + 1;
  struct text text = {NULL, 0};
  size_t room = 0;
  errno = 0;
  FILE *file = fopen(name, "rb");
  if (file == NULL) {
    int is_missing = errno == ENOENT;
    end_with(is_missing ? MISSING : READ_FAULT, is_missing ? "missing: " : "read fault: ", name);
  }
  while (text.count < most) {
    if (text.count == room) {
      room = room == 0 ? 8192 : 2 * room;
      room = room < most ? room : most;
      text.bytes = with_room(text.bytes, room);
    }
    size_t got = fread(text.bytes + text.count, 1, room - text.count, file);
    text.count += got;
    if (got == 0) {
      if (ferror(file)) {
        end_with(READ_FAULT, "read fault: ", name);
      }
      fclose(file);
      return text;
    }
  }
  end_with(TOO_LONG, "too long: ", name);
  return text;
}

static inline int is_blank(char byte) {
  return byte == ' ' || byte == '\t' || byte == '\r' || byte == '\n';
}

/* What an item is: a number, no number, or one out of range. */
enum value { A_NUMBER, BAD, OUT_OF_RANGE };

/* Puts the number that an item stands for into `word`, modulo 2^64. An item is a - where the number has a sign, and
   one digit or more, of which any number may be zeros at the start; it is from -2^63 to 2^63 - 1. */
static inline enum value read_value(const char *item, size_t count, uint64_t *word) {
  const size_t sign = count > 0 && item[0] == '-' ? 1 : 0;
  const uint64_t most = sign ? UINT64_C(1) << 63 : (UINT64_C(1) << 63) - 1;
  enum value value = count == sign ? BAD : A_NUMBER;
  uint64_t number = 0;
  for (size_t k = sign; k < count; k++) {
    if (item[k] < '0' || item[k] > '9') {
      return BAD;
    }
    const uint64_t digit = (uint64_t)(item[k] - '0');
    if (number > (most - digit) / 10) {
      value = OUT_OF_RANGE;
    } else {
      number = 10 * number + digit;
    }
  }
  *word = sign ? UINT64_C(0) - number : number;
  return value;
}

/* The number that a word is, for the input of this position. */
static inline uint64_t number_in(const char *word, int position) {
  uint64_t number = 0;
  if (read_value(word, strlen(word), &number) != A_NUMBER) {
    end_with_bad_input(position, "not a number");
  }
  return number;
}

/* Puts an item behind those that there are. */
static inline void add_item(struct items *all, uint64_t item, uint64_t *room) {
  if (all->count == *room) {
    *room = *room == 0 ? 64 : 2 * *room;
    all->items = with_room(all->items, (size_t)*room * sizeof *all->items);
  }
  all->items[all->count] = item;
  all->count++;
}

/* The numbers in a file, for the input of this position. */
static inline struct items items_in(const char *name, int position) {
  struct text text = text_in(name);
  struct items all = {NULL, 0};
  uint64_t room = 0;
  size_t at = 0;
  for (;;) {
    while (at < text.count && is_blank(text.bytes[at])) {
      at++;
    }
    if (at == text.count) {
      free(text.bytes);
      return all;
    }
    const size_t place = at;
    while (at < text.count && !is_blank(text.bytes[at])) {
      at++;
    }
    if (all.count == MOST_ITEMS) {
      end_with_bad_item(position, "TooMany", place);
    }
    uint64_t item = 0;
    const enum value value = read_value(text.bytes + place, at - place, &item);
    if (value != A_NUMBER) {
      end_with_bad_item(position, value == BAD ? "Bad" : "Range", place);
    }
    add_item(&all, item, &room);
  }
}

/* What the program ends with, where the pipeline returned this: the rows are written whole before, and where an
   expression trapped a line says so. */
static inline int end_of(int returned) {
  if (fflush(stdout) != 0 || ferror(stdout)) {
    end_with(WRITE_FAULT, "write fault", "");
  }
  if (returned != 0) {
    fputs("pipeline: trap\n", stderr);
    return TRAP;
  }
  return DONE;
}

#endif
