/* The header of the C texts in trials: rows are kept in a buffer and written to standard output, words in
   decimal with a sign, a blank between two of a row. Behind so many rows as a run is allowed, it ends. */
#ifndef PIPELINE_H
#define PIPELINE_H

#include <stdint.h>
#include <unistd.h>

/* How a run ends: the pipeline's own number is added to RETURNED. */
enum { RETURNED = 100, ALL_ROWS = 110, OUT_OF_TIME = 111 };

static char written[1 << 16];
static volatile size_t written_count;
static uint64_t rows_left;
static int is_in_row;

static inline void write_out(void) {
  size_t from = 0;
  while (from < written_count) {
    ssize_t count = write(STDOUT_FILENO, written + from, written_count - from);
    if (count <= 0) {
      _exit(2);
    }
    from += (size_t)count;
  }
  written_count = 0;
}

static inline void put_char(char c) {
  if (written_count == sizeof written) {
    write_out();
  }
  written[written_count] = c;
  written_count++;
}

static inline void put_word(uint64_t word) {
  char digits[20];
  int count = 0;
  if (is_in_row) {
    put_char(' ');
  }
  is_in_row = 1;
  if (word >> 63) {
    put_char('-');
    word = 0 - word;
  }
  do {
    digits[count] = (char)('0' + word % 10);
    count++;
    word = word / 10;
  } while (word != 0);
  while (count > 0) {
    count--;
    put_char(digits[count]);
  }
}

static inline void put_row_end(void) {
  put_char('\n');
  is_in_row = 0;
  rows_left--;
  if (rows_left == 0) {
    write_out();
    _exit(ALL_ROWS);
  }
}

#define EMIT(w) put_word(w)
#define ENDROW() put_row_end()

#endif
