/* A header for the C texts that strymonas writes: rows go to standard output, a blank between two words of a
   row. Where a write fails the program says so and ends with 7, as `strymonas run` does. What waits in the buffer
   of standard output at the end is for the program to write: driver.h looks at that. Each user brings a header
   of their own. */
#ifndef PIPELINE_H
#define PIPELINE_H

#include <inttypes.h>
#include <stdint.h>
#include <stdio.h>
#include <stdlib.h>

static int pipeline_in_row = 0;

/* Goes on unless a call that writes gave a number below 0. */
static inline void pipeline_written(int given) {
  if (given < 0) {
    fputs("pipeline: write fault\n", stderr);
    exit(7);
  }
}

static inline void pipeline_emit(uint64_t word) {
  pipeline_written(printf(pipeline_in_row ? " %" PRId64 : "%" PRId64, (int64_t)word));
  pipeline_in_row = 1;
}

static inline void pipeline_end_row(void) {
  pipeline_written(putchar('\n'));
  pipeline_in_row = 0;
}

#define EMIT(w) pipeline_emit(w)
#define ENDROW() pipeline_end_row()

#endif
