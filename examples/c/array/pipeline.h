/* A header for the C texts that strymonas writes: rows go into an array of the program that calls the
   pipeline. A word for which there is no room is counted, and not written. */
#ifndef PIPELINE_H
#define PIPELINE_H

#include <stdint.h>

struct pipeline_output {
  uint64_t *words;   /* the array: the words of each row, behind those of the row before */
  uint64_t capacity; /* how many words it has room for */
  uint64_t count;    /* how many words came, with those for which there was no room */
  uint64_t rows;     /* how many rows ended */
};

/* Where rows go. The program that calls the pipeline defines this, and sets it before each call; one
   call goes on at a time. */
extern struct pipeline_output pipeline_output;

static inline void pipeline_emit(uint64_t word) {
  if (pipeline_output.count < pipeline_output.capacity) {
    pipeline_output.words[pipeline_output.count] = word;
  }
  pipeline_output.count++;
}

/* The signed number of a word: from 2^63 on it is the word less 2^64. */
static inline int64_t pipeline_number(uint64_t word) {
  return word <= INT64_MAX ? (int64_t)word : -1 - (int64_t)(UINT64_MAX - word);
}

#define EMIT(w) pipeline_emit(w)
#define ENDROW() ((void)pipeline_output.rows++)

#endif
