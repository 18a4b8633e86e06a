/* A program of one's own that calls a pipeline of one array, and finds its rows in an array:

     ./strymonas compile examples/quotients.strm >quotients.c
     cc -std=c11 -Iexamples/c/array quotients.c examples/c/array/main.c -o quotients
     ./quotients

   The pipeline divides 10 by each item. Here it gives three rows of one word, 2, -5 and 3, and then
   divides by zero. There is room for two words. */
#include <inttypes.h>
#include <stdio.h>

#include "pipeline.h"

enum { CAPACITY = 2 };

struct pipeline_output pipeline_output;

/* As the line `int pipeline(..)` of the C text has it. */
int pipeline(const uint64_t *a0, uint64_t n0);

int main(void) {
  const int64_t items[] = {5, -2, 3, 0, 7};
  uint64_t words[CAPACITY];

  pipeline_output = (struct pipeline_output){.words = words, .capacity = CAPACITY};
  int returned = pipeline((const uint64_t *)items, sizeof items / sizeof *items);

  for (uint64_t k = 0; k < pipeline_output.count && k < CAPACITY; k++) {
    printf("%" PRId64 "\n", pipeline_number(words[k]));
  }
  printf("rows: %" PRIu64 "\n", pipeline_output.rows);
  if (pipeline_output.count > CAPACITY) {
    printf("words without room: %" PRIu64 "\n", pipeline_output.count - CAPACITY);
  }
  if (returned != 0) {
    printf("an expression divided by zero\n");
  }
  if (fflush(stdout) != 0 || ferror(stdout)) {
    fputs("what was to be printed is not written\n", stderr);
    return 7;
  }
  return returned;
}
