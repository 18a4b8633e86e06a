/* Checks the pipeline.h of this folder with one pipeline, and prints the rows that it gives.

   PROGRAM names the main program that driver.sh writes for the C text of the pipeline. It is called for
   arrays of several capacities. Each time it must end with the same number and count the same words and rows;
   the words for which there is room must be the same, and nothing may be written behind the capacity. This
   program ends with that number, or with 3 where something is wrong. */
#include <inttypes.h>
#include <stdio.h>
#include <stdlib.h>

#define main run_pipeline
#include PROGRAM
#undef main

struct pipeline_output pipeline_output;

/* What an array holds where nothing was written. */
static const uint64_t untouched = 0x5a5a5a5a5a5a5a5aULL;

static void expect(int holds, const char *what, uint64_t capacity) {
  if (!holds) {
    fprintf(stderr, "wrong at the capacity %" PRIu64 ": %s\n", capacity, what);
    exit(3);
  }
}

static uint64_t *array_of(uint64_t size) {
  uint64_t *words = malloc(size * sizeof *words);
  if (words == NULL) {
    perror("words");
    exit(3);
  }
  for (uint64_t k = 0; k < size; k++) {
    words[k] = untouched;
  }
  return words;
}

static int run_into(uint64_t *words, uint64_t capacity, int count, char **inputs) {
  pipeline_output = (struct pipeline_output){.words = words, .capacity = capacity};
  return run_pipeline(count, inputs);
}

static void print_rows(const uint64_t *words, uint64_t count, uint64_t rows) {
  uint64_t width = rows == 0 ? 0 : count / rows;
  expect(width * rows == count, "rows differ in how many words they have", count);
  for (uint64_t k = 0; k < count; k++) {
    printf("%" PRId64 "%c", pipeline_number(words[k]), (k + 1) % width == 0 ? '\n' : ' ');
  }
}

int main(int count, char **inputs) {
  int ended = run_into(NULL, 0, count, inputs);
  uint64_t wanted = pipeline_output.count;
  uint64_t rows = pipeline_output.rows;
  uint64_t *all = array_of(wanted);
  run_into(all, wanted, count, inputs);

  const uint64_t capacities[] = {1, wanted / 2, wanted, wanted + 1};
  for (uint64_t k = 0; k < sizeof capacities / sizeof *capacities; k++) {
    uint64_t capacity = capacities[k];
    uint64_t *words = array_of(wanted + 2);
    expect(run_into(words, capacity, count, inputs) == ended, "what it ends with", capacity);
    expect(pipeline_output.count == wanted, "the count of words", capacity);
    expect(pipeline_output.rows == rows, "the count of rows", capacity);
    for (uint64_t place = 0; place < wanted + 2; place++) {
      int is_written = place < capacity && place < wanted;
      expect(words[place] == (is_written ? all[place] : untouched), "the words", capacity);
    }
    free(words);
  }

  print_rows(all, wanted, rows);
  free(all);
  expect(fflush(stdout) == 0 && !ferror(stdout), "the rows, which are not written", wanted);
  return ended;
}
