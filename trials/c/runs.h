/* Runs many pipelines over inputs that are read from standard input, each run in a process of its own.

   A run is a line `PIPELINE ROWS MILLISECONDS INPUTS`: the number of the pipeline, how many rows it may
   print, how long it may take, and how many inputs follow. An input is a line `int WORD` or
   `array COUNT ITEM..`, words as numbers from 0 up to but without 2^64. What is written for a run is its
   rows and a line that says how it ended: `done`, `trap`, `rows` where it printed as many as it may, `time`
   where it took longer than it may, and `broken` and a number where it ended in any other way. */
#ifndef RUNS_H
#define RUNS_H

#include <inttypes.h>
#include <signal.h>
#include <stdint.h>
#include <stdio.h>
#include <stdlib.h>
#include <string.h>
#include <sys/time.h>
#include <sys/wait.h>

#include "pipeline.h"

struct input {
  uint64_t *items;
  uint64_t count;
  uint64_t word;
};

typedef int pipeline_run(const struct input *inputs);

enum { MOST_INPUTS = 16 };

static void stop_unless(int holds, const char *what) {
  if (!holds) {
    fprintf(stderr, "%s\n", what);
    exit(2);
  }
}

static void end_at_time(int signal) {
  (void)signal;
  write_out();
  _exit(OUT_OF_TIME);
}

/* An array has exactly the room of its items, so that a read behind it is found. */
static struct input read_input(void) {
  struct input input = {NULL, 0, 0};
  char kind[8];
  stop_unless(scanf("%7s", kind) == 1, "an input is missing");
  if (strcmp(kind, "int") == 0) {
    stop_unless(scanf("%" SCNu64, &input.word) == 1, "a word is missing");
    return input;
  }
  stop_unless(scanf("%" SCNu64, &input.count) == 1, "a count is missing");
  input.items = malloc(input.count * sizeof *input.items);
  stop_unless(input.items != NULL || input.count == 0, "there is no memory");
  for (uint64_t k = 0; k < input.count; k++) {
    stop_unless(scanf("%" SCNu64, &input.items[k]) == 1, "an item is missing");
  }
  return input;
}

static void run_within(pipeline_run *run, const struct input *inputs, uint64_t rows, long milliseconds) {
  struct itimerval limit = {{0, 0}, {milliseconds / 1000, milliseconds % 1000 * 1000}};
  rows_left = rows;
  signal(SIGALRM, end_at_time);
  setitimer(ITIMER_REAL, &limit, NULL);
  int returned = run(inputs);
  write_out();
  _exit(RETURNED + returned);
}

static void print_ending(int status) {
  int code = WIFEXITED(status) ? WEXITSTATUS(status) : -1;
  if (code == RETURNED) {
    puts("done");
  } else if (code == RETURNED + 1) {
    puts("trap");
  } else if (code == ALL_ROWS) {
    puts("rows");
  } else if (code == OUT_OF_TIME) {
    puts("time");
  } else {
    printf("broken %d\n", WIFEXITED(status) ? code : -WTERMSIG(status));
  }
}

static int run_all(pipeline_run *const *pipelines, unsigned count) {
  struct input inputs[MOST_INPUTS];
  unsigned pipeline;
  unsigned input_count;
  uint64_t rows;
  long milliseconds;
  while (scanf("%u %" SCNu64 " %ld %u", &pipeline, &rows, &milliseconds, &input_count) == 4) {
    stop_unless(pipeline < count && input_count <= MOST_INPUTS, "a run is wrong");
    for (unsigned k = 0; k < input_count; k++) {
      inputs[k] = read_input();
    }
    fflush(stdout);
    pid_t child = fork();
    stop_unless(child >= 0, "no process could be made");
    if (child == 0) {
      run_within(pipelines[pipeline], inputs, rows, milliseconds);
    }
    int status = 0;
    waitpid(child, &status, 0);
    print_ending(status);
    for (unsigned k = 0; k < input_count; k++) {
      free(inputs[k].items);
    }
  }
  return 0;
}

#endif
