/* What a loop takes: two arrays of n items, and one of m. */
#ifndef LOOP_H
#define LOOP_H

#include <stdint.h>

#define LOOP_INPUTS \
  const int64_t *a, const int64_t *b, int64_t n, const int64_t *c, int64_t m

#define WITH_OFFSET_OF(name, offset) name##_##offset
#define WITH_OFFSET(name, offset) WITH_OFFSET_OF(name, offset)

#endif
