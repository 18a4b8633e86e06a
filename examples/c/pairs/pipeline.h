/* The header of the C texts that pairs.c runs: each word and each end of a row goes to the driver. */
#ifndef PIPELINE_H
#define PIPELINE_H

#include <stdint.h>

void take_word(uint64_t word);
void end_row(void);

#define EMIT(w) take_word(w)
#define ENDROW() end_row()

#endif
