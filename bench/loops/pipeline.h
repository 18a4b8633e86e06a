/* The header of the C texts that loops.sh times: each pipeline gives one word, which is kept. */
#ifndef PIPELINE_H
#define PIPELINE_H

#include <stdint.h>

/* The last word that came, and how many did. */
extern uint64_t emitted_word;
extern uint64_t emitted_words;

#define EMIT(w) ((void)(emitted_word = (w), emitted_words++))
#define ENDROW() ((void)0)

#endif
