/* The formula of a job: its sizes, and its words in memory. */
#ifndef STM_FORMULA_H
#define STM_FORMULA_H

#include "common.h"

/* What SIZE answers, in order. */
enum { SIZE_STATE, SIZE_PROPERTY, SIZE_MOVERS, SIZE_STEP, SIZE_VARIABLES, SIZE_CLAUSES, SIZE_WORDS, SIZE_LEN };

/* SIZE for the job's design, piece and property. Answers the refusal, or 0. */
uint64_t sizes_for(const struct job *j, uint64_t bound, uint64_t sizes[SIZE_LEN]);

/* The variables of a frame, F; the flag of mover 0 in a frame. */
uint64_t frame_of(const uint64_t sizes[SIZE_LEN]);
uint64_t flags_of(const uint64_t sizes[SIZE_LEN], uint64_t frame);

/* All parts of the formula, in memory for so many words as SIZE answers; *at is then the words. Answers ENCODE's refusal, or 0. */
uint64_t put_parts(const struct job *j, const uint64_t sizes[SIZE_LEN], uint64_t bound, int32_t *clauses, size_t *at);

#endif
