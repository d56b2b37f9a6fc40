/* The search of a verdict, bound by bound where it is to be followed or stopped. */
#ifndef STM_BOUNDS_H
#define STM_BOUNDS_H

#include "commands.h"
#include "formula.h"

/* The sizes and the memory are those of the job's own bound. */
struct search {
    struct job *j;
    uint64_t sizes[SIZE_LEN];
    struct memory memory;
    double last_time; /* how long the last bound's own call took */
    uint64_t tries;   /* of the bounds that are clean */
};

/* What VERDICT answers for the job. Where it is followed (by the options, or on a terminal) or its time is limited, every bound is
 * asked by calls of its own, with budgets that grow: the answer is the same, since VERDICT solves bound after bound. Answers
 * the refusal, or 0. Does not return where the time is up. */
uint64_t search_bounds(struct search *s, uint64_t answer[ANSWER_LEN]);

#endif
