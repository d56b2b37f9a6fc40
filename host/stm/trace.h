/* The run of a job's choices, step by step. */
#ifndef STM_TRACE_H
#define STM_TRACE_H

#include "design.h"

/* A step of the run: the state before it (at step 0 the first state, too) and after it, and whether the property holds there and held
 * at the step before (at step 0 as if it did). */
struct moment {
    size_t step;
    struct state before, now;
    unsigned idle;
    int holds, held;
};

/* The first breaking step of a run that breaks nothing. */
#define NEVER_BROKEN UINT64_MAX

/* Shows each step of a run that REPLAY accepts, and which first breaks the property at that step; MISUSED where there is no memory,
 * else 0. */
typedef void show_moment(const struct job *j, const struct moment *m);
int walk(const struct job *j, uint64_t broken, show_moment *show);

/* A line of the trace, or an object: step, mover, idle, property holds, variables, |, statuses. The line does not show the mark; where
 * it is set, no property holds. */
show_moment print_moment;

/* What REPLAY answers, in order. */
enum { REPLAY_BROKEN, REPLAY_STEP, REPLAY_EVENTS, REPLAY_GUARDS, REPLAY_LEN };

/* REPLAY of the job's choices. Answers the refusal, or 0. */
uint64_t replay_of(const struct job *j, uint64_t answer[REPLAY_LEN]);

/* The steps, as lines, words or objects by the job's options, and what REPLAY answered of them. */
int print_run(const struct job *j, const uint64_t answer[REPLAY_LEN]);

#endif
