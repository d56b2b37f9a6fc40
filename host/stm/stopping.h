/* A search that ends before its answer: by its time, or by a signal such as Ctrl-C. */
#ifndef STM_STOPPING_H
#define STM_STOPPING_H

#include "commands.h"

/* From here to end_stopping: when the job's time is up the process ends with SPENT, and an interrupt tells where the search stood
 * before it ends the process as it does without this. Signals that the caller ignores stay ignored. */
void start_stopping(const struct job *j);
void end_stopping(void);

/* The answer is found: the time does not count any more, also where telling the answer takes long. */
void is_answered(const struct job *j);

/* Where the search stands: a bound that it has come to, and tries that it is known to have made. */
void stands_at(const struct job *j, uint64_t bound, uint64_t tries);

#endif
