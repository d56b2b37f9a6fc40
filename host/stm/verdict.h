/* What is told where a verdict is spent. */
#ifndef STM_VERDICT_H
#define STM_VERDICT_H

#include "commands.h"

/* `stopped` says what ended the search in the place of the budget, or is NULL. */
void print_spent(FILE *out, const struct job *j, const uint64_t answer[ANSWER_LEN], const char *stopped);

#endif
