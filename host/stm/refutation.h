/* A proof tested by REFUTE against the formula of a job. */
#ifndef STM_REFUTATION_H
#define STM_REFUTATION_H

#include "drat.h"

/* What REFUTE answers. */
enum { ACCEPTED, DOES_NOT_FOLLOW, ENDED };

/* 0 where REFUTE answers; else the exit status, and why is told. */
int refute_by(const struct job *j, const struct proof *p, uint64_t answer[2]);

/* Why a proof is not accepted, by what REFUTE answered. */
void print_fault(FILE *out, const struct proof *p, const uint64_t answer[2]);

#endif
