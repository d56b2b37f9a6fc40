/* A step of a run told in words, before the first one how names are formed. What changed, what was idle and whether the property holds
 * is as STEP and HOLDS answer; why it is so is found here, by code that is not proved. Where the two disagree, only the answer is told,
 * and the disagreement on standard error. */
#ifndef STM_EXPLAIN_H
#define STM_EXPLAIN_H

#include "trace.h"

show_moment explain_moment;

/* How often they disagreed. The fuzzer takes any for a fault. */
extern unsigned long disagreements;

#endif
