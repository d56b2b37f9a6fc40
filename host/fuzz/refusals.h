/* What is asked for, and what a call is refused for. */
#ifndef FUZZ_REFUSALS_H
#define FUZZ_REFUSALS_H

#include <stddef.h>
#include <stdint.h>

enum { MAX_BOUND = 100 };

/* An accepted design has property 2 in version 2 alone. */
uint64_t last_property(void);

uint64_t any_property(void);
uint64_t any_bound(void);

/* The choices to lend for a bound, which may be no bound. */
size_t choices_for(uint64_t bound);

/* What a call with a property and a bound is refused for, before its own reasons; and one that has a formula. */
uint64_t first_refusal(uint64_t property, uint64_t bound);
uint64_t formula_refusal(uint64_t property, uint64_t bound);

#endif
