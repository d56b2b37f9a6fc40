/* Sizes of formulas, which other calls use. */
#ifndef FUZZ_FORMULAS_H
#define FUZZ_FORMULAS_H

#include "../stm/formula.h"

/* SIZE: 1 where it is not refused. */
int sizes_of(uint64_t property, uint64_t bound, uint64_t sizes[SIZE_LEN]);

/* A search over a formula is affordable below this product of its variables and words. */
enum { MAX_SEARCH = 3000000 };

/* The greatest bound up to `bound` whose formula has at most this product, or 0; a bound that is refused stays. */
uint64_t affordable(uint64_t property, uint64_t bound, uint64_t most, uint64_t sizes[SIZE_LEN]);

/* One flag in each frame of a formula; so many in a hundred of them are 1, the others 0 or no value. */
void put_flags(const uint64_t sizes[SIZE_LEN], uint64_t bound, unsigned right, uint8_t *values, size_t len);

#endif
