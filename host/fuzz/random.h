/* Seeded numbers: one seed makes the same calls again. */
#ifndef FUZZ_RANDOM_H
#define FUZZ_RANDOM_H

#include <stddef.h>
#include <stdint.h>

void set_seed(uint64_t seed);
uint64_t draw(void);
size_t below(size_t limit);
int chance(unsigned percent);

#define PICK(...) (((const uint64_t[]){__VA_ARGS__})[below(sizeof((const uint64_t[]){__VA_ARGS__}) / sizeof(uint64_t))])

/* One of the texts of an array. */
#define ONE_OF(texts) ((texts)[below(sizeof(texts) / sizeof((texts)[0]))])

/* A little less, exactly, or more than what is needed. */
size_t near(size_t len);

/* A number over a byte. Cut to one, most of them would be taken. */
uint64_t over_a_byte(void);

#endif
