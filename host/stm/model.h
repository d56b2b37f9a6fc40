/* A satisfying assignment as solvers write it: lines of literals that start with v, between comments (c) and the answer (s); or
 * minisat's file, whose first line is SAT and whose second has the literals. A 0 closes the model. */
#ifndef STM_MODEL_H
#define STM_MODEL_H

#include "text.h"

/* Reads the values of the variables 1 to n, each of which has to have just one; 0 where they can be read. */
int read_model(struct job *j, const char *path, uint64_t n, uint8_t *values);

#endif
