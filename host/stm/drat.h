/* A proof in DRAT text, as solvers write it, read into the words of a refutation. A line is a clause (literals and a closing 0), a
 * deletion (the same after the word d), a comment (its first word is c), or blank. Deletions are tested for their form and left
 * out: without them more clauses stand at every place, and what follows from fewer follows from more. */
#ifndef STM_DRAT_H
#define STM_DRAT_H

#include "text.h"

/* Where a clause begins: its first word, and its line in the file, from 1 on. */
struct clause_start {
    size_t word;
    uint64_t line;
};

/* The room of an array is how many elements its memory takes. */
struct proof {
    struct text text;
    int32_t *words;
    size_t len, room;
    struct clause_start *starts;
    size_t clauses, starts_room;
};

/* Reads a proof; 0 where it can be read. `free_proof` frees it in any case. */
int read_proof(struct job *j, const char *path, struct proof *p);
void free_proof(const struct proof *p);

/* The line of the clause in which a word stands. */
uint64_t line_of(const struct proof *p, uint64_t word);

#endif
