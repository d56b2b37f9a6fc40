/* Another tool's table: file,property,bound,verdict,step,choices,proof, and what each row of it claims. From step on a column may be
 * left out. A first record that names the columns file and verdict is a header: then they stand in its order, and its other columns
 * are not read, which is told. */
#ifndef STM_CLAIMS_H
#define STM_CLAIMS_H

#include "commands.h"
#include "csv.h"

enum column { FILE_COLUMN, PROPERTY_COLUMN, BOUND_COLUMN, VERDICT_COLUMN, STEP_COLUMN, CHOICES_COLUMN, PROOF_COLUMN, COLUMNS };

struct claims {
    struct csv csv;
    size_t places[COLUMNS]; /* where a column stands, or behind every field */
    size_t width;           /* the most fields of a record */
    size_t first;           /* the first record behind the header */
    const char *folder;     /* the table's own, to which its paths are relative */
    size_t folder_len;
    const char *designs; /* where designs and pieces are that are not there */
};

/* One row. Its property, bound and choices are in a job. */
struct claim {
    uint64_t line;
    const char *texts[COLUMNS]; /* empty where there is none */
    int has_property, has_bound, has_verdict, has_step, has_choices, has_proof;
    uint64_t verdict; /* ANSWER_CLEAN, ANSWER_VIOLATED or ANSWER_SPENT */
    uint64_t step;
};

/* 0 where the table can be read and has rows; `free_claims` frees it in any case. */
int read_claims(struct job *j, const char *path, const char *designs, struct claims *c);
void free_claims(const struct claims *c);

/* The row of a record: its fields, its design and its piece. 0 where it is a good one; else why is told. Of a SPENT row nothing is read
 * from step on. */
int read_claim(const struct claims *c, size_t record, struct job *row, struct claim *claim);

/* The path of the claim's proof, in memory of its own; NULL, which is told, where there is none. */
char *proof_path(const struct claims *c, const struct claim *claim);

#endif
