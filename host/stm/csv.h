/* A table of RFC 4180, read whole: records of fields parted by commas. A field in quotes may hold commas, line feeds and doubled quotes.
 * Blanks around a field are no part of it, and neither is a byte order mark before the first one. */
#ifndef STM_CSV_H
#define STM_CSV_H

#include "text.h"

/* A record that is not blank, and the line that it begins in. */
struct record {
    uint64_t line;
    size_t first, count; /* of its fields */
};

struct csv {
    struct text text; /* its bytes are the fields, each closed by a NUL */
    size_t *fields;   /* where each begins */
    size_t fields_len, fields_room;
    struct record *records;
    size_t len, room;
    int state;
    int has_mark; /* whether a byte order mark was left out */
    uint64_t opened; /* the line of the latest opening quote */
    struct record now;
};

/* 0 where the table can be read; `free_csv` frees it in any case. */
int read_csv(struct job *j, const char *path, struct csv *c);
void free_csv(const struct csv *c);

/* A field as a string, which is empty where the record has no such field. */
const char *field_of(const struct csv *c, const struct record *r, size_t field);

#endif
