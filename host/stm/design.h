/* An accepted design, read for people: its variables, matrices, events, cells, movers and properties. CHECK has accepted the design,
 * so what stands in it is right; yet no read passes the end of its bytes. */
#ifndef STM_DESIGN_H
#define STM_DESIGN_H

#include "common.h"

struct state {
    int16_t values[STM_VALUES];
    uint16_t statuses[STM_STATUSES];
    uint16_t mark[1];
};

/* The kinds of a variable in the file. */
enum { BOOLEAN, INTEGER, EXTERNAL };

/* Bytes that are read from the front. Where none is left, a byte is 0. */
struct bytes {
    const uint8_t *at;
    size_t left;
};

uint8_t take_byte(struct bytes *b);
uint16_t take_number(struct bytes *b);

/* So many of the bytes, or as many as are left. */
struct bytes take_bytes(struct bytes *b, size_t len);

/* The byte that take_byte would give. */
uint8_t first_byte(const struct bytes *b);

/* How much of a state the design has: the trailer's numbers. */
size_t variables_of(const struct job *j);
size_t matrices_of(const struct job *j);

unsigned kind_of(const struct job *j, size_t variable);

/* The expression of an event of a matrix. */
struct bytes event_of(const struct job *j, size_t matrix, size_t event);

/* The expression of property 0, which is the piece where there is one, or of property 2. */
struct bytes property_of(const struct job *j);

struct cell {
    size_t number; /* in the file's order, invalid cells too */
    unsigned matrix, status, event, target;
    int invalid;
    struct bytes guard, action; /* without bytes where there is no guard */
};

/* The cells from the first one on: next_cell is 0 after the last one. */
struct cells {
    struct bytes bytes;
    size_t next, count;
};

struct cells cells_of(const struct job *j);
int next_cell(struct cells *all, struct cell *c);

/* What a choice moves: a normal cell, or else an external variable. */
struct mover {
    int is_cell;
    struct cell cell;
    size_t variable;
};

struct mover mover_of(const struct job *j, unsigned choice);

#endif
