/* Expressions and actions of a design: their text in infix, and the value of an expression. */
#ifndef STM_EXPRESSION_H
#define STM_EXPRESSION_H

#include "design.h"

/* Text of which whole names and signs are left out from where it gets too long; it ends in .. there. */
enum { MAX_PHRASE = 1000 };

struct phrase {
    char text[MAX_PHRASE + sizeof " .."];
    size_t len;
    int cut;
};

/* v1 is a variable, m0 the status of a matrix; next v1 and next m0 are those of the next state. Products bind more than sums, sums
 * more than comparisons, and those more than not, and, or; all else has parentheses. */
struct phrase expression_text(struct bytes expression);

/* The statements, parted by ; on one line. */
struct phrase action_text(struct bytes action);

/* The expression's value, with numbers that wrap in 16 bits; a Boolean is 0 or 1. This code is not proved: it tells why a step went
 * as it did, and never what is answered of a run. */
int value_of(struct bytes expression, const struct state *now, const struct state *next);

/* The status of a matrix; 0 for a number that is none's. */
uint16_t status_in(const struct state *s, unsigned matrix);

#endif
