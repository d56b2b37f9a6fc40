#include "expression.h"

#include <stdarg.h>

/* Operators of expressions, and the statement that is no assignment. */
enum {
    NUMBER = 0x01,
    VARIABLE = 0x02,
    STATUS = 0x03,
    SUM = 0x04,
    DIFFERENCE = 0x05,
    NEXT_VARIABLE = 0x06,
    NEXT_STATUS = 0x07,
    PRODUCT = 0x08,
    CONSTANT = 0x10,
    FLAG = 0x11,
    NOT = 0x12,
    AND = 0x13,
    OR = 0x14,
    EQUAL = 0x15,
    LESS = 0x16,
    NEXT_FLAG = 0x17,
    IF = 0x21
};

/* A name or sign that does not fit ends the text, so that none is shown in part: v1 is not v12. */
__attribute__((format(printf, 2, 3))) static void append(struct phrase *p, const char *format, ...)
{
    if (p->cut)
        return;
    va_list arguments;
    va_start(arguments, format);
    int len = vsnprintf(p->text + p->len, MAX_PHRASE + 1 - p->len, format, arguments);
    va_end(arguments);
    if (len >= 0 && p->len + (size_t)len <= MAX_PHRASE) {
        p->len += (size_t)len;
        return;
    }
    strcpy(p->text + p->len, p->len && p->text[p->len - 1] == ' ' ? ".." : " ..");
    p->cut = 1;
}

static int16_t wrapped(int exact)
{
    return (int16_t)(uint16_t)exact;
}

static int16_t take_signed(struct bytes *b)
{
    return wrapped(take_number(b));
}

static const char *sign_of(unsigned operator)
{
    switch (operator) {
    case SUM:
        return "+";
    case DIFFERENCE:
        return "-";
    case AND:
        return "and";
    case OR:
        return "or";
    case EQUAL:
        return "=";
    default:
        return "<";
    }
}

static int is_sum(unsigned operator)
{
    return operator == SUM || operator == DIFFERENCE;
}

static int has_operands(unsigned operator)
{
    return is_sum(operator) || operator == PRODUCT || (operator >= NOT && operator <= LESS);
}

/* Whether an operand has parentheses. Those of a sum on the right stay, since they say which sum may pass the end. */
static int is_enclosed(unsigned above, unsigned operator, int on_right)
{
    switch (above) {
    case NOT:
    case PRODUCT:
        return has_operands(operator);
    case SUM:
    case DIFFERENCE:
        return on_right && is_sum(operator);
    case AND:
        return operator == OR;
    case OR:
        return operator == AND;
    default:
        return 0;
    }
}

static void put_expression(struct phrase *p, struct bytes *b);

static void put_operand(struct phrase *p, struct bytes *b, unsigned above, int on_right)
{
    int enclosed = is_enclosed(above, first_byte(b), on_right);
    if (enclosed)
        append(p, "(");
    put_expression(p, b);
    if (enclosed)
        append(p, ")");
}

/* An operator without operands, or one that is none, which an accepted design does not have. */
static void put_name(struct phrase *p, struct bytes *b, unsigned operator)
{
    switch (operator) {
    case NUMBER:
        append(p, "%d", take_signed(b));
        break;
    case VARIABLE:
    case FLAG:
        append(p, "v%u", take_byte(b));
        break;
    case STATUS:
        append(p, "m%u", take_byte(b));
        break;
    case NEXT_VARIABLE:
    case NEXT_FLAG:
        append(p, "next v%u", take_byte(b));
        break;
    case NEXT_STATUS:
        append(p, "next m%u", take_byte(b));
        break;
    case CONSTANT:
        append(p, "%s", take_byte(b) ? "true" : "false");
        break;
    default:
        append(p, "?");
    }
}

/* An expression is at most 16 deep, and every operator takes a byte. */
static void put_expression(struct phrase *p, struct bytes *b)
{
    unsigned operator = take_byte(b);
    if (!has_operands(operator)) {
        put_name(p, b, operator);
    } else if (operator == NOT) {
        append(p, "not ");
        put_operand(p, b, operator, 1);
    } else if (operator == PRODUCT) {
        append(p, "%d * ", take_signed(b));
        put_operand(p, b, operator, 1);
    } else {
        put_operand(p, b, operator, 0);
        append(p, " %s ", sign_of(operator));
        put_operand(p, b, operator, 1);
    }
}

struct phrase expression_text(struct bytes expression)
{
    struct phrase p = {.len = 0};
    put_expression(&p, &expression);
    return p;
}

static void put_list(struct phrase *p, struct bytes *b);

/* An else that does nothing is left out. */
static void put_if(struct phrase *p, struct bytes *b)
{
    append(p, "if ");
    put_expression(p, b);
    append(p, " then {");
    put_list(p, b);
    append(p, "}");
    if (first_byte(b) == 0) {
        take_byte(b);
        return;
    }
    append(p, " else {");
    put_list(p, b);
    append(p, "}");
}

static void put_statement(struct phrase *p, struct bytes *b)
{
    if (take_byte(b) == IF) {
        put_if(p, b);
    } else {
        append(p, "v%u := ", take_byte(b));
        put_expression(p, b);
    }
}

/* Ifs stand at most 4 deep. */
static void put_list(struct phrase *p, struct bytes *b)
{
    unsigned count = take_byte(b);
    if (count == 0)
        append(p, "nothing");
    for (unsigned i = 0; i < count && b->left; i++) {
        if (i)
            append(p, "; ");
        put_statement(p, b);
    }
}

struct phrase action_text(struct bytes action)
{
    struct phrase p = {.len = 0};
    put_list(&p, &action);
    return p;
}

static int variable_in(const struct state *s, unsigned variable)
{
    return variable < STM_VALUES ? s->values[variable] : 0;
}

uint16_t status_in(const struct state *s, unsigned matrix)
{
    return matrix < STM_STATUSES ? s->statuses[matrix] : 0;
}

static int value_of_name(struct bytes *b, unsigned operator, const struct state *now, const struct state *next)
{
    switch (operator) {
    case NUMBER:
        return take_signed(b);
    case VARIABLE:
    case FLAG:
        return variable_in(now, take_byte(b));
    case STATUS:
        return status_in(now, take_byte(b));
    case NEXT_VARIABLE:
    case NEXT_FLAG:
        return variable_in(next, take_byte(b));
    case NEXT_STATUS:
        return status_in(next, take_byte(b));
    default:
        return take_byte(b);
    }
}

static int combined(unsigned operator, int left, int right)
{
    switch (operator) {
    case SUM:
        return wrapped(left + right);
    case DIFFERENCE:
        return wrapped(left - right);
    case AND:
        return left && right;
    case OR:
        return left || right;
    case EQUAL:
        return left == right;
    default:
        return left < right;
    }
}

static int take_value(struct bytes *b, const struct state *now, const struct state *next)
{
    unsigned operator = take_byte(b);
    if (!has_operands(operator))
        return value_of_name(b, operator, now, next);
    if (operator == NOT)
        return !take_value(b, now, next);
    if (operator == PRODUCT) {
        int factor = take_signed(b);
        return wrapped(factor * take_value(b, now, next));
    }
    int left = take_value(b, now, next);
    return combined(operator, left, take_value(b, now, next));
}

int value_of(struct bytes expression, const struct state *now, const struct state *next)
{
    return take_value(&expression, now, next);
}
