#include "design.h"

uint8_t first_byte(const struct bytes *b)
{
    return b->left ? *b->at : 0;
}

uint8_t take_byte(struct bytes *b)
{
    uint8_t byte = first_byte(b);
    take_bytes(b, 1);
    return byte;
}

uint16_t take_number(struct bytes *b)
{
    unsigned low = take_byte(b);
    return (uint16_t)(low | (unsigned)take_byte(b) << 8);
}

struct bytes take_bytes(struct bytes *b, size_t len)
{
    struct bytes taken = {b->at, len < b->left ? len : b->left};
    b->at += taken.left;
    b->left -= taken.left;
    return taken;
}

/* The bytes from one place of the design to another. */
static struct bytes part(const struct job *j, size_t from, size_t to)
{
    struct bytes rest = {j->design, j->len < to ? j->len : to};
    take_bytes(&rest, from);
    return rest;
}

/* Numbers of the trailer, and before it the offset of the constraint, by how many bytes before the end they stand. */
enum {
    CONSTRAINT_OFFSET = 18,
    VERSION = 16,
    VARIABLES = 14,
    MATRICES_OFFSET = 12,
    MATRICES = 10,
    EVENTS_OFFSET = 8,
    CELLS_OFFSET = 6,
    CELLS = 4,
    INVARIANT_OFFSET = 2
};

static size_t trailer(const struct job *j, size_t before_end)
{
    if (j->len < before_end)
        return 0;
    struct bytes number = part(j, j->len - before_end, j->len);
    return take_number(&number);
}

size_t variables_of(const struct job *j)
{
    size_t count = trailer(j, VARIABLES);
    return count < STM_VALUES ? count : STM_VALUES;
}

size_t matrices_of(const struct job *j)
{
    size_t count = trailer(j, MATRICES);
    return count < STM_STATUSES ? count : STM_STATUSES;
}

unsigned kind_of(const struct job *j, size_t variable)
{
    enum { VARIABLE_BYTES = 3 };
    struct bytes b = part(j, VARIABLE_BYTES * variable, j->len);
    return first_byte(&b);
}

/* How many events the matrices before this one have. */
static size_t events_before(const struct job *j, size_t matrix)
{
    struct bytes b = part(j, trailer(j, MATRICES_OFFSET), j->len);
    size_t count = 0;
    for (size_t i = 0; i < matrix; i++) {
        take_byte(&b); /* its statuses */
        count += take_byte(&b);
    }
    return count;
}

struct bytes event_of(const struct job *j, size_t matrix, size_t event)
{
    struct bytes b = part(j, trailer(j, EVENTS_OFFSET), j->len);
    for (size_t left = events_before(j, matrix) + event; left > 0; left--)
        take_bytes(&b, take_byte(&b));
    return take_bytes(&b, take_byte(&b));
}

struct bytes property_of(const struct job *j)
{
    int has_constraint = trailer(j, VERSION) == 2;
    size_t end = has_constraint ? trailer(j, CONSTRAINT_OFFSET) : j->len - VERSION;
    if (j->property == CONSTRAINT)
        return part(j, end, j->len - CONSTRAINT_OFFSET);
    if (j->piece_len > 0)
        return (struct bytes){j->piece, j->piece_len};
    return part(j, trailer(j, INVARIANT_OFFSET), end);
}

struct cells cells_of(const struct job *j)
{
    return (struct cells){part(j, trailer(j, CELLS_OFFSET), j->len), 0, trailer(j, CELLS)};
}

int next_cell(struct cells *all, struct cell *c)
{
    struct bytes *b = &all->bytes;
    if (all->next == all->count)
        return 0;
    c->number = all->next++;
    c->matrix = take_byte(b);
    c->status = take_byte(b);
    c->event = take_byte(b);
    c->invalid = take_byte(b) != 0;
    c->target = take_byte(b);
    size_t guard_len = take_byte(b), action_len = take_number(b);
    c->guard = take_bytes(b, guard_len);
    c->action = take_bytes(b, action_len);
    return 1;
}

/* The external of that number among the externals. */
static size_t external_of(const struct job *j, size_t number)
{
    size_t v = 0, found = 0;
    for (; v < variables_of(j); v++)
        if (kind_of(j, v) == EXTERNAL && found++ == number)
            break;
    return v;
}

struct mover mover_of(const struct job *j, unsigned choice)
{
    struct mover m = {.is_cell = 1};
    struct cells all = cells_of(j);
    size_t normal = 0;
    while (next_cell(&all, &m.cell))
        if (!m.cell.invalid && normal++ == choice)
            return m;
    return (struct mover){.variable = external_of(j, choice - normal)};
}
