#include "explain.h"

#include "expression.h"

unsigned long disagreements;

static void disagree(const char *with, const struct moment *m)
{
    disagreements++;
    tell("stm: this explanation and %s disagree at step %zu\n", with, m->step);
}

static void print_value(const struct job *j, size_t variable, int value)
{
    if (kind_of(j, variable) == INTEGER)
        printf("%d", value);
    else
        printf("%s", value ? "true" : "false");
}

static const char *kind_text(unsigned kind)
{
    return kind == INTEGER ? "an integer" : kind == EXTERNAL ? "an external" : "a Boolean";
}

static void print_first_values(const struct job *j, const struct state *s)
{
    for (size_t v = 0; v < variables_of(j); v++) {
        printf("  variable %zu, %s, is ", v, kind_text(kind_of(j, v)));
        print_value(j, v, s->values[v]);
        printf("\n");
    }
}

static void print_first_statuses(const struct job *j, const struct state *s)
{
    for (size_t i = 0; i < matrices_of(j); i++)
        printf("  matrix %zu stands in status %u\n", i, s->statuses[i]);
}

static void print_first(const struct job *j, const struct moment *m)
{
    printf("names: vN is variable N, mN the status of matrix N");
    printf(j->property == CONSTRAINT ? "; next vN and next mN are those after the step\n" : "\n");
    printf("step 0: the first state\n");
    print_first_values(j, &m->now);
    print_first_statuses(j, &m->now);
}

static int changed_values(const struct job *j, const struct moment *m)
{
    int changed = 0;
    for (size_t v = 0; v < variables_of(j); v++) {
        if (m->before.values[v] == m->now.values[v])
            continue;
        changed = 1;
        printf("  variable %zu changes from ", v);
        print_value(j, v, m->before.values[v]);
        printf(" to ");
        print_value(j, v, m->now.values[v]);
        printf("\n");
    }
    return changed;
}

static int changed_statuses(const struct job *j, const struct moment *m)
{
    int changed = 0;
    for (size_t i = 0; i < matrices_of(j); i++) {
        if (m->before.statuses[i] == m->now.statuses[i])
            continue;
        changed = 1;
        printf("  matrix %zu changes from status %u to status %u\n", i, m->before.statuses[i], m->now.statuses[i]);
    }
    return changed;
}

static int changed_mark(const struct moment *m)
{
    int changed = m->before.mark[0] != m->now.mark[0];
    if (changed)
        printf("  the mark is set (a sum, difference or product passed the end of 16 bits): every property is false from here on\n");
    return changed;
}

static void print_changes(const struct job *j, const struct moment *m)
{
    int values = changed_values(j, m), statuses = changed_statuses(j, m), mark = changed_mark(m);
    if (!values && !statuses && !mark)
        printf("  runs and changes nothing\n");
}

static int event_is_true(const struct job *j, const struct cell *c, const struct state *s)
{
    return value_of(event_of(j, c->matrix, c->event), s, s);
}

enum reason { ENABLED, OTHER_STATUS, EVENT_FALSE, GUARD_FALSE, RAISED };

/* The first test that fails, in the order in which STEP tests. */
static enum reason reason_of(const struct job *j, const struct mover *mover, const struct state *s)
{
    const struct cell *c = &mover->cell;
    if (!mover->is_cell)
        return mover->variable < STM_VALUES && s->values[mover->variable] ? RAISED : ENABLED;
    if (status_in(s, c->matrix) != c->status)
        return OTHER_STATUS;
    if (!event_is_true(j, c, s))
        return EVENT_FALSE;
    return c->guard.left && !value_of(c->guard, s, s) ? GUARD_FALSE : ENABLED;
}

static void print_idle(const struct mover *mover, const struct state *s, enum reason reason)
{
    const struct cell *c = &mover->cell;
    printf("  idle");
    if (reason == OTHER_STATUS)
        printf(": matrix %u stands in status %u, not in status %u", c->matrix, status_in(s, c->matrix), c->status);
    else if (reason == EVENT_FALSE)
        printf(": event %u is false", c->event);
    else if (reason == GUARD_FALSE)
        printf(": the guard is false");
    else if (reason == RAISED)
        printf(": variable %zu is already true", mover->variable);
    printf("\n");
}

/* The action only where it runs. */
static void print_cell(const struct job *j, const struct cell *c, int runs)
{
    printf(" is cell %zu: matrix %u, status %u, event %u, target status %u\n", c->number, c->matrix, c->status, c->event, c->target);
    printf("  event: %s\n", expression_text(event_of(j, c->matrix, c->event)).text);
    printf("  guard: %s\n", c->guard.left ? expression_text(c->guard).text : "none");
    if (runs)
        printf("  action: %s\n", action_text(c->action).text);
}

static void print_step(const struct job *j, const struct moment *m)
{
    unsigned choice = j->choices[m->step - 1];
    struct mover mover = mover_of(j, choice);
    enum reason reason = reason_of(j, &mover, &m->before);
    printf("step %zu: mover %u", m->step, choice);
    if (mover.is_cell)
        print_cell(j, &mover.cell, !m->idle);
    else
        printf(": the environment %s variable %zu\n", m->idle ? "would raise" : "raises", mover.variable);
    if (m->idle)
        print_idle(&mover, &m->before, reason);
    else
        print_changes(j, m);
    if ((reason != ENABLED) != (m->idle != 0))
        disagree("STEP", m);
}

/* What property 0 or 2 is in this job. */
static const char *expression_name(const struct job *j)
{
    if (j->property == CONSTRAINT)
        return "the constraint";
    return j->piece_len > 0 ? "the piece" : "the invariant";
}

/* Whether an invalid cell is met in this state; tells each one where it is asked to. */
static int is_met(const struct job *j, const struct state *s, int print)
{
    struct cells all = cells_of(j);
    struct cell c;
    int met = 0;
    while (next_cell(&all, &c)) {
        if (!c.invalid || status_in(s, c.matrix) != c.status || !event_is_true(j, &c, s))
            continue;
        met = 1;
        if (print)
            printf("  here property 1 is false: invalid cell %zu is met: matrix %u, status %u, event %u: %s\n", c.number, c.matrix,
                   c.status, c.event, expression_text(event_of(j, c.matrix, c.event)).text);
    }
    return met;
}

/* Whether the property is true at this step but for the mark. */
static int is_true(const struct job *j, const struct moment *m)
{
    if (j->property == NO_INVALID_CELL)
        return !is_met(j, &m->now, 0);
    if (j->property == CONSTRAINT)
        return m->step == 0 || value_of(property_of(j), &m->before, &m->now);
    return value_of(property_of(j), &m->now, &m->now);
}

static void print_false(const struct job *j, const struct moment *m)
{
    if (j->property == NO_INVALID_CELL)
        is_met(j, &m->now, 1);
    else
        printf("  here %s is false: %s\n", expression_name(j), expression_text(property_of(j)).text);
}

static void print_marked(const struct job *j)
{
    printf("  here property %" PRIu64 " is false through the mark alone: ", j->property);
    if (j->property == NO_INVALID_CELL)
        printf("no invalid cell is met\n");
    else
        printf("%s itself is true: %s\n", expression_name(j), expression_text(property_of(j)).text);
}

/* Where the property is first false, or false again, also why. */
static void print_property(const struct job *j, const struct moment *m)
{
    int without_mark = is_true(j, m), marked = m->now.mark[0] != 0;
    if (m->held && !m->holds && !without_mark)
        print_false(j, m);
    else if (m->held && !m->holds && marked)
        print_marked(j);
    else if (m->held && !m->holds)
        printf("  here property %" PRIu64 " is false\n", j->property);
    else if (!m->held)
        printf("  property %" PRIu64 " is %s\n", j->property, m->holds ? "true again" : "still false");
    if ((without_mark && !marked) != m->holds)
        disagree("the archive", m);
}

void explain_moment(const struct job *j, const struct moment *m)
{
    if (m->step == 0)
        print_first(j, m);
    else
        print_step(j, m);
    print_property(j, m);
}
