#include "trace.h"

#include "explain.h"
#include "formula.h"
#include "json.h"

/* An answer of SOLVE. */
enum { UNSAT = 1 };

/* State bits of an integer, of a status, and of a Boolean or the mark. */
enum { INTEGER_BITS = 16, STATUS_BITS = 4, ONE_BIT = 1 };

/* The unit clauses from `unit` on take the bits of a number, the lowest first. Answers the unit after them. */
static size_t put_bits(int32_t *clauses, size_t unit, unsigned number, unsigned width)
{
    for (unsigned i = 0; i < width; i++, unit++) {
        int32_t bit = (int32_t)unit + 1;
        clauses[2 * unit] = number >> i & 1 ? bit : -bit;
    }
    return unit;
}

/* Part 0 is a unit clause for each bit of the first state, after that of the variable 1: makes it say another state. */
static void start_from(const struct job *j, const struct state *s, int32_t *clauses)
{
    size_t unit = 1;
    for (size_t v = 0; v < variables_of(j); v++)
        unit = put_bits(clauses, unit, (uint16_t)s->values[v], kind_of(j, v) == INTEGER ? INTEGER_BITS : ONE_BIT);
    for (size_t m = 0; m < matrices_of(j); m++)
        unit = put_bits(clauses, unit, s->statuses[m], STATUS_BITS);
    put_bits(clauses, unit, s->mark[0], ONE_BIT);
}

/* The words of a choice's unit clause. */
enum { FLAG_WORDS = 2 };

/* The formula for bound 0 or 1, which has one choice: then also the unit clause of its flag. Answers the words. The run is one that
 * REPLAY accepts, so ENCODE does not refuse. */
static size_t put_formula(const struct job *j, const uint64_t sizes[SIZE_LEN], uint64_t bound, uint8_t choice, int32_t *clauses)
{
    size_t at;
    put_parts(j, sizes, bound, clauses, &at);
    if (bound == 0)
        return at;
    clauses[at] = (int32_t)(flags_of(sizes, 0) + choice);
    clauses[at + 1] = 0;
    return at + FLAG_WORDS;
}

/* Whether the property holds, where HOLDS does not tell: in this state at bound 0, after a choice in this state at bound 1. The
 * formula from this state and with this choice leaves nothing to try, and is satisfiable where the property breaks. Less than 0
 * where there is no memory. */
static int formula_holds(const struct job *j, const struct state *s, uint64_t bound, uint8_t choice)
{
    uint64_t sizes[SIZE_LEN] = {0}, answer[2] = {0};
    struct memory m;
    int holds = -1;
    sizes_for(j, bound, sizes);
    size_t n = (size_t)sizes[SIZE_VARIABLES];
    if (!take(&m, sizes[SIZE_WORDS] + FLAG_WORDS, n)) {
        size_t words = put_formula(j, sizes, bound, choice, m.clauses);
        start_from(j, s, m.clauses);
        stm_solve(n, m.clauses, words, m.values, n, m.trail, n, 0, answer);
        holds = answer[0] == UNSAT;
    }
    give_back(&m);
    return holds;
}

static int state_holds(const struct job *j, const struct state *s)
{
    uint8_t holds[1] = {0};
    stm_holds(j->design, j->len, s->values, s->statuses, s->mark[0], j->property, holds);
    return holds[0];
}

/* Whether the property holds at a step of the run, or less than 0. HOLDS takes neither a property of two states nor a piece; of these
 * the first break tells every step up to it. */
static int holds_at(const struct job *j, const struct moment *m, uint64_t broken)
{
    int constraint = j->property == CONSTRAINT, piece = j->property == INVARIANT && j->piece_len > 0;
    if (!constraint && !piece)
        return state_holds(j, &m->now);
    if (m->step <= broken)
        return m->step < broken;
    return constraint ? formula_holds(j, &m->before, 1, j->choices[m->step - 1]) : formula_holds(j, &m->now, 0, 0);
}

/* No call here is refused: REPLAY accepts the run. */
int walk(const struct job *j, uint64_t broken, show_moment *show)
{
    struct moment m = {.held = 1};
    stm_start(j->design, j->len, m.now.values, m.now.statuses, m.now.mark);
    for (; m.step <= j->choices_len; m.step++) {
        uint8_t idle[1] = {0};
        m.before = m.now;
        if (m.step > 0)
            stm_step(j->design, j->len, m.now.values, m.now.statuses, m.now.mark, j->choices[m.step - 1], idle);
        m.idle = idle[0];
        m.holds = holds_at(j, &m, broken);
        if (m.holds < 0)
            return MISUSED;
        show(j, &m);
        m.held = m.holds;
    }
    return 0;
}

static void print_object(const struct job *j, const struct moment *m)
{
    json_open(stdout, "step");
    json_number(stdout, "step", m->step);
    if (m->step == 0)
        json_null(stdout, "choice");
    else
        json_number(stdout, "choice", j->choices[m->step - 1]);
    json_flag(stdout, "idle", m->idle != 0);
    json_flag(stdout, "holds", m->holds);
    json_values(stdout, "variables", m->now.values, variables_of(j));
    json_statuses(stdout, "statuses", m->now.statuses, matrices_of(j));
    json_flag(stdout, "mark", m->now.mark[0] != 0);
    json_close(stdout);
}

void print_moment(const struct job *j, const struct moment *m)
{
    if (j->json) {
        print_object(j, m);
        return;
    }
    printf("%zu ", m->step);
    if (m->step == 0)
        printf("-");
    else
        printf("%u", j->choices[m->step - 1]);
    printf(" %u %d", m->idle, m->holds);
    for (size_t v = 0; v < variables_of(j); v++)
        printf(" %d", m->now.values[v]);
    printf(" |");
    for (size_t i = 0; i < matrices_of(j); i++)
        printf(" %u", m->now.statuses[i]);
    printf("\n");
}

uint64_t replay_of(const struct job *j, uint64_t answer[REPLAY_LEN])
{
    return stm_replay(j->design, j->len, j->piece, j->piece_len, j->property, j->choices, j->choices_len, answer);
}

static void print_result(const struct job *j, const uint64_t answer[REPLAY_LEN])
{
    json_open(stdout, "replay");
    json_text(stdout, "design", j->path);
    json_text(stdout, "piece", piece_read(j));
    json_number(stdout, "property", j->property);
    json_bytes(stdout, "choices", j->choices, j->choices_len);
    json_flag(stdout, "broken", answer[REPLAY_BROKEN] != 0);
    if (answer[REPLAY_BROKEN])
        json_number(stdout, "step", answer[REPLAY_STEP]);
    else
        json_null(stdout, "step");
    json_number(stdout, "events", answer[REPLAY_EVENTS]);
    json_number(stdout, "guards", answer[REPLAY_GUARDS]);
    json_close(stdout);
}

int print_run(const struct job *j, const uint64_t answer[REPLAY_LEN])
{
    uint64_t broken = answer[REPLAY_BROKEN] ? answer[REPLAY_STEP] : NEVER_BROKEN;
    int failed = walk(j, broken, j->explain ? explain_moment : print_moment);
    if (failed)
        return failed;
    if (j->json) {
        print_result(j, answer);
    } else {
        if (answer[REPLAY_BROKEN])
            printf("broken at %" PRIu64 "\n", answer[REPLAY_STEP]);
        else
            printf("holds\n");
        printf("events read %" PRIu64 ", guards read %" PRIu64 "\n", answer[REPLAY_EVENTS], answer[REPLAY_GUARDS]);
    }
    return answer[REPLAY_BROKEN] ? VIOLATED : CLEAN;
}
