/* The calls on a design alone and on a state: CHECK, START, STEP and HOLDS. */
#include "designs.h"
#include "memory.h"
#include "operations.h"
#include "random.h"
#include "refusals.h"
#include "report.h"

#include <string.h>

void call_check(void)
{
    uint64_t code = stm_check(design, design_len);
    ended("check", code, SET(DESIGN), 0);
    require(code == design_code, "check", "another answer", code);
}

/* A state in lent memory. */
struct lent_state {
    int16_t *values;
    uint16_t *statuses, *mark;
};

static struct lent_state lent_state(void)
{
    struct lent_state s = {
        .values = lent(VALUES, STM_VALUES * sizeof *s.values),
        .statuses = lent(STATUSES, STM_STATUSES * sizeof *s.statuses),
        .mark = lent(MARK, sizeof *s.mark),
    };
    return s;
}

enum { STATE = SET(VALUES) | SET(STATUSES) | SET(MARK) };

/* A variable's kind in the file. */
enum { INTEGER = 1 };

/* Whether a variable of the design is an integer. */
static int is_integer(size_t variable)
{
    return design_code == 0 && variable < design[design_len - 14] && design[3 * variable] == INTEGER;
}

/* A value for a variable: of an integer mostly one at an end. */
static int16_t any_value(size_t variable)
{
    if (is_integer(variable))
        return (int16_t)PICK(0x7fff, 0x7fff, 0x7ffe, 0x8000, 0x8000, 0x8001, 0xffff, 0, 1, 2);
    return (int16_t)PICK(0, 0, 1, 1, 1, 2, 0x7fff, 0x8000, 0xffff);
}

/* The first state, with some entries changed. */
static struct lent_state any_state(void)
{
    struct lent_state s = lent_state();
    int16_t *values = s.values;
    uint16_t *statuses = s.statuses;
    memset(values, 0, STM_VALUES * sizeof *values);
    memset(statuses, 0, STM_STATUSES * sizeof *statuses);
    s.mark[0] = 0;
    if (chance(90))
        stm_start(design, design_len, values, statuses, s.mark);
    int at_ends = chance(40);
    for (size_t v = 0; at_ends && v < STM_VALUES; v++)
        if (is_integer(v))
            values[v] = any_value(v);
    /* a step from a state that fits is the one that can pass an end */
    int fits = at_ends && chance(60);
    for (size_t i = 0, n = fits ? 0 : below(3); i < n; i++) {
        size_t variable = chance(80) ? below(4) : below(STM_VALUES);
        values[variable] = any_value(variable);
    }
    if (!fits && chance(40))
        statuses[chance(80) ? below(2) : below(STM_STATUSES)] = (uint16_t)PICK(0, 0, 1, 1, 1, 2, 3, 15, 16, 255, 256, 65535);
    if (!fits && chance(25))
        s.mark[0] = (uint16_t)PICK(1, 1, 1, 1, 2, 255, 256, 257, 65535);
    keep_all(STATE);
    return s;
}

void call_start(void)
{
    struct lent_state s = lent_state();
    keep_all(STATE);
    uint64_t code = stm_start(design, design_len, s.values, s.statuses, s.mark);
    ended("start", code, SET(DESIGN), STATE);
    require(code == design_code, "start", "not CHECK's refusal", code);
    require(code || s.mark[0] == 0, "start", "sets the mark", s.mark[0]);
}

/* No matrix has more than 16 statuses, so the call on such a state is refused. */
static int high_status(const uint16_t *statuses)
{
    for (size_t i = 0; i < STM_STATUSES; i++)
        if (statuses[i] > 15)
            return 1;
    return 0;
}

/* What a call says of a mark: any other than 0 and 1 is refused, at its own place where nothing before it is wrong. */
static void check_mark(const char *call, uint64_t code, uint16_t mark)
{
    int at_mark = code == 11 + 256 * STM_MARK_PLACE;
    require(design_code || mark <= 1 || STM_NUMBER(code) == 11, call, "takes a mark over 1", mark);
    require(!at_mark || mark > 1, call, "refuses a mark of 0 or 1", mark);
    require(design_code || STM_NUMBER(code) != 11 || STM_PLACE(code) <= STM_MARK_PLACE, call, "no such place", code);
    seen.marks_refused += at_mark != 0;
}

void call_step(void)
{
    struct lent_state s = any_state();
    uint8_t *idle = lent(ANSWER, 1);
    keep(ANSWER);
    uint64_t choice = chance(90) ? below(chance(80) ? 4 : 12) : PICK(63, 64, 255, 256, (uint64_t)1 << 32, UINT64_MAX);
    int high = high_status(s.statuses);
    uint16_t mark = s.mark[0];
    uint64_t code = stm_step(design, design_len, s.values, s.statuses, s.mark, choice, idle);
    ended("step", code, SET(DESIGN), STATE | SET(ANSWER));
    require(!design_code || code == design_code, "step", "not CHECK's refusal", code);
    require(design_code || code == 0 || code == 12 || STM_NUMBER(code) == 11, "step", "no such refusal", code);
    require(design_code || !high || STM_NUMBER(code) == 11, "step", "takes a status over 15", code);
    check_mark("step", code, mark);
    if (code)
        return;
    if (idle[0] == 1) {
        same(VALUES, 0, "an idle step");
        same(STATUSES, 0, "an idle step");
        same(MARK, 0, "an idle step");
    }
    require(idle[0] <= 1, "step", "idle is not 0 or 1", idle[0]);
    require(s.mark[0] <= 1 && s.mark[0] >= mark, "step", "takes the mark away", s.mark[0]);
    seen.marks_set += s.mark[0] > mark;
}

void call_holds(void)
{
    uint64_t property = any_property();
    struct lent_state s = any_state();
    uint8_t *holds = lent(ANSWER, 1);
    keep(ANSWER);
    uint64_t code = stm_holds(design, design_len, s.values, s.statuses, s.mark[0], property, holds);
    ended("holds", code, SET(DESIGN) | STATE, SET(ANSWER));
    require(!design_code || code == design_code, "holds", "not CHECK's refusal", code);
    require(design_code || STM_NUMBER(code) == 11 || code == (property > 1 ? 13 : 0), "holds", "no such refusal", code);
    require(design_code || !high_status(s.statuses) || STM_NUMBER(code) == 11, "holds", "takes a status over 15", code);
    check_mark("holds", code, s.mark[0]);
    require(code || holds[0] <= 1, "holds", "not 0 or 1", holds[0]);
    require(code || s.mark[0] == 0 || holds[0] == 0, "holds", "a property of a marked state", holds[0]);
}
