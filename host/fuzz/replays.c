/* REPLAY, beside a run over STEP. */
#include "../stm/trace.h"
#include "designs.h"
#include "memory.h"
#include "operations.h"
#include "pieces.h"
#include "random.h"
#include "refusals.h"
#include "report.h"

/* A list for REPLAY. */
static size_t any_choices(uint8_t **choices)
{
    size_t len = chance(90) ? below(9) : (size_t)PICK(50, 99, 100, 101, 102, 4096);
    size_t movers = (size_t)PICK(3, 3, 4, 10);
    *choices = lent(CHOICES, len);
    for (size_t i = 0; i < len; i++)
        (*choices)[i] = (uint8_t)below(chance(98) ? movers : 256);
    keep(CHOICES);
    return len;
}

/* The normal cell that a choice names in the accepted design, by its bytes; NULL where the choice is an external's. */
static const uint8_t *chosen_cell(uint8_t choice)
{
    const uint8_t *trailer = design + design_len - 16;
    const uint8_t *cell = design + trailer[10] + 256u * trailer[11];
    for (unsigned n = trailer[12] + 256u * trailer[13]; n > 0; n--) {
        if (cell[3] == 0 && choice-- == 0)
            return cell;
        cell += 8u + cell[5] + cell[6] + 256u * cell[7];
    }
    return NULL;
}

/* REPLAY's answer beside a run over STEP. A cell's bytes tell whether its status stands. A cell that runs has had its guard read;
 * one that stands, has no guard and does not run has a false event. No property holds from the step on that sets the mark. */
static void count_by_steps(const uint8_t *choices, size_t len, const uint64_t answer[REPLAY_LEN])
{
    int16_t values[STM_VALUES];
    uint16_t statuses[STM_STATUSES], mark[1];
    uint64_t stood = 0, ran = 0, false_events = 0, marked_at = 0;
    uint64_t events = answer[REPLAY_EVENTS], guards = answer[REPLAY_GUARDS];
    uint64_t code = stm_start(design, design_len, values, statuses, mark);
    require(code == 0, "replay", "takes a design that START refuses", code);
    for (size_t i = 0; i < len; i++) {
        const uint8_t *cell = chosen_cell(choices[i]);
        int stands = cell && statuses[cell[0]] == cell[1];
        uint8_t idle[1] = {7};
        code = stm_step(design, design_len, values, statuses, mark, choices[i], idle);
        require(code == 0, "replay", "takes a choice that STEP refuses", code);
        marked_at = mark[0] && marked_at == 0 ? i + 1 : marked_at;
        stood += stands != 0;
        ran += stands && !idle[0];
        false_events += stands && idle[0] && cell[5] == 0;
    }
    require(events == stood, "replay", "another count of events", events);
    require(guards >= ran && guards <= stood - false_events, "replay", "another count of guards", guards);
    int broken = answer[REPLAY_BROKEN] && answer[REPLAY_STEP] <= marked_at;
    require(marked_at == 0 || broken, "replay", "not broken where the mark is set", marked_at);
    seen.marks_set += marked_at != 0;
}

/* The counts of an answered REPLAY, which are the same for every property. */
static void check_counts(uint64_t property, const uint8_t *choices, size_t len, const uint64_t answer[REPLAY_LEN])
{
    uint64_t again[REPLAY_LEN] = {0}, events = answer[REPLAY_EVENTS], guards = answer[REPLAY_GUARDS];
    require(events <= len && guards <= events, "replay", "no such counts", events);
    uint64_t code = stm_replay(design, design_len, piece, 0, property == 0, choices, len, again);
    require(code == 0, "replay", "refused for another property", code);
    int same_counts = again[REPLAY_EVENTS] == events && again[REPLAY_GUARDS] == guards;
    require(same_counts, "replay", "other counts for another property", events);
    if (len < 9 || chance(20))
        count_by_steps(choices, len, answer);
    seen.events_read += events;
    seen.guards_read += guards;
}

void call_replay(void)
{
    uint64_t property = any_property();
    uint8_t *choices;
    size_t len = any_choices(&choices);
    uint64_t *answer = lent(ANSWER, REPLAY_LEN * sizeof *answer);
    keep(ANSWER);
    uint64_t code = stm_replay(design, design_len, piece, piece_len, property, choices, len, answer);
    ended("replay", code, SET(DESIGN) | SET(PIECE) | SET(CHOICES), SET(ANSWER));
    uint64_t first = first_refusal(property, len);
    require(!first || code == first, "replay", "not the first refusal", code);
    require(first || code == 0 || (STM_NUMBER(code) == 12 && STM_PLACE(code) < len), "replay", "no such refusal", code);
    require(code || (answer[REPLAY_BROKEN] <= 1 && answer[REPLAY_STEP] <= len), "replay", "no such step", answer[REPLAY_STEP]);
    if (code == 0)
        check_counts(property, choices, len, answer);
}
