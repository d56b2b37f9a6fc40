/* VERDICT, whose choices REPLAY tests. */
#include "../stm/trace.h"
#include "designs.h"
#include "formulas.h"
#include "memory.h"
#include "operations.h"
#include "pieces.h"
#include "random.h"
#include "refusals.h"
#include "report.h"

/* The choices of a verdict break the property at its step. */
static void break_at(uint64_t property, const uint8_t *choices, uint64_t step)
{
    uint64_t *answer = lent(ANSWER, REPLAY_LEN * sizeof *answer);
    keep_all(SET(ANSWER) | SET(CHOICES));
    uint64_t code = stm_replay(design, design_len, piece, piece_len, property, choices, (size_t)step, answer);
    ended("replay", code, SET(DESIGN) | SET(PIECE) | SET(CHOICES), SET(ANSWER));
    int breaks = code == 0 && answer[REPLAY_BROKEN] == 1 && answer[REPLAY_STEP] == step;
    require(breaks, "verdict", "its choices do not break at its step", answer[REPLAY_STEP]);
}

void call_verdict(void)
{
    uint64_t property = any_property(), bound = chance(5) ? over_a_byte() : PICK(0, 1, 1, 2, 2, 3, 4, 70, 100, 101, 255);
    uint64_t sizes[SIZE_LEN] = {0}, budget = PICK(0, 1, 2, 5, 20), refusal = formula_refusal(property, bound);
    bound = affordable(property, refusal || bound < 4 ? bound : 4, MAX_SEARCH, sizes);
    size_t words = (size_t)sizes[SIZE_WORDS], n = (size_t)sizes[SIZE_VARIABLES];
    int exact = chance(60);
    unsigned writable = SET(CLAUSES) | SET(ASSIGNED) | SET(TRAIL) | SET(CHOICES) | SET(ANSWER);
    /* a formula that is too long to lend for is refused by 16 */
    size_t most = words > MAX_WORDS ? 0 : words, lent_n = words > MAX_WORDS ? 0 : n;
    size_t clauses_len = exact ? most : near(most), values_len = exact ? lent_n : near(lent_n);
    size_t trail_len = exact ? lent_n : near(lent_n), choices_len = exact ? choices_for(bound) : near(choices_for(bound));
    int32_t *clauses = lent(CLAUSES, clauses_len * sizeof *clauses);
    uint8_t *values = lent(ASSIGNED, values_len), *choices = lent(CHOICES, choices_len);
    uint32_t *trail = lent(TRAIL, trail_len * sizeof *trail);
    uint64_t *answer = lent(ANSWER, 3 * sizeof *answer), found[3];
    keep_all(writable);
    uint64_t code = stm_verdict(design, design_len, piece, piece_len, property, bound, budget, clauses, clauses_len, values,
                                values_len, trail, trail_len, choices, choices_len, answer);
    ended("verdict", code, SET(DESIGN) | SET(PIECE), writable);
    int short_ = clauses_len < words || values_len < n || trail_len < n || choices_len < bound;
    require(code == (refusal ? refusal : short_ ? 16 : 0), "verdict", "not the first refusal", code);
    if (code)
        return;
    memcpy(found, answer, sizeof found);
    require(found[0] <= 2 && found[1] <= bound && found[2] <= budget, "verdict", "no such answer", found[0]);
    same(CLAUSES, words * sizeof *clauses, "verdict");
    same(ASSIGNED, n, "verdict");
    same(TRAIL, n * sizeof *trail, "verdict");
    same(CHOICES, found[0] == 1 ? (size_t)found[1] : 0, "verdict");
    if (found[0] == 1)
        break_at(property, choices, found[1]);
}
