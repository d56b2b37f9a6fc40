/* The call of several owners, each of whom is told what VERDICT says alone. */
#include "designs.h"
#include "formulas.h"
#include "memory.h"
#include "operations.h"
#include "pieces.h"
#include "random.h"
#include "refusals.h"
#include "report.h"

/* The parts of an owner's answer: the refusal's number and place, and from OWNER_VERDICT on what VERDICT answers. */
enum { OWNER_NUMBER, OWNER_PLACE, OWNER_VERDICT, OWNER_LEN = 5 };

/* A call of several owners, on lent memory. */
struct owners_call {
    uint64_t bound, owners;
    size_t used; /* places with an owner; none where their number is refused */
    struct stm_piece *pieces;
    uint64_t *budgets;
    struct stm_choices *buffers;
    uint64_t (*answers)[OWNER_LEN];
    size_t words, n, clauses_len, values_len, trail_len;
};

/* A number of owners: mostly one that is taken. */
static uint64_t any_count(void)
{
    return chance(92) ? 1 + below(STM_OWNERS) : PICK(0, 0, 5, 5, 255, 256, 257, ((uint64_t)1 << 32) + 1, UINT64_MAX);
}

/* Pieces and budgets for all places, and a bound up to which every owner's formula is affordable. */
static void lend_asked(struct owners_call *c)
{
    c->owners = any_count();
    c->used = c->owners <= STM_OWNERS ? (size_t)c->owners : 0;
    c->bound = chance(5) ? over_a_byte() : PICK(0, 1, 1, 2, 2, 3, 4, 100, 101);
    c->pieces = lent(PIECES, STM_OWNERS * sizeof *c->pieces);
    c->budgets = lent(BUDGETS, STM_OWNERS * sizeof *c->budgets);
    c->words = c->n = 0;
    for (size_t i = 0; i < STM_OWNERS; i++) {
        c->pieces[i].len = lend_piece(OWNER_PIECE + i);
        c->pieces[i].bytes = regions[OWNER_PIECE + i].at;
        c->budgets[i] = PICK(0, 1, 2, 5, 20);
    }
    for (size_t i = 0; i < c->used; i++) {
        uint64_t sizes[SIZE_LEN] = {0};
        set_piece(c->pieces[i].bytes, c->pieces[i].len);
        uint64_t most = c->bound == 100 && !formula_refusal(INVARIANT, 100) ? 4 : c->bound;
        c->bound = affordable(INVARIANT, most, MAX_SEARCH, sizes);
    }
    keep_all(SET(PIECES) | SET(BUDGETS));
}

/* The longest formula of the owners, or with `one` that of some owner, which may be too short for another's. An owner whose formula
 * is not affordable even at bound 0 is not lent for: it is refused by 16. */
static void count_words(struct owners_call *c, int one)
{
    size_t chosen = below(STM_OWNERS);
    for (size_t i = 0; i < c->used; i++) {
        uint64_t sizes[SIZE_LEN] = {0};
        set_piece(c->pieces[i].bytes, c->pieces[i].len);
        if ((one && i != chosen) || !sizes_of(INVARIANT, c->bound, sizes))
            continue;
        if (sizes[SIZE_VARIABLES] * sizes[SIZE_WORDS] > MAX_SEARCH)
            continue;
        c->words = sizes[SIZE_WORDS] > c->words ? (size_t)sizes[SIZE_WORDS] : c->words;
        c->n = sizes[SIZE_VARIABLES] > c->n ? (size_t)sizes[SIZE_VARIABLES] : c->n;
    }
}

/* What is lent for all owners, and their choices and answers. */
static void lend_told(struct owners_call *c)
{
    int exact = chance(60);
    count_words(c, chance(30));
    c->clauses_len = exact ? c->words : near(c->words);
    c->values_len = exact ? c->n : near(c->n);
    c->trail_len = exact ? c->n : near(c->n);
    lent(CLAUSES, c->clauses_len * sizeof(int32_t));
    lent(ASSIGNED, c->values_len);
    lent(TRAIL, c->trail_len * sizeof(uint32_t));
    c->buffers = lent(BUFFERS, STM_OWNERS * sizeof *c->buffers);
    c->answers = lent(ANSWER, STM_OWNERS * sizeof *c->answers);
    for (size_t i = 0; i < STM_OWNERS; i++) {
        size_t len = choices_for(c->bound);
        c->buffers[i].len = exact && chance(80) ? len : near(len);
        c->buffers[i].choices = lent(OWNER_CHOICES + i, c->buffers[i].len);
        keep(OWNER_CHOICES + i);
    }
    keep_all(SET(CLAUSES) | SET(ASSIGNED) | SET(TRAIL) | SET(BUFFERS) | SET(ANSWER));
}

/* VERDICT alone, with the owner's piece, budget, lengths and old choices, in memory of its own: the owner has been told the same and
 * has the same choices. */
static void check_alone(const struct owners_call *c, size_t i)
{
    static int32_t clauses[MAX_WORDS];
    static uint8_t values[64 * PAGE], choices[PAGE];
    static uint32_t trail[64 * PAGE];
    const struct lent *own = &regions[OWNER_CHOICES + i];
    uint64_t expected[OWNER_LEN] = {0};
    memcpy(choices, own->copy, own->bytes);
    uint64_t code = stm_verdict(design, design_len, c->pieces[i].bytes, c->pieces[i].len, INVARIANT, c->bound, c->budgets[i],
                                clauses, c->clauses_len, values, c->values_len, trail, c->trail_len, choices, own->bytes,
                                expected + OWNER_VERDICT);
    expected[OWNER_NUMBER] = STM_NUMBER(code);
    expected[OWNER_PLACE] = STM_PLACE(code);
    require(memcmp(expected, c->answers[i], sizeof expected) == 0, "owners", "an owner is told other than alone", code);
    require(memcmp(choices, own->at, own->bytes) == 0, "owners", "an owner has other choices than alone", code);
    require(expected[OWNER_VERDICT] <= 2, "owners", "no such answer", expected[OWNER_VERDICT]);
    if (code)
        seen.owners_refused[STM_NUMBER(code)]++;
    else
        seen.owners_found[expected[OWNER_VERDICT]]++;
}

static void zeros(size_t region, size_t bytes, const char *call)
{
    for (size_t i = 0; i < bytes; i++)
        if (regions[region].at[i])
            fault("%s: %s keeps what was used", call, regions[region].name);
}

/* The last formula of each owner that is not refused has been zeroed, the longest of them, and nothing behind it. */
static void check_zeroed(const struct owners_call *c)
{
    size_t words = 0, n = 0;
    for (size_t i = 0; i < c->used; i++) {
        uint64_t sizes[SIZE_LEN] = {0}, *verdict = c->answers[i] + OWNER_VERDICT;
        if (c->answers[i][OWNER_NUMBER])
            continue;
        uint64_t last = verdict[0] == 0 ? c->bound : verdict[1];
        stm_size(design, design_len, c->pieces[i].bytes, c->pieces[i].len, INVARIANT, last, sizes);
        words = sizes[SIZE_WORDS] > words ? (size_t)sizes[SIZE_WORDS] : words;
        n = sizes[SIZE_VARIABLES] > n ? (size_t)sizes[SIZE_VARIABLES] : n;
    }
    zeros(CLAUSES, words * sizeof(int32_t), "owners");
    zeros(ASSIGNED, n, "owners");
    zeros(TRAIL, n * sizeof(uint32_t), "owners");
    same(CLAUSES, words * sizeof(int32_t), "owners");
    same(ASSIGNED, n, "owners");
    same(TRAIL, n * sizeof(uint32_t), "owners");
}

void call_owners(void)
{
    struct owners_call c;
    const uint8_t *own_piece = piece;
    size_t own_len = piece_len;
    lend_asked(&c);
    lend_told(&c);
    set_piece(own_piece, own_len);
    uint64_t code = stm_owners(design, design_len, c.bound, c.owners, c.pieces, c.budgets, (int32_t *)(void *)regions[CLAUSES].at,
                               c.clauses_len, regions[ASSIGNED].at, c.values_len, (uint32_t *)(void *)regions[TRAIL].at,
                               c.trail_len, c.buffers, c.answers);
    unsigned all = SET(STM_OWNERS) - 1;
    ended("owners", code, SET(DESIGN) | SET(PIECES) | SET(BUDGETS) | SET(BUFFERS) | all << OWNER_PIECE,
          SET(CLAUSES) | SET(ASSIGNED) | SET(TRAIL) | SET(ANSWER) | all << OWNER_CHOICES);
    require(code == (design_code ? design_code : c.used ? 0 : 20), "owners", "not the first refusal", code);
    seen.wrong_counts += code == 20;
    if (code)
        return;
    same(ANSWER, c.used * sizeof *c.answers, "owners");
    for (size_t i = 0; i < STM_OWNERS; i++)
        if (i < c.used)
            check_alone(&c, i);
        else
            same(OWNER_CHOICES + i, 0, "owners");
    check_zeroed(&c);
}
