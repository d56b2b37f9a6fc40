/* The words of a command, but for its options. */
#define _POSIX_C_SOURCE 200809L
#include "lines.h"

#include "../stm/trace.h"
#include "designs.h"
#include "formulas.h"
#include "memory.h"
#include "pieces.h"
#include "random.h"
#include "refusals.h"
#include "report.h"
#include "scratch.h"
#include "texts.h"

void add_word(struct line *l, const char *text)
{
    char *word = l->count < MAX_ARGS ? strdup(text) : NULL;
    if (!word)
        fault("no memory, or too many words");
    l->words[l->count++] = word;
}

void free_words(struct line *l)
{
    while (l->count > 0)
        free(l->words[--l->count]);
}

void is_misuse(struct line *l)
{
    l->allowed = STATUS(MISUSED);
}

void narrow(struct line *l, uint64_t allowed)
{
    if (l->allowed != STATUS(MISUSED))
        l->allowed &= allowed;
}

void add_known(struct line *l, uint64_t number)
{
    char text[24];
    snprintf(text, sizeof text, "%" PRIu64, number);
    add_word(l, text);
}

uint64_t add_number(struct line *l)
{
    static const char *const good[] = {"0", "1", "2", "00", "01", "02"};
    static const char *const high[] = {"3", "4", "101", "255", "256", "300", "4294967297", "18446744073709551615"};
    static const char *const bad[] = {
        "18446744073709551616", "99999999999999999999", "-1", "", "x", "1x", " 1", "+1", "0x1", "1e1", "--1",
    };
    int is_bad = chance(4);
    const char *text = is_bad ? ONE_OF(bad) : chance(94) ? ONE_OF(good) : ONE_OF(high);
    uint64_t number = 0;
    for (const char *at = text; *at >= '0' && *at <= '9'; at++)
        number = 10 * number + (uint64_t)(*at - '0');
    if (is_bad)
        is_misuse(l);
    add_word(l, text);
    return number;
}

static void change_last(struct line *l, uint64_t number)
{
    free(l->words[--l->count]);
    add_known(l, number);
}

void change_word(struct line *l, int at, const char *text)
{
    free(l->words[at]);
    l->words[at] = strdup(text);
    if (!l->words[at])
        fault("no memory");
}

int add_asked(struct line *l, uint64_t most_words, uint64_t most_search, uint64_t *property, uint64_t *bound)
{
    uint64_t sizes[SIZE_LEN] = {0};
    *property = add_number(l);
    *bound = add_number(l);
    uint64_t lower = affordable(*property, *bound, most_search, sizes);
    if (lower != *bound && l->allowed != STATUS(MISUSED))
        change_last(l, *bound = lower);
    return sizes[SIZE_WORDS] <= most_words && sizes[SIZE_VARIABLES] * sizes[SIZE_WORDS] <= most_search;
}

int add_likely(struct line *l, uint64_t most_words, uint64_t most_search, uint64_t *property, uint64_t *bound)
{
    uint64_t sizes[SIZE_LEN] = {0};
    *property = below((size_t)last_property() + 1);
    *bound = affordable(*property, below(4), most_search, sizes);
    add_known(l, *property);
    add_known(l, *bound);
    return sizes[SIZE_WORDS] <= most_words && sizes[SIZE_VARIABLES] * sizes[SIZE_WORDS] <= most_search;
}

/* A file of some MB is too long for a design. */
static void make_check(struct line *l)
{
    int huge = is_huge();
    if (huge) {
        start_text();
        add_long('\0', MAX_TEXT / 2);
        save_text(scratch_paths[MODEL_FILE]);
        change_word(l, 2, scratch_paths[MODEL_FILE]);
        seen.huge_texts++;
    }
    narrow(l, STATUS(design_code || huge ? REFUSED : CLEAN));
}

/* What REPLAY itself says of choices as text. */
static void expect_replay(struct line *l, uint64_t property, const uint8_t *choices, size_t len)
{
    uint64_t answer[REPLAY_LEN] = {0};
    uint64_t code = stm_replay(design, design_len, piece, piece_len, property, choices, len, answer);
    narrow(l, STATUS(code ? REFUSED : answer[REPLAY_BROKEN] ? VIOLATED : CLEAN));
}

/* How many movers choices are taken from: mostly as many as the design has. */
static size_t any_movers(void)
{
    uint64_t sizes[SIZE_LEN];
    if (chance(60) && sizes_of(NO_INVALID_CELL, 0, sizes))
        return (size_t)sizes[SIZE_MOVERS];
    return (size_t)PICK(3, 3, 4, 10, 256);
}

static void add_choices(struct line *l, uint64_t property)
{
    enum { MOST = 120 };
    char text[4 * MOST + 2] = "-";
    uint8_t choices[MOST];
    size_t len = chance(85) ? below(9) : (size_t)PICK(99, 100, 101, 102, MOST), at = 0, movers = any_movers();
    for (size_t i = 0; i < len; i++) {
        choices[i] = (uint8_t)below(movers);
        at += (size_t)snprintf(text + at, sizeof text - at, "%s%u", i ? "," : "", choices[i]);
    }
    expect_replay(l, property, choices, len);
    add_word(l, text);
}

/* Bytes near those of choices, and a text of some MB. */
static void add_any_choices(struct line *l)
{
    static const char letters[] = "0123,,-9 x";
    static char text[MAX_TEXT];
    size_t count = is_huge() ? MAX_TEXT / 4 : below(chance(90) ? 16 : 410);
    for (size_t i = 0; i < count; i++)
        text[i] = letters[i > 410 ? 4 * (i & 1) : below(chance(90) ? 6 : sizeof letters - 1)];
    text[count] = '\0';
    seen.huge_texts += count > 410;
    add_word(l, text);
}

static void make_replay(struct line *l)
{
    uint64_t property = add_number(l);
    if (chance(60))
        add_choices(l, property);
    else
        add_any_choices(l);
}

static void make_size(struct line *l)
{
    uint64_t property = add_number(l), bound = add_number(l);
    narrow(l, STATUS(formula_refusal(property, bound) ? REFUSED : CLEAN));
}

static void make_cnf(struct line *l)
{
    uint64_t property, bound;
    if (!add_asked(l, MAX_WORDS / 4, UINT64_MAX, &property, &bound))
        change_word(l, 1, "size");
    narrow(l, STATUS(formula_refusal(property, bound) ? REFUSED : CLEAN));
}

/* A search without a budget is short up to bound 1. */
static void make_verdict(struct line *l)
{
    enum { LONGER_SEARCH = 20000000 };
    uint64_t property, bound;
    int is_short = add_asked(l, MAX_WORDS, LONGER_SEARCH, &property, &bound), refused = formula_refusal(property, bound) != 0;
    if (!is_short)
        change_word(l, 1, "size");
    else if (chance(10))
        add_number(l);
    else if (bound > 1 || chance(70))
        add_word(l, "5");
    narrow(l, refused ? STATUS(REFUSED) : STATUS(CLEAN) | STATUS(VIOLATED) | STATUS(SPENT));
}

/* The owners' formulas, with the piece and without, are short at this bound, or it is refused. */
static int short_for_owners(uint64_t bound)
{
    uint64_t sizes[SIZE_LEN] = {0};
    const uint8_t *own_piece = piece;
    size_t own_len = piece_len;
    int fits_piece = affordable(INVARIANT, bound, MAX_SEARCH, sizes) == bound && sizes[SIZE_WORDS] <= MAX_WORDS;
    set_piece(own_piece, 0);
    int fits_none = affordable(INVARIANT, bound, MAX_SEARCH, sizes) == bound && sizes[SIZE_WORDS] <= MAX_WORDS;
    set_piece(own_piece, own_len);
    return fits_piece && fits_none;
}

/* None to five owners, each with a budget; up to bound 1, where the search is short, some have none. */
static void make_owners(struct line *l)
{
    static const char *const budgets[] = {":0", ":1", ":5", ":5", ":20", ""};
    static const char *const bad[] = {":", ":x", ":-1", ":18446744073709551616", ":5:"};
    uint64_t bound = add_number(l);
    if (design_code == 0 && l->allowed != STATUS(MISUSED) && !short_for_owners(bound))
        change_last(l, bound = 0);
    size_t kinds = sizeof budgets / sizeof budgets[0] - (bound > 1);
    for (uint64_t count = PICK(0, 1, 1, 2, 2, 3, 4, 4, 5); count > 0; count--) {
        char word[MAX_PATH + 32];
        const char *path = chance(60) ? scratch_paths[PIECE_FILE] : chance(97) ? "" : "/nowhere/none.piece";
        snprintf(word, sizeof word, "%s%s", path, chance(97) ? budgets[below(kinds)] : ONE_OF(bad));
        add_word(l, word);
    }
}

/* A word is left out, is too much, or is one of some MB: too few and too many words are misuse. */
static void spoil(struct line *l, uint64_t usual, int least, int most)
{
    static char huge[MAX_TEXT / 4];
    int words = l->count - 2, at = 2 + (int)below((size_t)(words > 0 ? words : 1));
    if (chance(50) && words >= least) {
        while (l->count - 2 >= least - (int)below((size_t)least))
            free(l->words[--l->count]);
        is_misuse(l);
    } else if (chance(60) && most > 0) {
        while (l->count - 2 <= most)
            add_word(l, "0");
        is_misuse(l);
    } else if (is_huge() && words > 0) {
        memset(huge, (int)PICK('0', '1', '-', '/', ','), sizeof huge - 1);
        change_word(l, at, huge);
        l->allowed = usual | STATUS(MISUSED);
        seen.huge_texts++;
    }
}

static const struct maker {
    const char *name;
    void (*make)(struct line *l);
    uint64_t usual;
    int least, most; /* the words that it takes, options aside */
} makers[] = {
    {"check", make_check, STATUS(CLEAN) | STATUS(REFUSED), 1, 1},
    {"replay", make_replay, STATUS(CLEAN) | STATUS(MISUSED) | STATUS(REFUSED) | STATUS(VIOLATED), 3, 3},
    {"size", make_size, STATUS(CLEAN) | STATUS(REFUSED), 3, 3},
    {"cnf", make_cnf, STATUS(CLEAN) | STATUS(REFUSED), 3, 3},
    {"verdict", make_verdict, STATUS(CLEAN) | STATUS(REFUSED) | STATUS(VIOLATED) | STATUS(SPENT), 3, 4},
    {"verdict", make_verdict, STATUS(CLEAN) | STATUS(REFUSED) | STATUS(VIOLATED) | STATUS(SPENT), 3, 4},
    {"refute", make_refute, STATUS(CLEAN) | STATUS(NOT_ACCEPTED) | STATUS(MISUSED) | STATUS(REFUSED), 4, 4},
    {"decode", make_decode, STATUS(NOT_ACCEPTED) | STATUS(MISUSED) | STATUS(REFUSED) | STATUS(VIOLATED), 4, 4},
    {"decode", make_decode, STATUS(NOT_ACCEPTED) | STATUS(MISUSED) | STATUS(REFUSED) | STATUS(VIOLATED), 4, 4},
    {"owners", make_owners, STATUS(CLEAN) | STATUS(MISUSED) | STATUS(REFUSED) | STATUS(VIOLATED) | STATUS(SPENT), 2, 0},
    {"rows", make_rows, STATUS(CLEAN) | STATUS(NOT_ACCEPTED) | STATUS(MISUSED) | STATUS(SPENT), 1, 1},
    {"rows", make_rows, STATUS(CLEAN) | STATUS(NOT_ACCEPTED) | STATUS(MISUSED) | STATUS(SPENT), 1, 1},
};

/* No command, or one that there is not. */
static void make_none(struct line *l)
{
    static const char *const names[] = {"solve", "", "-", "--", "--json", "Check", "checks", "stm", "%s%n", "--version", "--help"};
    if (chance(20)) {
        is_misuse(l);
        return;
    }
    const char *name = ONE_OF(names);
    int alone = chance(50);
    add_word(l, name);
    if (!alone)
        add_word(l, scratch_paths[DESIGN_FILE]);
    int told = strcmp(name, "--help") == 0 || (alone && strcmp(name, "--version") == 0);
    l->allowed = STATUS(told ? CLEAN : MISUSED);
}

void make_command(struct line *l)
{
    static const char *const unreadable[] = {"/nowhere/none.stm", "/", ""};
    const struct maker *m = &ONE_OF(makers);
    add_word(l, "stm");
    if (chance(3)) {
        make_none(l);
        return;
    }
    l->allowed = m->usual;
    add_word(l, m->name);
    if (m->make != make_rows)
        add_word(l, scratch_paths[DESIGN_FILE]);
    m->make(l);
    if (m->make != make_rows && chance(2)) {
        change_word(l, 2, ONE_OF(unreadable));
        is_misuse(l);
    }
    if (chance(5))
        spoil(l, m->usual, m->least, m->most);
}
