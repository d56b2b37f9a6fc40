/* `stm decode`, and models as solvers write them: of the formula, or of near none. */
#include "designs.h"
#include "formulas.h"
#include "lines.h"
#include "memory.h"
#include "pieces.h"
#include "random.h"
#include "refusals.h"
#include "report.h"
#include "scratch.h"
#include "texts.h"

/* The variables of the longest formula that a model is made for. */
enum { MAX_VALUES = 60000 };

/* SOLVE's answers. */
enum { SAT, UNSAT };

static uint8_t values[MAX_VALUES];

/* So many bytes of a file as the program reads. */
static size_t read_part(uint8_t to[MAX_READ], const uint8_t *from, size_t len)
{
    len = len < MAX_READ ? len : MAX_READ;
    memcpy(to, from, len);
    return len;
}

/* The design and the piece under test, as the program has them. */
static const struct job *job_of(uint64_t property)
{
    static struct job j;
    j.property = property;
    j.len = read_part(j.design, design, design_len);
    j.piece_len = read_part(j.piece, piece, piece_len);
    return &j;
}

/* SOLVE's answer for the formula, in a few tries; on SAT the values are a model. */
static uint64_t solve_formula(uint64_t property, uint64_t bound, const uint64_t sizes[SIZE_LEN])
{
    static int32_t clauses[MAX_WORDS];
    static uint32_t trail[MAX_VALUES];
    uint64_t answer[2] = {0}, n = sizes[SIZE_VARIABLES];
    size_t len;
    uint64_t code = put_parts(job_of(property), sizes, bound, clauses, &len);
    require(code == 0 && len == sizes[SIZE_WORDS], "encode", "not SIZE's words", len);
    code = stm_solve(n, clauses, len, values, MAX_VALUES, trail, MAX_VALUES, PICK(5, 20, 40), answer);
    require(code == 0, "solve", "refuses a formula", code);
    return answer[0];
}

/* Files, properties and bounds that are known to break, so that models of them can be asked for again. */
enum { MAX_BREAKING = 64 };
static struct breaking {
    size_t file;
    uint64_t property, bound;
} breaking[MAX_BREAKING];
static size_t breaking_count;

static void remember(uint64_t property, uint64_t bound)
{
    if (is_whole() && piece_len == 0 && breaking_count < MAX_BREAKING)
        breaking[breaking_count++] = (struct breaking){last_file, property, bound};
}

/* Values for the formula, and the exit statuses that they may lead to: a model; or the flags of a run alone, or not even these. */
static uint64_t make_values(uint64_t property, uint64_t bound, const uint64_t sizes[SIZE_LEN])
{
    uint64_t found = solve_formula(property, bound, sizes);
    if (found == SAT)
        remember(property, bound);
    if (found == SAT && chance(85))
        return STATUS(VIOLATED);
    int right = chance(40);
    memset(values, 0, (size_t)sizes[SIZE_VARIABLES]);
    put_flags(sizes, bound, right ? 100 : 30, values, (size_t)sizes[SIZE_VARIABLES]);
    uint64_t runs = STATUS(NOT_ACCEPTED) | (found == UNSAT ? 0 : STATUS(VIOLATED));
    return right ? runs : runs | STATUS(REFUSED);
}

/* What is wrong with a model as text. */
enum { WHOLE, NEGATED, DROPPED, DOUBLED, FOREIGN, UNCLOSED, GOES_ON, NO_MODEL, WITH_NUL, CUT, DAMAGED, AFTER_LONG_LINE, FAULTS };

/* A value of the model, as a literal. */
static void add_literal(size_t i, int negated)
{
    add(" %s%zu", (values[i] == 1) != negated ? "" : "-", i + 1);
}

static void add_foreign(size_t n)
{
    static const char *const others[] = {"2147483647", "-2147483648", "2147483648", "18446744073709551617", "x", "-", "-0", "1.", "+1"};
    if (chance(50))
        add(" %zu", n + 1);
    else
        add(" %s", ONE_OF(others));
}

/* The literals in lines of any width, from any of them on; `at` is the one to which the fault comes. */
static void add_literals(size_t n, int wrong, size_t at, const char *start)
{
    size_t width = (size_t)PICK(1, 7, 50, n), first = below(n);
    for (size_t k = 0; k < n; k++) {
        size_t i = (first + k) % n;
        if (k % width == 0)
            add("%s%s", k ? "\n" : "", start);
        if (i != at || wrong != DROPPED)
            add_literal(i, i == at && wrong == NEGATED);
        if (i == at && wrong == DOUBLED)
            add_literal(i, chance(50));
        if (i == at && wrong == FOREIGN)
            add_foreign(n);
        if (i == at && wrong == GOES_ON)
            add(" 0");
    }
    add("%s\n", wrong == UNCLOSED ? "" : " 0");
}

/* A model in one of the two forms. */
static void add_model(size_t n, int wrong, size_t at)
{
    static const char *const answers[] = {"s UNSATISFIABLE\n", "UNSAT\n", "s UNKNOWN\n", "INDET\n", "s\n", "s 1\n", "0\n"};
    start_text();
    if (wrong == AFTER_LONG_LINE) {
        int huge = is_huge();
        add("c ");
        add_long('v', huge ? MAX_TEXT / 4 : 5000);
        add("\n");
        seen.huge_texts += huge != 0;
    }
    if (wrong == NO_MODEL)
        add("%s", ONE_OF(answers));
    else if (chance(70))
        add("%s", chance(50) ? "c of a solver\r\n\ns SATISFIABLE\n" : "c\n");
    int bare = wrong != NO_MODEL && chance(40);
    if (bare)
        add("SAT\n");
    add_literals(n, wrong, at, bare ? "" : "v");
}

/* One of the flags, or of all variables: its place in the values, where variable 1 has place 0. */
static size_t any_variable(const uint64_t sizes[SIZE_LEN], uint64_t bound, int *is_flag)
{
    size_t first = (size_t)flags_of(sizes, 0) - 1, frame = (size_t)frame_of(sizes), movers = (size_t)sizes[SIZE_MOVERS];
    if (bound > 0 && chance(50)) {
        *is_flag = 1;
        return first + below((size_t)bound) * frame + below(movers);
    }
    size_t at = below((size_t)sizes[SIZE_VARIABLES]);
    *is_flag = at >= first && (at - first) / frame < bound && (at - first) % frame < movers;
    return at;
}

/* Makes the text. Answers the exit statuses that it may lead to. */
static uint64_t make_model(uint64_t property, uint64_t bound, const uint64_t sizes[SIZE_LEN])
{
    uint64_t runs = make_values(property, bound, sizes), any = STATUS(NOT_ACCEPTED) | STATUS(REFUSED) | STATUS(VIOLATED);
    size_t n = (size_t)sizes[SIZE_VARIABLES];
    int wrong = chance(50) ? WHOLE : (int)below(FAULTS), is_flag;
    size_t at = any_variable(sizes, bound, &is_flag);
    add_model(n, wrong, at);
    switch (wrong) {
    case WHOLE:
    case AFTER_LONG_LINE:
        return runs;
    case NEGATED:
        /* a frame with one flag has then none or two */
        return !is_flag ? runs : runs & STATUS(REFUSED) ? any : STATUS(REFUSED);
    case WITH_NUL:
        if (chance(50))
            put_nul();
        else
            add_bytes("c\0\n", 3);
        break;
    case CUT:
        cut_text(below(text_len() - 2));
        break;
    case DAMAGED:
        for (size_t count = 1 + below(3); count > 0; count--)
            damage_text();
        swell_text();
        return any | STATUS(MISUSED);
    default:
        break;
    }
    return STATUS(MISUSED);
}

/* The words PROPERTY and BOUND: any; or some that the design has; or, with another design, some that break. 0 where the formula is too
 * long. */
static int add_decoded(struct line *l, uint64_t *property, uint64_t *bound)
{
    if (chance(30))
        return add_asked(l, MAX_WORDS, MAX_SEARCH, property, bound);
    if (breaking_count == 0 || chance(60))
        return add_likely(l, MAX_WORDS, 2 * MAX_SEARCH, property, bound);
    const struct breaking *b = &breaking[below(breaking_count)];
    whole_design(b->file);
    set_piece(piece, 0);
    add_known(l, *property = b->property);
    add_known(l, *bound = b->bound);
    return 1;
}

/* A refusal is told before the model is read. */
void make_decode(struct line *l)
{
    uint64_t property, bound, sizes[SIZE_LEN] = {0};
    int is_short = add_decoded(l, &property, &bound);
    int known = is_short && sizes_of(property, bound, sizes) && sizes[SIZE_VARIABLES] <= MAX_VALUES;
    l->has_formula = formula_refusal(property, bound) == 0;
    uint64_t runs = known ? make_model(property, bound, sizes) : 0;
    if (!l->has_formula)
        runs = STATUS(REFUSED);
    if (runs == STATUS(MISUSED) || (!known && runs == 0))
        is_misuse(l);
    else
        narrow(l, runs);
    if (!known) {
        start_text();
        add("SAT\n1 0\n");
    }
    save_text(scratch_paths[MODEL_FILE]);
    add_word(l, scratch_paths[MODEL_FILE]);
}
