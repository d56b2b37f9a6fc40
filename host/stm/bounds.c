#define _POSIX_C_SOURCE 200809L
#include "bounds.h"

#include "json.h"
#include "stopping.h"

#include <time.h>
#include <unistd.h>

/* The tries of a first call. On a terminal, where they are enough and it takes less than PATIENCE seconds, no progress is shown unless
 * it is asked for. */
static const uint64_t FIRST_BUDGET = 1000;
static const double PATIENCE = 1;

static double now(void)
{
    struct timespec t;
    clock_gettime(CLOCK_MONOTONIC, &t);
    return (double)t.tv_sec + (double)t.tv_nsec / 1e9;
}

/* VERDICT for a bound up to the job's own, in the memory for that. */
static uint64_t ask(const struct search *s, uint64_t bound, uint64_t budget, uint64_t answer[ANSWER_LEN])
{
    struct job *j = s->j;
    size_t n = (size_t)s->sizes[SIZE_VARIABLES];
    return stm_verdict(j->design, j->len, j->piece, j->piece_len, j->property, bound, budget, s->memory.clauses,
                       (size_t)s->sizes[SIZE_WORDS], s->memory.values, n, s->memory.trail, n, j->choices, MAX_CHOICES, answer);
}

/* Whether lines of progress are shown. The lines of --stats have all that they say. */
static int is_followed(const struct job *j)
{
    return j->progress || (!j->stats && !messages && isatty(STDERR_FILENO));
}

/* The line of --stats. */
static void print_stats(const struct search *s, uint64_t bound, uint64_t tries, double seconds)
{
    const struct job *j = s->j;
    uint64_t sizes[SIZE_LEN] = {0};
    sizes_for(j, bound, sizes);
    if (j->json) {
        json_open(stdout, "bound");
        json_number(stdout, "bound", bound);
        json_number(stdout, "variables", sizes[SIZE_VARIABLES]);
        json_number(stdout, "clauses", sizes[SIZE_CLAUSES]);
        json_number(stdout, "tries", tries);
        json_seconds(stdout, "seconds", seconds);
        json_close(stdout);
    } else {
        printf("bound %" PRIu64 ": %" PRIu64 " variables, %" PRIu64 " clauses, %" PRIu64 " tries, %.3f s\n", bound,
               sizes[SIZE_VARIABLES], sizes[SIZE_CLAUSES], tries, seconds);
    }
    fflush(stdout);
}

/* A call goes through the bounds below, too, whose time is taken off. */
static double own_time(const struct search *s, double took)
{
    return took > s->last_time ? took - s->last_time : 0;
}

/* A bound that needs no more tries, or gets none. The tries of the bounds below are taken off, too. */
static void bound_done(struct search *s, uint64_t bound, const uint64_t answer[ANSWER_LEN], double took)
{
    static const char *const words[] = {[ANSWER_CLEAN] = "clean", [ANSWER_VIOLATED] = "violated", [ANSWER_SPENT] = "spent"};
    uint64_t tries = answer[ANSWER_TRIES] - s->tries;
    double seconds = own_time(s, took);
    if (is_followed(s->j))
        tell("bound %" PRIu64 ": %s, %" PRIu64 " tries, %.3f s\n", bound, words[answer[ANSWER_VERDICT]], tries, seconds);
    if (s->j->stats)
        print_stats(s, bound, tries, seconds);
    s->tries = answer[ANSWER_TRIES];
    s->last_time = took;
}

/* One bound, with budgets that grow up to the job's own. Bounds below it are known to be clean. */
static uint64_t ask_bound(struct search *s, uint64_t bound, uint64_t answer[ANSWER_LEN])
{
    uint64_t most = s->j->budget, known = s->tries;
    uint64_t budget = known > FIRST_BUDGET / 2 ? known : FIRST_BUDGET / 2;
    for (;;) {
        budget = budget > most / 2 ? most : 2 * budget;
        double from = now();
        stands_at(s->j, bound, known);
        uint64_t code = ask(s, bound, budget, answer);
        if (code)
            return code;
        double took = now() - from;
        if (answer[ANSWER_VERDICT] != ANSWER_SPENT || budget == most) {
            if (answer[ANSWER_VERDICT] != ANSWER_CLEAN || bound == s->j->bound)
                is_answered(s->j);
            bound_done(s, bound, answer, took);
            return 0;
        }
        known = budget;
        if (is_followed(s->j))
            tell("bound %" PRIu64 ": over %" PRIu64 " tries so far, %.3f s\n", bound, budget - s->tries,
                 own_time(s, took));
    }
}

/* The bounds from here on, to the first that is not clean. */
static uint64_t ask_bounds(struct search *s, uint64_t from, uint64_t answer[ANSWER_LEN])
{
    uint64_t code = 0;
    answer[ANSWER_VERDICT] = ANSWER_CLEAN;
    for (uint64_t bound = from; !code && answer[ANSWER_VERDICT] == ANSWER_CLEAN && bound <= s->j->bound; bound++)
        code = ask_bound(s, bound, answer);
    return code;
}

/* Bounds that are told together. */
static void tell_clean(const struct search *s, uint64_t bound)
{
    tell("up to bound %" PRIu64 ": clean, %" PRIu64 " tries, %.3f s\n", bound, s->tries, s->last_time);
}

static void clean_up_to(struct search *s, uint64_t bound, const uint64_t answer[ANSWER_LEN], double took)
{
    s->tries = answer[ANSWER_TRIES];
    s->last_time = took;
    stands_at(s->j, bound + 1, s->tries);
}

/* The first calls of a search on a terminal: for bounds that double, with a budget that is small, to the first that is not clean.
 * Answers the first bound that is not known to be clean in *from. */
static uint64_t ask_first(struct search *s, uint64_t *from, uint64_t answer[ANSWER_LEN])
{
    uint64_t budget = s->j->budget < FIRST_BUDGET ? s->j->budget : FIRST_BUDGET, bound = s->j->bound > 0, code = 0;
    *from = 0;
    for (;;) {
        double start = now();
        code = ask(s, bound, budget, answer);
        if (code || answer[ANSWER_VERDICT] != ANSWER_CLEAN || bound == s->j->bound)
            return code;
        *from = bound + 1;
        clean_up_to(s, bound, answer, now() - start);
        if (s->last_time > PATIENCE)
            tell_clean(s, bound);
        bound = bound > s->j->bound / 2 ? s->j->bound : 2 * bound;
    }
}

/* Where the first calls are spent: the bounds below the one that they stood at are clean. Where that was not told yet, they are asked
 * for their tries. */
static uint64_t ask_below(struct search *s, uint64_t from, uint64_t at)
{
    uint64_t below[ANSWER_LEN] = {0}, code = 0;
    if (at == 0 || (at == from && s->last_time > PATIENCE))
        return 0;
    if (at > from) {
        double start = now();
        code = ask(s, at - 1, s->j->budget, below);
        clean_up_to(s, at - 1, below, now() - start);
    }
    tell_clean(s, at - 1);
    return code;
}

/* Whether the first calls have left the answer open. */
static int is_open(const struct job *j, const uint64_t answer[ANSWER_LEN])
{
    return answer[ANSWER_VERDICT] == ANSWER_SPENT && answer[ANSWER_TRIES] < j->budget;
}

uint64_t search_bounds(struct search *s, uint64_t answer[ANSWER_LEN])
{
    const struct job *j = s->j;
    uint64_t from = 0, code = 0;
    int asked = j->progress || j->stats || j->seconds;
    if (!asked && !is_followed(j))
        return ask(s, j->bound, j->budget, answer);
    start_stopping(j);
    if (!asked)
        code = ask_first(s, &from, answer);
    if (!asked && !code && is_open(j, answer)) {
        code = ask_below(s, from, answer[ANSWER_AT]);
        from = answer[ANSWER_AT];
        asked = 1;
    }
    if (!code && asked)
        code = ask_bounds(s, from, answer);
    end_stopping();
    return code;
}
