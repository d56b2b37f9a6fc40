/* stm rows RESULTS.csv: each row of another tool's table is judged by our rows, by REPLAY of its choices and by REFUTE of its proof. */
#define _POSIX_C_SOURCE 200809L
#include "claims.h"
#include "files.h"
#include "json.h"
#include "refutation.h"
#include "tables.h"
#include "trace.h"

enum { AGREES, DIFFERS, NOT_JUDGED, BAD, RESULTS };
static const char *const results[RESULTS] = {"agrees", "differs", "not judged", "bad"};
static const char *const keys[RESULTS] = {"agrees", "differs", "not_judged", "bad"};
static const char *const counted[RESULTS] = {"agree", "differ", "not judged", "bad"};

/* What a row's choices or its proof show. */
enum { NOT_GIVEN, SHOWN, NOT_SHOWN };

struct judging {
    struct tables tables;
    struct claims claims;
    struct job row;
    struct claim claim;
    struct known known; /* by our rows */
    uint64_t counts[RESULTS];
};

/* What REPLAY says of the choices. */
static int replay_choices(const struct judging *g, int *evidence, uint64_t answer[REPLAY_LEN])
{
    const struct job *row = &g->row;
    *evidence = NOT_GIVEN;
    if (!g->claim.has_choices)
        return 0;
    *evidence = NOT_SHOWN;
    uint64_t code = replay_of(row, answer);
    int within = answer[REPLAY_BROKEN] && answer[REPLAY_STEP] <= row->bound;
    if (!code && within && (!g->claim.has_step || answer[REPLAY_STEP] == g->claim.step))
        *evidence = SHOWN;
    return code ? refuse(row, code) : 0;
}

static int wrong_choices(const uint64_t answer[REPLAY_LEN])
{
    if (answer[REPLAY_BROKEN])
        tell("the choices break it at step %" PRIu64, answer[REPLAY_STEP]);
    else
        tell("the choices do not break the property");
    return DIFFERS;
}

/* Whether our rows say otherwise than that the property breaks at that step first; UNKNOWN_STEP is at any step. */
static int rows_deny(const struct judging *g, uint64_t step)
{
    const struct known *k = &g->known;
    if (g->row.bound < k->clean)
        tell("our rows say CLEAN");
    else if (step != UNKNOWN_STEP && k->step != UNKNOWN_STEP && step != k->step)
        tell("our rows say VIOLATED at step %" PRIu64, k->step);
    else if (step < k->clean)
        tell("our rows say CLEAN up to bound %" PRIu64, k->clean - 1);
    else
        return 0;
    return 1;
}

/* Our rows can be wrong, and REPLAY and REFUTE cannot; so where these deny what our rows say, that is told. */
static int judge_violated(const struct judging *g)
{
    int evidence, reached = g->known.step <= g->row.bound;
    uint64_t answer[REPLAY_LEN] = {0}, step = g->claim.has_step ? g->claim.step : UNKNOWN_STEP;
    if (replay_choices(g, &evidence, answer))
        return BAD;
    int early = answer[REPLAY_BROKEN] && answer[REPLAY_STEP] < g->known.clean;
    if (rows_deny(g, early ? answer[REPLAY_STEP] : step)) {
        if (early)
            tell(", but the choices break the property at step %" PRIu64 ": our rows are at fault", answer[REPLAY_STEP]);
        return DIFFERS;
    }
    if (evidence == NOT_SHOWN)
        return wrong_choices(answer);
    if (reached)
        tell("reference row%s", evidence == SHOWN ? ", witness" : "");
    else if (evidence == NOT_GIVEN)
        tell("no reference row reaches it; give choices");
    else
        tell("witness%s", g->claim.has_step && g->known.clean < step ? "; that no shorter run breaks is not judged" : "");
    return reached || evidence == SHOWN ? AGREES : NOT_JUDGED;
}

static int judge_by_proof(const struct judging *g, int evidence, const struct proof *p, const uint64_t answer[2])
{
    int reached = g->row.bound < g->known.clean;
    if (g->known.step <= g->row.bound) {
        tell("our rows say VIOLATED at step %" PRIu64, g->known.step);
        if (evidence == SHOWN)
            tell(", but the proof is accepted: our rows are at fault");
        return DIFFERS;
    }
    if (evidence == NOT_SHOWN) {
        print_fault(messages, p, answer);
        return DIFFERS;
    }
    if (reached)
        tell("reference row%s", evidence == SHOWN ? ", proof" : "");
    else
        tell(evidence == SHOWN ? "proof" : "no reference row reaches it; give a proof");
    return reached || evidence == SHOWN ? AGREES : NOT_JUDGED;
}

static int judge_clean(struct judging *g)
{
    if (!g->claim.has_proof)
        return judge_by_proof(g, NOT_GIVEN, NULL, NULL);
    struct proof p = {.len = 0};
    uint64_t answer[2] = {0};
    char *path = proof_path(&g->claims, &g->claim);
    int failed = path ? want_file(path) : MISUSED;
    if (!failed)
        failed = read_proof(&g->row, path, &p);
    if (!failed)
        failed = refute_by(&g->row, &p, answer);
    int result = failed ? BAD : judge_by_proof(g, answer[0] == ACCEPTED ? SHOWN : NOT_SHOWN, &p, answer);
    free_proof(&p);
    free(path);
    return result;
}

static int judge(struct judging *g, size_t record)
{
    g->row = (struct job){.command = "rows"};
    if (read_claim(&g->claims, record, &g->row, &g->claim))
        return BAD;
    if (g->claim.verdict == ANSWER_SPENT) {
        tell("SPENT claims nothing");
        return NOT_JUDGED;
    }
    g->known = known_of(&g->tables, &g->row);
    return g->claim.verdict == ANSWER_CLEAN ? judge_clean(g) : judge_violated(g);
}

static void number_or_null(const char *key, int has, uint64_t number)
{
    if (has)
        json_number(stdout, key, number);
    else
        json_null(stdout, key);
}

static void print_object(const struct judging *g, int result, const char *why)
{
    const struct claim *c = &g->claim;
    json_open(stdout, "row");
    json_number(stdout, "row", c->line);
    json_text(stdout, "file", c->texts[FILE_COLUMN]);
    number_or_null("property", c->has_property, g->row.property);
    number_or_null("bound", c->has_bound, g->row.bound);
    json_text(stdout, "verdict", c->has_verdict ? verdicts[c->verdict] : NULL);
    number_or_null("step", c->has_step, c->step);
    json_text(stdout, "result", results[result]);
    json_text(stdout, "why", why);
    json_close(stdout);
}

static void print_line(const struct judging *g, int result, const char *why)
{
    const struct claim *c = &g->claim;
    printf("row %" PRIu64 ": ", c->line);
    if (result != BAD) {
        print_shown(stdout, c->texts[FILE_COLUMN]);
        printf(" %" PRIu64 " %" PRIu64 " %s", g->row.property, g->row.bound, verdicts[c->verdict]);
        if (c->has_step)
            printf(" %" PRIu64, c->step);
        printf(": ");
    }
    printf("%s%s", results[result], result == BAD ? ": " : " (");
    print_shown(stdout, why);
    printf("%s\n", result == BAD ? "" : ")");
}

/* The message without the program's name and its end: a row's line has its own. */
static char *bare(char *message)
{
    static const char name[] = "stm: ";
    size_t len = strlen(message);
    if (len && message[len - 1] == '\n')
        message[len - 1] = '\0';
    return strncmp(message, name, strlen(name)) == 0 ? message + strlen(name) : message;
}

/* What a row is judged by is told as a message, as the faults of files and numbers are: all messages are kept for the row's own line. */
static int judge_row(struct judging *g, int json, size_t record)
{
    FILE *before = messages;
    char *text = NULL;
    size_t len = 0;
    messages = open_memstream(&text, &len);
    int result = messages ? judge(g, record) : BAD;
    int failed = !messages || fclose(messages);
    messages = before;
    if (!failed) {
        (json ? print_object : print_line)(g, result, bare(text));
        g->counts[result]++;
    }
    free(text);
    fflush(stdout);
    return failed ? misuse("not enough memory for a row") : 0;
}

static int judge_rows(struct judging *g, int json)
{
    int failed = 0;
    for (size_t i = g->claims.first; !failed && i < g->claims.csv.len; i++)
        failed = judge_row(g, json, i);
    return failed;
}

static void print_counts(const struct judging *g, uint64_t rows)
{
    printf("%" PRIu64 " row%s", rows, rows == 1 ? "" : "s");
    for (size_t i = 0; i < RESULTS; i++)
        printf("%s %" PRIu64 " %s", i ? "," : ":", g->counts[i], counted[i]);
    printf("\n");
}

static void print_counts_object(const struct judging *g, uint64_t rows)
{
    json_open(stdout, "rows");
    json_number(stdout, "rows", rows);
    for (size_t i = 0; i < RESULTS; i++)
        json_number(stdout, keys[i], g->counts[i]);
    json_close(stdout);
}

static int status_of(const uint64_t counts[RESULTS])
{
    if (counts[BAD])
        return MISUSED;
    if (counts[DIFFERS])
        return NOT_ACCEPTED;
    return counts[NOT_JUDGED] ? SPENT : CLEAN;
}

int run_rows(struct job *j, int count, char **words)
{
    (void)count;
    static struct judging g;
    const char *designs = designs_folder(j);
    g = (struct judging){.counts = {0}};
    int status = read_claims(j, words[0], designs, &g.claims);
    if (!status)
        status = read_tables(j, designs, &g.tables);
    if (!status)
        status = judge_rows(&g, j->json);
    if (!status) {
        (j->json ? print_counts_object : print_counts)(&g, g.claims.csv.len - g.claims.first);
        status = status_of(g.counts);
    }
    free_tables(&g.tables);
    free_claims(&g.claims);
    return status;
}
