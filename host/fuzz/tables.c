/* `stm rows`, and other tools' tables: rows that agree with ours, that differ, that cannot be judged, and bad ones. */
#include "lines.h"
#include "random.h"
#include "report.h"
#include "scratch.h"
#include "texts.h"

/* A row of ours, as its words. */
struct our_row {
    char file[128], property[8], bound[8], verdict[16], at[8], choices[512];
    unsigned words;
};
enum { MAX_OURS = 1000 };
static struct our_row ours[MAX_OURS];
static size_t ours_count;

/* What a row is judged as, by the exit status that it leads to; the gravest decides. ANY_RESULT is one of them all. */
enum { ANY_RESULT = 99 };
static const uint64_t results = STATUS(CLEAN) | STATUS(NOT_ACCEPTED) | STATUS(MISUSED) | STATUS(SPENT);

enum { FILE_FIELD, PROPERTY_FIELD, BOUND_FIELD, VERDICT_FIELD, STEP_FIELD, CHOICES_FIELD, PROOF_FIELD, FIELDS };
struct row {
    const char *fields[FIELDS];
    int result;
};

/* Rows without a budget, which claim something. */
static void read_ours(const struct rows_file *r)
{
    const char *end = r->bytes + r->len;
    for (const char *at = r->bytes; at < end && ours_count < MAX_OURS;) {
        const char *feed = memchr(at, '\n', (size_t)(end - at)), *past = feed ? feed : end;
        struct our_row *o = &ours[ours_count];
        char line[1024], budget[32];
        snprintf(line, sizeof line, "%.*s", (int)(past - at), at);
        int count = sscanf(line, "%127s %7s %7s %31s %15s %7s %*s %*s %*s %u %*s %511s", o->file, o->property, o->bound, budget, o->verdict,
                           o->at, &o->words, o->choices);
        int claims = count == 8 && (strcmp(o->verdict, "CLEAN") == 0 || strcmp(o->verdict, "VIOLATED") == 0);
        ours_count += line[0] != '#' && claims && strcmp(budget, "-") == 0;
        at = past + 1;
    }
}

/* Those of the tables by which others are judged; that of refutations and the list of digests have other columns. */
static void read_all_ours(void)
{
    static const char *const names[] = {"/rows.txt", "/rows-pieces.txt", "/rows-deep.txt", "/rows-published.txt"};
    for (size_t i = 0; i < rows_files_count; i++)
        for (size_t k = 0; k < sizeof names / sizeof names[0]; k++)
            if (strcmp(strrchr(rows_files[i].path, '/'), names[k]) == 0)
                read_ours(&rows_files[i]);
}

static const char *in_any_case(const char *verdict)
{
    static const char *const clean[] = {"CLEAN", "clean", "Clean"}, *const violated[] = {"VIOLATED", "violated", "Violated", "vIoLaTeD"};
    return strcmp(verdict, "CLEAN") == 0 ? ONE_OF(clean) : ONE_OF(violated);
}

/* A row of ours, or one that says the other verdict. */
static struct row true_row(int agrees)
{
    const struct our_row *o = &ours[below(ours_count)];
    int violated = strcmp(o->verdict, "VIOLATED") == 0;
    struct row r = {{o->file, o->property, o->bound, in_any_case(o->verdict), "", "", ""}, CLEAN};
    if (!agrees) {
        r.fields[VERDICT_FIELD] = in_any_case(violated ? "CLEAN" : "VIOLATED");
        r.result = NOT_ACCEPTED;
    } else if (violated) {
        r.fields[STEP_FIELD] = chance(50) ? o->at : "";
        r.fields[CHOICES_FIELD] = chance(50) ? o->choices : "";
    } else if (o->words < 50000 && chance(20)) {
        r.fields[PROOF_FIELD] = scratch_paths[PROOF_FILE];
        r.result = ANY_RESULT;
    }
    return r;
}

/* A row of which one field is wrong in any case. */
static struct row bad_row(void)
{
    static const char *const no_files[] = {"nowhere.stm", "", "design-a.stm+none.piece", ".", "/nowhere/a+b+c.piece", "nowhere\x1b[2J\xff"};
    static const char *const no_numbers[] = {"", "x", "-1", "1.0", "18446744073709551616", "99999999999999999999", "0x1"};
    static const char *const no_verdicts[] = {"", "FINE", "CLEAN.", "VIOLATED 3", "SPENT\n", "refused"};
    struct row r = true_row(1);
    size_t field = below(VERDICT_FIELD + 1);
    r.fields[field] = field == FILE_FIELD ? ONE_OF(no_files) : field == VERDICT_FIELD ? ONE_OF(no_verdicts) : ONE_OF(no_numbers);
    r.result = MISUSED;
    return r;
}

/* A row of any words, of which nothing is known. */
static struct row any_row(void)
{
    static const char *const words[] = {
        "0", "1", "2", "3", "100", "101", "", "-", "2,0,1", "0,0", "255", "256,", "CLEAN", "VIOLATED", "SPENT", "a\"b", "\r\n", "x",
        "design-a.stm", "mutex.stm", "fuzzed.stm", "design-a.stm+fuzzed.piece", "fuzzed.stm+fuzzed.piece", "+", "+.piece", "../x", "-",
        "/nowhere/none.drat", "4294967296", "file", "verdict",
    };
    struct row r = true_row(1);
    for (size_t count = 1 + below(3); count > 0; count--)
        r.fields[below(PROOF_FIELD)] = ONE_OF(words);
    if (chance(20))
        r.fields[FILE_FIELD] = chance(50) ? "fuzzed.stm" : scratch_paths[DESIGN_FILE];
    r.fields[PROOF_FIELD] = chance(90) ? "" : "/nowhere/none.drat";
    r.result = ANY_RESULT;
    return r;
}

static struct row spent_row(void)
{
    struct row r = true_row(1);
    r.fields[VERDICT_FIELD] = "SPENT";
    r.result = SPENT;
    return r;
}

/* The columns of a table, FIELDS for one that is not read. */
struct columns {
    size_t of[FIELDS + 2];
    size_t count;
};

/* All columns in any order and others between them, with a header; or, without one, in the usual order, all or the first of them. */
static int any_columns(struct columns *c)
{
    int header = chance(40);
    c->count = header ? FIELDS : (size_t)PICK(4, 5, 6, 7);
    for (size_t i = 0; i < c->count; i++)
        c->of[i] = i;
    if (!header)
        return 0;
    for (size_t extra = below(3); extra > 0; extra--)
        c->of[c->count++] = FIELDS;
    for (size_t i = c->count; i > 1; i--) {
        size_t other = below(i), column = c->of[i - 1];
        c->of[i - 1] = c->of[other];
        c->of[other] = column;
    }
    return 1;
}

static void add_line(const struct columns *c, const char *const fields[FIELDS], const char *other, const char *end)
{
    for (size_t i = 0; i < c->count; i++) {
        add("%s", i ? "," : "");
        add_field(c->of[i] < FIELDS ? fields[c->of[i]] : other);
    }
    add("%s%s", end, chance(10) ? end : "");
}

/* The status of a table: that of its gravest row. */
static uint64_t gravest(uint64_t met)
{
    static const int order[] = {MISUSED, NOT_ACCEPTED, SPENT};
    for (size_t i = 0; i < sizeof order / sizeof order[0]; i++)
        if (met & STATUS(order[i]))
            return STATUS(order[i]);
    return STATUS(CLEAN);
}

/* Rows of one or two kinds. Answers the exit statuses that the table may lead to. */
static uint64_t make_table(void)
{
    static const char *const names[FIELDS] = {"file", "property", "bound", "verdict", "step", "choices", "proof"};
    const char *end = chance(50) ? "\n" : "\r\n";
    uint64_t met = 0;
    int kind = (int)below(6), uncertain = 0;
    struct columns c;
    start_text();
    if (any_columns(&c))
        add_line(&c, names, "solver", end);
    for (size_t count = 1 + below(6); count > 0; count--) {
        int now = chance(60) ? 0 : kind;
        struct row r = now == 5 ? any_row() : now == 4 ? spent_row() : now == 3 ? bad_row() : true_row(now < 2);
        add_line(&c, r.fields, "\"1,2\"", end);
        uncertain |= r.result == ANY_RESULT;
        met |= r.result == ANY_RESULT ? 0 : STATUS(r.result);
    }
    if (!uncertain)
        return gravest(met);
    return met & STATUS(MISUSED) ? STATUS(MISUSED) : results;
}

/* Bytes that are no table, or one of very many rows, or a very long field. */
static void spoil_table(void)
{
    static const char *const starts[] = {
        "\"", "file,property\n", "file,file,bound,verdict\n", "\xef\xbb\xbf", ",,,,,,,,,,,\n", "\r", "\"\"\"", "a\"b\n",
    };
    for (size_t count = 1 + below(4); count > 0; count--)
        damage_text();
    if (chance(20)) {
        start_text();
        add("%s", ONE_OF(starts));
    }
    if (!is_huge())
        return;
    enum { MANY_ROWS = 20000 };
    if (chance(50))
        add_long((char)PICK('"', 'x', ',', '0', ' '), MAX_TEXT / 4);
    else
        for (size_t i = 0; i < MANY_ROWS; i++)
            add_bytes("\nx,0,1,CLEAN", 12);
    seen.huge_texts++;
}

/* The table of ours that is damaged now. */
static const struct rows_file *spoiled;

static void spoil_ours(void)
{
    spoiled = &rows_files[below(rows_files_count)];
    start_text();
    add_bytes(spoiled->bytes, spoiled->len);
    for (size_t count = below(5); count > 0; count--)
        damage_text();
    if (chance(5))
        cut_text(0);
    swell_text();
    save_text(spoiled->path);
}

void end_rows(void)
{
    if (spoiled)
        write_file(spoiled->path, spoiled->bytes, spoiled->len);
    spoiled = NULL;
}

void make_rows(struct line *l)
{
    if (ours_count == 0)
        read_all_ours();
    /* where no rows of ours stand beside the designs, there is no table to make */
    if (ours_count == 0) {
        add_word(l, "/nowhere/none.csv");
        is_misuse(l);
        return;
    }
    if (chance(20)) {
        make_proof();
        save_text(scratch_paths[PROOF_FILE]);
    }
    uint64_t allowed = make_table();
    if (chance(40)) {
        spoil_table();
        allowed = results;
    }
    save_text(scratch_paths[TABLE_FILE]);
    if (chance(20)) {
        spoil_ours();
        allowed = results;
    }
    narrow(l, allowed);
    int there = chance(97);
    add_word(l, there ? scratch_paths[TABLE_FILE] : "/nowhere/none.csv");
    if (!there)
        is_misuse(l);
}
