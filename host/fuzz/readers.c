/* The readers of texts, called themselves. */
#include "lines.h"

#include "../stm/drat.h"
#include "../stm/model.h"
#include "../stm/csv.h"
#include "operations.h"
#include "random.h"
#include "report.h"
#include "scratch.h"
#include "texts.h"

static void count_text(const char *reader, int status)
{
    require(status == 0 || status == MISUSED, reader, "another answer", (uint64_t)status);
    count_call(reader, status != 0);
    seen.texts_read += status == 0;
    seen.texts_refused += status != 0;
}

/* Every clause begins after a closing 0, in a later line than the clause before it, and each of its words is said to be of that
 * line. */
static void check_proof(const struct proof *p)
{
    size_t clause = 0;
    require(p->len == 0 || p->words[p->len - 1] == 0, "read_proof", "no closing 0", p->len);
    for (size_t i = 0; i < p->len; i++) {
        int begins = i == 0 || p->words[i - 1] == 0;
        clause += begins != 0;
        require(clause <= p->clauses && (!begins || p->starts[clause - 1].word == i), "read_proof", "no clause begins there", i);
        uint64_t line = p->starts[clause - 1].line;
        require(line <= p->text.line && (clause < 2 || line > p->starts[clause - 2].line), "read_proof", "no such line", line);
        if (i < 100 || begins)
            require(line_of(p, i) == line, "read_proof", "another line", i);
    }
    require(clause == p->clauses, "read_proof", "another number of clauses", p->clauses);
}

static void feed_proof(struct job *j)
{
    struct proof p;
    make_proof();
    swell_text();
    save_text(scratch_paths[PROOF_FILE]);
    int status = read_proof(j, scratch_paths[PROOF_FILE], &p);
    count_text("read_proof", status);
    if (status == 0)
        check_proof(&p);
    free_proof(&p);
}

/* A model of a few variables, each once, with any words between the literals; a part of them damaged. Answers whether it is right. */
static int make_small_model(size_t n)
{
    static const char *const between[] = {" ", " ", "\t ", "\nv ", "\r\nv ", "\nc 1 2\nv ", "\ncv 1\n\n v\t"};
    size_t first = n ? below(n) : 0;
    int right = chance(50);
    start_text();
    add("%s", chance(50) ? "s SATISFIABLE\nv " : "v ");
    if (!right && chance(30))
        add("%zu", chance(50) ? n + 1 : 1 + below(n + 2));
    for (size_t k = 0; k < n; k++)
        add("%s%s%zu", ONE_OF(between), chance(50) ? "-" : "", (first + k) % n + 1);
    add("%s0%s", ONE_OF(between), chance(80) ? "\n" : "");
    for (size_t count = right ? 0 : below(4); count > 0; count--)
        damage_text();
    return right && !swell_text();
}

/* The model from standard input, which can be read once. */
static int read_input(struct job *j, size_t n, uint8_t *values)
{
    give_input(scratch_paths[MODEL_FILE]);
    int status = read_model(j, "-", n, values);
    struct proof p;
    require(read_proof(j, "-", &p) == MISUSED, "read_proof", "takes standard input a second time", n);
    free_proof(&p);
    give_input("/dev/null");
    return status;
}

static void feed_model(struct job *j)
{
    size_t n = below(13);
    uint8_t *values = malloc(n ? n : 1);
    if (!values)
        fault("no memory");
    int right = make_small_model(n);
    save_text(scratch_paths[MODEL_FILE]);
    int status = chance(10) ? read_input(j, n, values) : read_model(j, scratch_paths[MODEL_FILE], n, values);
    count_text("read_model", status);
    require(!right || status == 0, "read_model", "does not take a model", n);
    for (size_t i = 0; i < n && status == 0; i++)
        require(values[i] <= 1, "read_model", "leaves a variable without a value", i + 1);
    free(values);
}

/* A table's fields, which are to be read as they were written. */
enum { MAX_RECORDS = 6, MAX_COLUMNS = 5, MAX_FIELD = 12 };
struct grid {
    size_t records, columns;
    char fields[MAX_RECORDS][MAX_COLUMNS][MAX_FIELD];
};

/* The first field of a record is not empty, so that no record is a blank line. */
static void make_grid(struct grid *g)
{
    static const char letters[] = "ab0,,\"\"\n\r-\xff";
    const char *end = chance(50) ? "\n" : "\r\n";
    *g = (struct grid){.records = below(MAX_RECORDS + 1), .columns = 1 + below(MAX_COLUMNS)};
    start_text();
    for (size_t r = 0; r < g->records; r++) {
        for (size_t c = 0; c < g->columns; c++) {
            char *field = g->fields[r][c];
            for (size_t i = 0, len = (c == 0) + below(MAX_FIELD - 1); i < len; i++)
                field[i] = letters[below(sizeof letters - 1)];
            add("%s", c ? "," : "");
            add_field(field);
        }
        add("%s%s", end, chance(10) ? end : "");
    }
}

/* The same fields, in lines that go up. */
static void check_grid(const struct csv *c, const struct grid *g)
{
    require(c->len == g->records, "read_csv", "another number of records", c->len);
    for (size_t r = 0; r < c->len; r++) {
        const struct record *record = &c->records[r];
        require(record->count == g->columns, "read_csv", "another number of fields", record->count);
        require(r == 0 || record->line > c->records[r - 1].line, "read_csv", "no such line", record->line);
        for (size_t f = 0; f < g->columns; f++)
            require(strcmp(field_of(c, record, f), g->fields[r][f]) == 0, "read_csv", "another field", f);
    }
}

/* Reads every field that there is, and one that there is not. */
static void read_fields(const struct csv *c)
{
    for (size_t r = 0; r < c->len; r++) {
        for (size_t f = 0; f < c->records[r].count; f++)
            require(strlen(field_of(c, &c->records[r], f)) < MAX_TEXT, "read_csv", "too long a field", f);
        require(*field_of(c, &c->records[r], c->records[r].count) == '\0', "read_csv", "a field that is not there", r);
    }
}

static void feed_csv(struct job *j)
{
    struct grid g;
    struct csv c;
    int right = chance(50);
    make_grid(&g);
    for (size_t count = right ? 0 : 1 + below(4); count > 0; count--)
        damage_text();
    right = right && !swell_text();
    save_text(scratch_paths[TABLE_FILE]);
    int status = read_csv(j, scratch_paths[TABLE_FILE], &c);
    count_text("read_csv", status);
    require(!right || status == 0, "read_csv", "does not take a table", g.records);
    if (status == 0)
        read_fields(&c);
    if (right)
        check_grid(&c, &g);
    free_csv(&c);
}

void call_readers(void)
{
    static void (*const feeds[])(struct job *j) = {feed_proof, feed_model, feed_csv};
    static struct job j;
    j = (struct job){.command = "fuzz"};
    ONE_OF(feeds)(&j);
}
