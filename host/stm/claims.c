#define _POSIX_C_SOURCE 200809L
#include "claims.h"

#include "files.h"
#include "formula.h"

#include <strings.h>

static const char *const names[COLUMNS] = {"file", "property", "bound", "verdict", "step", "choices", "proof"};

/* The columns from this one on may be left out. */
enum { NEEDED = STEP_COLUMN };

/* The refusal of a formula with too many variables. A claim is about runs, so it may stand where there is no formula. */
enum { TOO_MANY_VARIABLES = 19 };

/* The column of that name, or COLUMNS. */
static size_t column_named(const char *name)
{
    size_t i = 0;
    while (i < COLUMNS && strcasecmp(name, names[i]) != 0)
        i++;
    return i;
}

static int names_column(const struct claims *c, const struct record *r, size_t column)
{
    for (size_t i = 0; i < r->count; i++)
        if (column_named(field_of(&c->csv, r, i)) == column)
            return 1;
    return 0;
}

/* No row is one, since its verdict has no such name. */
static int is_header(const struct claims *c, const struct record *r)
{
    return names_column(c, r, FILE_COLUMN) && names_column(c, r, VERDICT_COLUMN);
}

/* A column of another name may be one that is misspelled. */
static void not_read(const char *name)
{
    enum { SHOWN = 64 };
    char shown[SHOWN + 1];
    snprintf(shown, sizeof shown, "%s", name);
    tell("stm: a column that is not read: ");
    print_shown(message_file(), shown);
    tell("\n");
}

static int place_columns(struct claims *c, const struct record *header)
{
    for (size_t i = 0; i < header->count; i++) {
        size_t column = column_named(field_of(&c->csv, header, i));
        if (column == COLUMNS) {
            not_read(field_of(&c->csv, header, i));
            continue;
        }
        if (c->places[column] != SIZE_MAX)
            return misuse("%s, line %" PRIu64 ": the column %s stands twice", c->csv.text.path, header->line, names[column]);
        c->places[column] = i;
    }
    return 0;
}

static int all_needed(const struct claims *c, const struct record *header)
{
    for (size_t i = 0; i < NEEDED; i++)
        if (c->places[i] == SIZE_MAX)
            return misuse("%s, line %" PRIu64 ": there is no column %s", c->csv.text.path, header->line, names[i]);
    return 0;
}

/* Without a header the columns stand in their own order. */
static int read_header(struct claims *c)
{
    const struct record *header = &c->csv.records[0];
    int named = is_header(c, header);
    for (size_t i = 0; i < COLUMNS; i++)
        c->places[i] = named ? SIZE_MAX : i;
    c->first = named ? 1 : 0;
    c->width = named ? header->count : COLUMNS;
    int failed = named ? place_columns(c, header) : 0;
    return !failed && named ? all_needed(c, header) : failed;
}

int read_claims(struct job *j, const char *path, const char *designs, struct claims *c)
{
    const char *slash = strrchr(path, '/');
    *c = (struct claims){.folder = slash ? path : ".", .folder_len = slash ? (size_t)(slash - path) : 1, .designs = designs};
    int failed = read_csv(j, path, &c->csv);
    if (!failed && c->csv.len)
        failed = read_header(c);
    if (!failed && c->csv.len == c->first)
        failed = misuse("there are no rows in %s", path);
    return failed;
}

void free_claims(const struct claims *c)
{
    free_csv(&c->csv);
}

/* A fault of a field, of which a long one is shown in part. */
static int field_fault(const char *message, const char *text)
{
    enum { SHOWN = 64 };
    return misuse("%s: %.*s%s", message, SHOWN, text, strlen(text) > SHOWN ? ".." : "");
}

static int take_texts(const struct claims *c, const struct record *r, struct claim *claim)
{
    for (size_t i = 0; i < COLUMNS; i++)
        claim->texts[i] = field_of(&c->csv, r, c->places[i]);
    if (r->count <= c->width)
        return 0;
    return c->first ? misuse("more fields than the header has") : misuse("more than %d fields", COLUMNS);
}

static int none_missing(const struct claim *claim)
{
    for (size_t i = 0; i < NEEDED; i++)
        if (!*claim->texts[i])
            return misuse("there is no %s", names[i]);
    return 0;
}

static int read_verdict(struct claim *claim)
{
    const char *text = claim->texts[VERDICT_COLUMN];
    while (claim->verdict < ANSWER_VERDICTS && strcasecmp(text, verdicts[claim->verdict]) != 0)
        claim->verdict++;
    claim->has_verdict = claim->verdict < ANSWER_VERDICTS;
    return claim->has_verdict ? 0 : field_fault("no such verdict", text);
}

/* The columns that every row has. */
static int read_needed(struct job *row, struct claim *claim)
{
    int failed = none_missing(claim);
    if (!failed)
        failed = read_property(row, claim->texts[PROPERTY_COLUMN]);
    claim->has_property = !failed;
    if (!failed)
        failed = read_bound(row, claim->texts[BOUND_COLUMN]);
    claim->has_bound = !failed;
    return failed ? failed : read_verdict(claim);
}

/* Whether something stands in a column: neither nothing nor a dash. */
static int is_given(const struct claim *claim, enum column column)
{
    const char *text = claim->texts[column];
    return *text && strcmp(text, "-") != 0;
}

static int read_step(const struct job *row, struct claim *claim)
{
    if (!is_given(claim, STEP_COLUMN))
        return 0;
    int failed = read_number(claim->texts[STEP_COLUMN], UINT64_MAX, &claim->step);
    claim->has_step = !failed;
    if (!failed && claim->step > row->bound)
        failed = misuse("the step is over the bound");
    return failed;
}

/* A run that breaks at step 0 has no choices, and a dash says so. */
static int read_witness(struct job *row, struct claim *claim)
{
    int empty = claim->has_step && claim->step == 0 && strcmp(claim->texts[CHOICES_COLUMN], "-") == 0;
    claim->has_choices = empty || is_given(claim, CHOICES_COLUMN);
    return claim->has_choices ? read_choices(claim->texts[CHOICES_COLUMN], row) : 0;
}

/* The columns that go with the verdict. */
static int read_evidence(struct job *row, struct claim *claim)
{
    claim->has_proof = is_given(claim, PROOF_COLUMN);
    if (claim->verdict == ANSWER_CLEAN && is_given(claim, STEP_COLUMN))
        return misuse("a CLEAN row has no step");
    if (claim->verdict == ANSWER_CLEAN && is_given(claim, CHOICES_COLUMN))
        return misuse("a CLEAN row has no choices");
    if (claim->verdict == ANSWER_VIOLATED && claim->has_proof)
        return misuse("a VIOLATED row has no proof");
    int failed = read_step(row, claim);
    return failed ? failed : read_witness(row, claim);
}

static void no_source(const struct claims *c, const char *name, size_t len)
{
    int shown = len < PATH_SHOWN ? (int)len : PATH_SHOWN;
    misuse("%.*s%s is neither in %.*s nor in %s", shown, name, len > PATH_SHOWN ? ".." : "", (int)c->folder_len, c->folder, c->designs);
}

/* Reads a design or a piece that stands beside the table or in the designs folder. */
static int read_source(const struct claims *c, struct job *row, const char *name, size_t len, uint8_t bytes[MAX_READ], size_t *read)
{
    int failed = MISUSED;
    char *own = path_in(c->folder, c->folder_len, name, len), *ours = path_in(c->designs, strlen(c->designs), name, len);
    const char *path = !own || !ours ? NULL : is_there(own) ? own : is_there(ours) ? ours : NULL;
    if (path)
        failed = want_file(path);
    else if (own && ours)
        no_source(c, name, len);
    if (!failed)
        failed = read_bytes(row, path, bytes, read);
    free(own);
    free(ours);
    return failed;
}

static int read_sources(const struct claims *c, struct job *row, const char *file)
{
    size_t len = strlen(file), design = design_part(file, len);
    int failed = read_source(c, row, file, design, row->design, &row->len);
    if (!failed && design < len)
        failed = read_source(c, row, file + design + 1, len - design - 1, row->piece, &row->piece_len);
    return failed;
}

static int test_question(const struct job *row)
{
    uint64_t sizes[SIZE_LEN];
    uint64_t code = sizes_for(row, row->bound, sizes);
    return code && STM_NUMBER(code) != TOO_MANY_VARIABLES ? refuse(row, code) : 0;
}

int read_claim(const struct claims *c, size_t record, struct job *row, struct claim *claim)
{
    const struct record *r = &c->csv.records[record];
    *claim = (struct claim){.line = r->line};
    int failed = take_texts(c, r, claim);
    if (!failed)
        failed = read_needed(row, claim);
    if (!failed && claim->verdict != ANSWER_SPENT)
        failed = read_evidence(row, claim);
    if (!failed)
        failed = read_sources(c, row, claim->texts[FILE_COLUMN]);
    return failed ? failed : test_question(row);
}

char *proof_path(const struct claims *c, const struct claim *claim)
{
    const char *proof = claim->texts[PROOF_COLUMN];
    return path_in(c->folder, c->folder_len, proof, strlen(proof));
}
