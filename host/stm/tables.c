#define _POSIX_C_SOURCE 200809L
#include "tables.h"

#include "commands.h"
#include "files.h"
#include "text.h"

/* A design or a piece, by its name in the folder. Files of the same bytes are one: that of the place `same`. */
struct source {
    char *name;
    uint8_t *bytes;
    size_t len, same;
};

/* What is asked for. The piece is NO_PIECE where it is not read: with another property than 0, or where it is empty. */
struct question {
    size_t design, piece; /* places of sources */
    uint64_t property;
};

struct fact {
    struct question of;
    struct known known;
};

/* The words of a row, in order; those of a row of refutations are others from the fourth on. */
enum { FILE_WORD, PROPERTY_WORD, BOUND_WORD, BUDGET_WORD, VERDICT_WORD, AT_WORD, ROW_WORDS = 13 };
enum { ANSWER_WORD = 9, REFUTED_WORDS = 11 };

/* No place of a source. */
static const size_t NO_PIECE = SIZE_MAX, NO_SOURCE = SIZE_MAX - 1;

struct row {
    const char *words[ROW_WORDS];
    size_t lens[ROW_WORDS];
    size_t count; /* also of the words that are too many */
};

/* The table that is being read, and its line. */
struct reading {
    struct job *j;
    struct tables *t;
    struct text text;
    struct row row;
};

static size_t find_bytes(const struct tables *t, const uint8_t *bytes, size_t len)
{
    for (size_t i = 0; i < t->sources_len; i++)
        if (t->sources[i].len == len && memcmp(t->sources[i].bytes, bytes, len) == 0)
            return t->sources[i].same;
    return NO_SOURCE;
}

static size_t find_name(const struct tables *t, const char *name, size_t len)
{
    for (size_t i = 0; i < t->sources_len; i++)
        if (is_word(name, len, t->sources[i].name))
            return t->sources[i].same;
    return NO_SOURCE;
}

/* The place of what is known, or the number of facts where nothing is. */
static size_t find_fact(const struct tables *t, const struct question *q)
{
    size_t i = 0;
    while (i < t->facts_len && (t->facts[i].of.design != q->design || t->facts[i].of.piece != q->piece ||
                                t->facts[i].of.property != q->property))
        i++;
    return i;
}

/* Keeps what the job has read as the source of that name; *place is then its own, or that of the same bytes. */
static int keep_source(struct reading *r, const char *name, size_t len, size_t *place)
{
    struct tables *t = r->t;
    if (t->sources_len == t->sources_room) {
        struct source *sources = doubled(t->sources, &t->sources_room, sizeof *sources);
        if (!sources)
            return no_memory(&r->text);
        t->sources = sources;
    }
    struct source s = {.name = strndup(name, len), .bytes = lend(r->j->len, 1), .len = r->j->len};
    if (!s.name || !s.bytes) {
        free(s.name);
        free(s.bytes);
        return no_memory(&r->text);
    }
    memcpy(s.bytes, r->j->design, s.len);
    *place = find_bytes(t, s.bytes, s.len);
    if (*place == NO_SOURCE)
        *place = t->sources_len;
    s.same = *place;
    t->sources[t->sources_len++] = s;
    return 0;
}

/* The design or piece of that name, which is read once. */
static int find_source(struct reading *r, const char *name, size_t len, size_t *place)
{
    *place = find_name(r->t, name, len);
    if (*place != NO_SOURCE)
        return 0;
    char *path = path_in(r->t->folder, strlen(r->t->folder), name, len);
    if (!path)
        return MISUSED;
    int failed = len && is_there(path) ? read_bytes(r->j, path, r->j->design, &r->j->len)
                                       : word_fault(&r->text, "there is no such file in the folder", name, len);
    free(path);
    if (!failed)
        failed = test_digest(&r->t->digests, &r->text, name, len, r->j->design, r->j->len);
    return failed ? failed : keep_source(r, name, len, place);
}

/* What the row asks: its design, its piece and its property. */
static int read_question(struct reading *r, uint64_t property, struct question *q)
{
    const char *file = r->row.words[FILE_WORD];
    size_t len = r->row.lens[FILE_WORD], design = design_part(file, len);
    *q = (struct question){.piece = NO_PIECE, .property = property};
    int failed = find_source(r, file, design, &q->design);
    if (failed || design == len || property != INVARIANT)
        return failed;
    failed = find_source(r, file + design + 1, len - design - 1, &q->piece);
    if (!failed && r->t->sources[q->piece].len == 0)
        q->piece = NO_PIECE;
    return failed;
}

static int keep_fact(struct reading *r, const struct question *q, const struct known *known)
{
    struct tables *t = r->t;
    if (t->facts_len == t->facts_room) {
        struct fact *facts = doubled(t->facts, &t->facts_room, sizeof *facts);
        if (!facts)
            return no_memory(&r->text);
        t->facts = facts;
    }
    t->facts[t->facts_len++] = (struct fact){.of = *q, .known = *known};
    return 0;
}

/* Joins what a row tells to what is known. Both sides of the first breaking step can only come nearer; where they pass each other, two
 * rows contradict each other. */
static int take_known(struct reading *r, uint64_t property, struct known told)
{
    struct question q;
    int failed = read_question(r, property, &q);
    if (failed)
        return failed;
    size_t place = find_fact(r->t, &q);
    if (place == r->t->facts_len)
        return keep_fact(r, &q, &told);
    struct known *known = &r->t->facts[place].known;
    known->clean = told.clean > known->clean ? told.clean : known->clean;
    known->step = told.step < known->step ? told.step : known->step;
    return known->clean <= known->step ? 0 : line_fault(&r->text, "the row contradicts an earlier one of this design, piece and property");
}

/* A number from 0 to `most`. */
static int read_word(const struct reading *r, size_t word, uint64_t most, uint64_t *number)
{
    int32_t literal;
    int failed = read_literal(&r->text, r->row.words[word], r->row.lens[word], &literal);
    if (failed)
        return failed;
    *number = (uint64_t)literal;
    return literal >= 0 && *number <= most ? 0 : word_fault(&r->text, "out of range", r->row.words[word], r->row.lens[word]);
}

static int says(const struct reading *r, size_t word, const char *other)
{
    return is_word(r->row.words[word], r->row.lens[word], other);
}

/* VIOLATED s says that s is the first breaking step. SPENT and REFUSED tell nothing. */
static int take_row(struct reading *r, uint64_t property, uint64_t bound)
{
    struct known told = {.clean = bound + 1, .step = UNKNOWN_STEP};
    if (says(r, VERDICT_WORD, "SPENT") || says(r, VERDICT_WORD, "REFUSED"))
        return 0;
    if (says(r, VERDICT_WORD, verdicts[ANSWER_VIOLATED])) {
        int failed = read_word(r, AT_WORD, bound, &told.step);
        told.clean = told.step;
        return failed ? failed : take_known(r, property, told);
    }
    if (!says(r, VERDICT_WORD, verdicts[ANSWER_CLEAN]))
        return word_fault(&r->text, "no such verdict", r->row.words[VERDICT_WORD], r->row.lens[VERDICT_WORD]);
    return take_known(r, property, told);
}

/* A row that is not filled in has a - and tells nothing. */
static int take_refuted(struct reading *r, uint64_t property, uint64_t bound)
{
    if (says(r, ANSWER_WORD, "-"))
        return 0;
    if (!says(r, ANSWER_WORD, "accepted"))
        return word_fault(&r->text, "no such answer", r->row.words[ANSWER_WORD], r->row.lens[ANSWER_WORD]);
    return take_known(r, property, (struct known){.clean = bound + 1, .step = UNKNOWN_STEP});
}

static void part_words(const char *at, struct row *row)
{
    size_t len;
    const char *word = next_word(&at, &len);
    for (row->count = 0; len; row->count++) {
        if (row->count < ROW_WORDS) {
            row->words[row->count] = word;
            row->lens[row->count] = len;
        }
        word = next_word(&at, &len);
    }
}

static int take_line(struct reading *r, int refuted)
{
    uint64_t property, bound;
    if (has_nul(&r->text))
        return line_fault(&r->text, "this is no text");
    part_words(r->text.bytes, &r->row);
    if (r->row.count == 0 || r->row.words[0][0] == '#')
        return 0;
    if (r->row.count != (refuted ? REFUTED_WORDS : ROW_WORDS))
        return line_fault(&r->text, "a row with too few or too many words");
    int failed = read_word(r, PROPERTY_WORD, CONSTRAINT, &property);
    if (!failed)
        failed = read_word(r, BOUND_WORD, MAX_CHOICES, &bound);
    if (failed)
        return failed;
    return refuted ? take_refuted(r, property, bound) : take_row(r, property, bound);
}

static int read_table(struct reading *r, const char *path, int refuted)
{
    int more = 1;
    int failed = open_text(r->j, path, "a table", &r->text);
    while (!failed) {
        failed = next_line(&r->text, &more);
        if (failed || !more)
            break;
        failed = take_line(r, refuted);
    }
    close_text(&r->text);
    return failed;
}

/* *found is set where there is such a table. */
static int find_table(struct reading *r, const char *name, int refuted, int *found)
{
    char *path = path_in(r->t->folder, strlen(r->t->folder), name, strlen(name));
    if (!path)
        return MISUSED;
    int there = is_there(path), failed = there ? read_table(r, path, refuted) : 0;
    *found |= there;
    free(path);
    return failed;
}

int read_tables(struct job *j, const char *folder, struct tables *t)
{
    static const char *const names[] = {"rows.txt", "rows-pieces.txt", "rows-deep.txt", "rows-published.txt", "rows-owners.txt",
                                        "rows-refuted.txt"};
    enum { COUNT = sizeof names / sizeof names[0] };
    *t = (struct tables){.folder = folder};
    struct reading r = {.j = j, .t = t};
    int found = 0, failed = read_digests(j, folder, &t->digests);
    for (size_t i = 0; i < COUNT && !failed; i++)
        failed = find_table(&r, names[i], i == COUNT - 1, &found);
    if (!failed && !found)
        failed = misuse("there are no reference rows in %s; --designs FOLDER, or STM_DESIGNS, says where they are", folder);
    return failed;
}

void free_tables(const struct tables *t)
{
    for (size_t i = 0; i < t->sources_len; i++) {
        free(t->sources[i].name);
        free(t->sources[i].bytes);
    }
    free(t->sources);
    free(t->facts);
    free_digests(&t->digests);
}

struct known known_of(const struct tables *t, const struct job *j)
{
    struct question q = {.design = find_bytes(t, j->design, j->len), .piece = NO_PIECE, .property = j->property};
    if (j->property == INVARIANT && j->piece_len)
        q.piece = find_bytes(t, j->piece, j->piece_len);
    size_t place = find_fact(t, &q);
    return place < t->facts_len ? t->facts[place].known : (struct known){.clean = 0, .step = UNKNOWN_STEP};
}
