#include "drat.h"

static int put_word(struct proof *p, int32_t word)
{
    if (p->len == p->room) {
        int32_t *words = doubled(p->words, &p->room, sizeof *words);
        if (!words)
            return no_memory(&p->text);
        p->words = words;
    }
    p->words[p->len++] = word;
    return 0;
}

/* A clause of this line begins at the next word. */
static int put_start(struct proof *p)
{
    if (p->clauses == p->starts_room) {
        struct clause_start *starts = doubled(p->starts, &p->starts_room, sizeof *starts);
        if (!starts)
            return no_memory(&p->text);
        p->starts = starts;
    }
    p->starts[p->clauses++] = (struct clause_start){.word = p->len, .line = p->text.line};
    return 0;
}

/* Whether bytes stand there that DRAT text does not have. A binary proof begins with the byte a or d. */
static int looks_binary(const struct text *t)
{
    if (t->line == 1 && t->bytes[0] == 'a')
        return 1;
    for (size_t i = 0; i + 1 < t->len; i++) {
        unsigned char byte = (unsigned char)t->bytes[i];
        if ((byte < ' ' && byte != '\t') || byte > '~')
            return 1;
    }
    return 0;
}

/* Literals up to the closing 0, which ends the line. They are kept but for a deletion's. */
static int read_clause(struct proof *p, const char *at, int deletion)
{
    int32_t literal = 1;
    size_t len;
    int failed = deletion ? 0 : put_start(p);
    while (!failed && literal) {
        const char *word = next_word(&at, &len);
        if (len == 0)
            return line_fault(&p->text, "no closing 0");
        failed = read_literal(&p->text, word, len, &literal);
        if (!failed && !deletion)
            failed = put_word(p, literal);
    }
    if (failed)
        return failed;
    at += strspn(at, " \t");
    return *at ? word_fault(&p->text, "more after the closing 0", at, strlen(at)) : 0;
}

/* A comment may have any bytes but NUL. */
static int take_line(struct proof *p)
{
    static const char binary[] = "this is no text. A binary proof is not taken; cadical writes text with --no-binary";
    if (has_nul(&p->text))
        return line_fault(&p->text, binary);
    const char *at = p->text.bytes;
    size_t len;
    const char *word = next_word(&at, &len);
    if (is_word(word, len, "c"))
        return 0;
    if (looks_binary(&p->text))
        return line_fault(&p->text, binary);
    if (len == 0)
        return 0;
    int deletion = is_word(word, len, "d");
    return read_clause(p, deletion ? at : word, deletion);
}

/* The words have memory also where there are none, since a lent pointer is not null. */
int read_proof(struct job *j, const char *path, struct proof *p)
{
    int more = 1;
    *p = (struct proof){.text = {.path = path}};
    int failed = open_text(j, path, "a proof", &p->text);
    if (failed)
        return failed;
    p->words = doubled(NULL, &p->room, sizeof *p->words);
    if (!p->words)
        return no_memory(&p->text);
    while (!failed) {
        failed = next_line(&p->text, &more);
        if (failed || !more)
            break;
        failed = take_line(p);
    }
    return failed;
}

void free_proof(const struct proof *p)
{
    close_text(&p->text);
    free(p->words);
    free(p->starts);
}

uint64_t line_of(const struct proof *p, uint64_t word)
{
    size_t from = 0, to = p->clauses;
    while (to - from > 1) {
        size_t middle = from + (to - from) / 2;
        if (p->starts[middle].word <= word)
            from = middle;
        else
            to = middle;
    }
    return p->clauses ? p->starts[from].line : 0;
}
