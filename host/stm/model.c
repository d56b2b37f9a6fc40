#include "model.h"

/* A value that is not read yet. */
enum { UNSET = 2 };

struct model {
    struct text text;
    uint64_t n;
    uint8_t *values;
    int bare; /* lines of literals have no v: minisat's form */
    int closed;
    int begun; /* whether a literal was read */
};

static int take_literal(struct model *m, const char *word, size_t len)
{
    int32_t literal;
    int failed = read_literal(&m->text, word, len, &literal);
    if (failed)
        return failed;
    m->begun = 1;
    if (m->closed)
        return word_fault(&m->text, "more after the closing 0", word, len);
    if (literal == 0) {
        m->closed = 1;
        return 0;
    }
    uint64_t variable = literal < 0 ? (uint64_t) - (int64_t)literal : (uint64_t)literal;
    if (variable > m->n)
        return word_fault(&m->text, "a literal of another formula, which has more variables", word, len);
    if (m->values[variable - 1] != UNSET)
        return word_fault(&m->text, "a variable that has a value already", word, len);
    m->values[variable - 1] = literal > 0;
    return 0;
}

static int take_literals(struct model *m, const char *at)
{
    for (;;) {
        size_t len;
        const char *word = next_word(&at, &len);
        int failed = len ? take_literal(m, word, len) : 0;
        if (failed || len == 0)
            return failed;
    }
}

/* What a solver says in the place of a model. */
static int take_answer(struct model *m, const char *word, size_t len)
{
    if (is_word(word, len, "SATISFIABLE") || is_word(word, len, "SAT"))
        return 0;
    return word_fault(&m->text, "the solver's answer, so there is no model", word, len);
}

static int take_line(struct model *m)
{
    const char *at = m->text.bytes;
    size_t len;
    const char *word = next_word(&at, &len);
    if (has_nul(&m->text))
        return line_fault(&m->text, "this is no text");
    if (len == 0 || *word == 'c')
        return 0;
    if (is_word(word, len, "v"))
        return take_literals(m, at);
    if (is_word(word, len, "s")) {
        word = next_word(&at, &len);
        return take_answer(m, word, len);
    }
    if (is_word(word, len, "SAT") || is_word(word, len, "UNSAT") || is_word(word, len, "INDET")) {
        m->bare = 1;
        return take_answer(m, word, len);
    }
    return m->bare ? take_literals(m, word) : word_fault(&m->text, "no line of a model", word, len);
}

static int all_set(const struct model *m)
{
    if (!m->begun)
        return misuse("%s: there is no model in it", m->text.path);
    if (!m->closed)
        return misuse("%s: the model has no closing 0", m->text.path);
    for (uint64_t v = 0; v < m->n; v++)
        if (m->values[v] == UNSET)
            return misuse("%s: variable %" PRIu64 " of %" PRIu64 " has no value", m->text.path, v + 1, m->n);
    return 0;
}

int read_model(struct job *j, const char *path, uint64_t n, uint8_t *values)
{
    struct model m = {.n = n, .values = values};
    int more = 1;
    int failed = open_text(j, path, "a model", &m.text);
    memset(values, UNSET, (size_t)n);
    while (!failed) {
        failed = next_line(&m.text, &more);
        if (failed || !more)
            break;
        failed = take_line(&m);
    }
    if (!failed)
        failed = all_set(&m);
    close_text(&m.text);
    return failed;
}
