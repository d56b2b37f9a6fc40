#include "text.h"

int line_fault(const struct text *t, const char *message)
{
    return misuse("%s, line %" PRIu64 ": %s", t->path, t->line, message);
}

/* Bytes that a terminal would act on are shown as question marks. */
int word_fault(const struct text *t, const char *message, const char *word, size_t len)
{
    enum { SHOWN = 32 };
    char shown[SHOWN + 1] = "";
    for (size_t i = 0; i < SHOWN && i < len; i++)
        shown[i] = word[i] < ' ' || word[i] > '~' ? '?' : word[i];
    return misuse("%s, line %" PRIu64 ": %s: %s%s", t->path, t->line, message, shown, len > SHOWN ? ".." : "");
}

int no_memory(const struct text *t)
{
    return misuse("%s, line %" PRIu64 ": not enough memory for %s of this size", t->path, t->line, t->what);
}

int open_text(struct job *j, const char *path, const char *what, struct text *t)
{
    *t = (struct text){.path = path, .what = what};
    t->file = open_input(j, path);
    return t->file ? 0 : MISUSED;
}

void close_text(const struct text *t)
{
    if (t->file)
        close_input(t->file);
    free(t->bytes);
}

int put_char(struct text *t, int c)
{
    if (t->len == t->room) {
        char *bytes = doubled(t->bytes, &t->room, sizeof *bytes);
        if (!bytes)
            return no_memory(t);
        t->bytes = bytes;
    }
    t->bytes[t->len++] = (char)c;
    return 0;
}

int next_line(struct text *t, int *more)
{
    int c = 0, failed = 0;
    t->line++;
    t->len = 0;
    while (!failed && (c = getc(t->file)) != EOF && c != '\n')
        failed = put_char(t, c);
    if (!failed && ferror(t->file))
        failed = misuse_file("cannot read", t->path);
    if (failed)
        return failed;
    *more = c != EOF || t->len > 0;
    if (t->len > 0 && t->bytes[t->len - 1] == '\r')
        t->len--;
    return put_char(t, '\0');
}

int has_nul(const struct text *t)
{
    return strlen(t->bytes) + 1 < t->len;
}

const char *next_word(const char **at, size_t *len)
{
    const char *word = *at + strspn(*at, " \t");
    *len = strcspn(word, " \t");
    *at = word + *len;
    return word;
}

int is_word(const char *word, size_t len, const char *other)
{
    return strlen(other) == len && memcmp(word, other, len) == 0;
}

int read_literal(const struct text *t, const char *word, size_t len, int32_t *literal)
{
    size_t sign = word[0] == '-';
    int64_t most = INT32_MAX + (int64_t)sign, number = 0;
    if (len == sign || strspn(word + sign, "0123456789") < len - sign)
        return word_fault(t, "not a number", word, len);
    for (size_t i = sign; i < len; i++) {
        number = 10 * number + (word[i] - '0');
        if (number > most)
            return word_fault(t, "not a number of 32 bits", word, len);
    }
    if (sign && number == 0)
        return word_fault(t, "not a number", word, len);
    *literal = (int32_t)(sign ? -number : number);
    return 0;
}

/* The bytes of a control character that stands here: one in ASCII, two in UTF-8; else 0. */
static size_t control_bytes(const char *at)
{
    unsigned char first = (unsigned char)at[0], second = (unsigned char)at[1];
    if (first < ' ' || first == 0x7f)
        return 1;
    return first == 0xc2 && second >= 0x80 && second <= 0x9f ? 2 : 0;
}

void print_shown(FILE *out, const char *text)
{
    while (*text) {
        size_t control = control_bytes(text);
        putc(control ? '?' : *text, out);
        text += control ? control : 1;
    }
}
