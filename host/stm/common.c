#include "common.h"

#include "json.h"

#include <errno.h>
#include <stdarg.h>

FILE *messages;

FILE *message_file(void)
{
    return messages ? messages : stderr;
}

void tell(const char *format, ...)
{
    va_list arguments;
    va_start(arguments, format);
    vfprintf(message_file(), format, arguments);
    va_end(arguments);
}

int misuse(const char *format, ...)
{
    va_list arguments;
    tell("stm: ");
    va_start(arguments, format);
    vfprintf(message_file(), format, arguments);
    va_end(arguments);
    tell("\n");
    return MISUSED;
}

int misuse_file(const char *message, const char *path)
{
    return misuse("%s %s: %s", message, path, strerror(errno));
}

/* Refusal 8 at place 0: no item with an expression stands there in a design, so it is the piece's. */
enum { BAD_PIECE = 8 };

const char *meaning(uint64_t code)
{
    static const char *const text[] = {
        "",
        "the file's length is under 16 (in version 2 under 18) or over 16,384",
        "unknown version",
        "a count in the trailer is out of range",
        "a section or the constraint has a wrong offset, or an item passes the end of the items",
        "bad variable",
        "bad matrix",
        "bad cell fields or order",
        "bad expression",
        "bad action",
        "no mover, or more than 64",
        "the state does not fit the design",
        "a choice is no mover's number",
        "the design has no such property",
        "the bound, or the number of choices, is over 100",
        "no such part",
        "a buffer is too short",
        "the clause list is malformed",
        "a frame has no single flag set",
        "the formula has more than 2,147,483,647 variables",
        "there is no owner, or there are more than four",
    };
    unsigned number = STM_NUMBER(code);
    if (code == BAD_PIECE)
        return "the piece is no Boolean expression over the design, or is over 16,384 bytes";
    return number < sizeof text / sizeof text[0] ? text[number] : "unknown refusal";
}

const char *piece_read(const struct job *j)
{
    return j->piece_len > 0 && j->property == INVARIANT ? j->piece_path : NULL;
}

void print_refusal(FILE *out, uint64_t code)
{
    fprintf(out, "refused %u at %" PRIu64 ": ", STM_NUMBER(code), STM_PLACE(code));
}

int refuse(const struct job *j, uint64_t code)
{
    print_refusal(message_file(), code);
    tell("%s\n", meaning(code));
    if (j->json) {
        json_open(stdout, "refused");
        json_text(stdout, "command", j->command);
        json_number(stdout, "number", STM_NUMBER(code));
        json_number(stdout, "place", STM_PLACE(code));
        json_text(stdout, "meaning", meaning(code));
        json_close(stdout);
    }
    return REFUSED;
}

static int is_input(const char *path)
{
    return strcmp(path, "-") == 0;
}

int test_input(const struct job *j, const char *path)
{
    return j->input_taken && is_input(path) ? misuse("standard input is named twice") : 0;
}

FILE *open_input(struct job *j, const char *path)
{
    if (test_input(j, path))
        return NULL;
    FILE *f = is_input(path) ? stdin : fopen(path, "rb");
    j->input_taken |= is_input(path);
    if (!f)
        misuse_file("cannot open", path);
    return f;
}

void close_input(FILE *f)
{
    if (f != stdin)
        fclose(f);
}

int read_bytes(struct job *j, const char *path, uint8_t bytes[MAX_READ], size_t *len)
{
    FILE *f = open_input(j, path);
    if (!f)
        return MISUSED;
    *len = fread(bytes, 1, MAX_READ, f);
    int failed = ferror(f) ? misuse_file("cannot read", path) : 0;
    close_input(f);
    return failed;
}

/* A number's text, of which a long one is shown in part. */
static int bad_number(const char *what, const char *text, size_t len)
{
    enum { SHOWN = 64 };
    return misuse("%s: %.*s%s", what, (int)(len < SHOWN ? len : SHOWN), text, len > SHOWN ? ".." : "");
}

static int read_digits(const char *text, size_t len, uint64_t most, uint64_t *number)
{
    uint64_t n = 0;
    for (size_t i = 0; i < len; i++) {
        if (text[i] < '0' || text[i] > '9')
            return bad_number("not a number", text, len);
        unsigned digit = (unsigned)(text[i] - '0');
        if (n > (most - digit) / 10) {
            char over[32];
            snprintf(over, sizeof over, "over %" PRIu64, most);
            return bad_number(over, text, len);
        }
        n = 10 * n + digit;
    }
    *number = n;
    return len ? 0 : misuse("not a number: (empty)");
}

int read_number(const char *text, uint64_t most, uint64_t *number)
{
    return read_digits(text, strlen(text), most, number);
}

int read_choices(const char *text, struct job *j)
{
    j->choices_len = 0;
    if (strcmp(text, "-") == 0)
        return 0;
    for (const char *part = text; part;) {
        size_t len = strcspn(part, ","), at = j->choices_len < MAX_CHOICES ? j->choices_len : MAX_CHOICES;
        uint64_t choice;
        int failed = read_digits(part, len, UINT8_MAX, &choice);
        if (failed)
            return failed;
        j->choices[at] = (uint8_t)choice;
        j->choices_len = at + 1;
        part = part[len] ? part + len + 1 : NULL;
    }
    return 0;
}

void print_choices(FILE *out, const uint8_t *choices, size_t len)
{
    for (size_t i = 0; i < len; i++)
        fprintf(out, "%s%u", i ? "," : "", choices[i]);
    if (len == 0)
        fprintf(out, "-");
}

void *lend(uint64_t count, size_t element)
{
    if (count >= SIZE_MAX / element)
        return NULL;
    return malloc((size_t)(count + 1) * element);
}

void *doubled(void *old, size_t *room, size_t element)
{
    enum { FIRST_ROOM = 1024 };
    if (*room > SIZE_MAX / 2 / element)
        return NULL;
    size_t more = *room ? 2 * *room : FIRST_ROOM;
    void *array = realloc(old, more * element);
    if (array)
        *room = more;
    return array;
}

int too_large(void)
{
    return misuse("not enough memory for a formula of this size");
}

int take(struct memory *m, uint64_t words, uint64_t n)
{
    m->clauses = lend(words, sizeof *m->clauses);
    m->values = lend(n, sizeof *m->values);
    m->trail = lend(n, sizeof *m->trail);
    return m->clauses && m->values && m->trail ? 0 : too_large();
}

void give_back(const struct memory *m)
{
    free(m->clauses);
    free(m->values);
    free(m->trail);
}
