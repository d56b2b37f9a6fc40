#include "csv.h"

/* Where reading stands in a field. AT_QUOTE is behind a quote that closes the field or is the first of two. */
enum { AT_START, BARE, QUOTED, AT_QUOTE, CLOSED };

static int begin_field(struct csv *c)
{
    if (c->fields_len == c->fields_room) {
        size_t *fields = doubled(c->fields, &c->fields_room, sizeof *fields);
        if (!fields)
            return no_memory(&c->text);
        c->fields = fields;
    }
    c->fields[c->fields_len++] = c->text.len;
    c->state = AT_START;
    return 0;
}

static int is_blank(char byte)
{
    return byte == ' ' || byte == '\t';
}

/* Blanks before the field are left out when it is asked for. */
static int end_field(struct csv *c)
{
    struct text *t = &c->text;
    while (t->len > c->fields[c->fields_len - 1] && is_blank(t->bytes[t->len - 1]))
        t->len--;
    return put_char(t, '\0');
}

/* A record of one empty field is a blank line, which is none. */
static int end_record(struct csv *c)
{
    c->now.count = c->fields_len - c->now.first;
    if (c->now.count == 1 && !*field_of(c, &c->now, 0)) {
        c->text.len = c->fields[c->now.first];
        c->fields_len = c->now.first;
        return 0;
    }
    if (c->len == c->room) {
        struct record *records = doubled(c->records, &c->room, sizeof *records);
        if (!records)
            return no_memory(&c->text);
        c->records = records;
    }
    c->records[c->len++] = c->now;
    return 0;
}

static int next_field(struct csv *c)
{
    int failed = end_field(c);
    return failed ? failed : begin_field(c);
}

static int next_record(struct csv *c)
{
    int failed = end_field(c);
    if (!failed)
        failed = end_record(c);
    c->text.line++;
    c->now = (struct record){.line = c->text.line, .first = c->fields_len};
    return failed ? failed : begin_field(c);
}

static int text_behind(const struct csv *c)
{
    return line_fault(&c->text, "text after a closing quote");
}

static int take_quote(struct csv *c)
{
    switch (c->state) {
    case AT_START:
        c->text.len = c->fields[c->fields_len - 1];
        c->opened = c->text.line;
        c->state = QUOTED;
        return 0;
    case AT_QUOTE:
        c->state = QUOTED;
        return put_char(&c->text, '"');
    case BARE:
        return line_fault(&c->text, "a quote inside a field that is not in quotes");
    default:
        return text_behind(c);
    }
}

static int take_quoted(struct csv *c, int byte)
{
    if (byte == '"') {
        c->state = AT_QUOTE;
        return 0;
    }
    c->text.line += byte == '\n';
    return put_char(&c->text, byte);
}

/* A byte order mark stands before the first field and is none of its bytes. */
static void leave_out_mark(struct csv *c)
{
    static const char mark[] = {'\xef', '\xbb', '\xbf'};
    if (c->has_mark || c->text.line != 1 || c->fields_len != 1)
        return;
    if (c->text.len == sizeof mark && !memcmp(c->text.bytes, mark, sizeof mark)) {
        c->has_mark = 1;
        c->text.len = 0;
        c->state = AT_START;
    }
}

static int take_plain(struct csv *c, int byte)
{
    int closed = c->state == AT_QUOTE || c->state == CLOSED, blank = is_blank((char)byte);
    if (closed) {
        c->state = CLOSED;
        return blank ? 0 : text_behind(c);
    }
    if (!blank)
        c->state = BARE;
    int failed = put_char(&c->text, byte);
    if (!failed)
        leave_out_mark(c);
    return failed;
}

static int take_byte(struct csv *c, int byte)
{
    if (byte == '\0')
        return line_fault(&c->text, "this is no text");
    if (c->state == QUOTED)
        return take_quoted(c, byte);
    switch (byte) {
    case '"':
        return take_quote(c);
    case ',':
        return next_field(c);
    case '\n':
        return next_record(c);
    case '\r':
        return line_fault(&c->text, "a carriage return without a line feed");
    default:
        return take_plain(c, byte);
    }
}

/* Outside quotes a carriage return before a line feed, or at the end of the file, is a part of the line's end. */
static int next_byte(const struct csv *c)
{
    FILE *f = c->text.file;
    int byte = getc(f);
    if (byte != '\r' || c->state == QUOTED)
        return byte;
    int next = getc(f);
    if (next == '\n' || next == EOF)
        return next;
    ungetc(next, f);
    return byte;
}

static int end_table(struct csv *c)
{
    if (ferror(c->text.file))
        return misuse_file("cannot read", c->text.path);
    if (c->state == QUOTED) {
        c->text.line = c->opened;
        return line_fault(&c->text, "a quote that is not closed");
    }
    int failed = end_field(c);
    return failed ? failed : end_record(c);
}

int read_csv(struct job *j, const char *path, struct csv *c)
{
    int byte;
    *c = (struct csv){.now = {.line = 1}};
    int failed = open_text(j, path, "a table", &c->text);
    if (failed)
        return failed;
    c->text.line = 1;
    failed = begin_field(c);
    while (!failed && (byte = next_byte(c)) != EOF)
        failed = take_byte(c, byte);
    return failed ? failed : end_table(c);
}

void free_csv(const struct csv *c)
{
    close_text(&c->text);
    free(c->fields);
    free(c->records);
}

const char *field_of(const struct csv *c, const struct record *r, size_t field)
{
    if (field >= r->count)
        return "";
    const char *text = c->text.bytes + c->fields[r->first + field];
    return text + strspn(text, " \t");
}
