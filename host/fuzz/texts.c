#include "texts.h"

#include "random.h"
#include "report.h"
#include "scratch.h"

#include <stdarg.h>
#include <stdio.h>
#include <string.h>

static char text[MAX_TEXT];
static size_t len_now;

void start_text(void)
{
    len_now = 0;
}

size_t text_len(void)
{
    return len_now;
}

void cut_text(size_t len)
{
    len_now = len < len_now ? len : len_now;
}

void save_text(const char *path)
{
    write_file(path, text, len_now);
}

void add_bytes(const char *bytes, size_t len)
{
    size_t room = MAX_TEXT - len_now;
    len = len < room ? len : room;
    memcpy(text + len_now, bytes, len);
    len_now += len;
}

void add(const char *format, ...)
{
    char bytes[512];
    va_list arguments;
    va_start(arguments, format);
    int len = vsnprintf(bytes, sizeof bytes, format, arguments);
    va_end(arguments);
    add_bytes(bytes, (size_t)len < sizeof bytes ? (size_t)len : sizeof bytes - 1);
}

void add_field(const char *field)
{
    if (!strpbrk(field, ",\"\r\n") && chance(80)) {
        add("%s", field);
        return;
    }
    add("\"");
    for (; *field; field++) {
        if (*field == '"')
            add("\"");
        add_bytes(field, 1);
    }
    add("\"");
}

void add_long(char byte, size_t len)
{
    size_t room = MAX_TEXT - len_now;
    len = len < room ? len : room;
    memset(text + len_now, byte, len);
    len_now += len;
}

/* Puts bytes in before `at`. */
static void insert(size_t at, const char *bytes, size_t len)
{
    if (len > MAX_TEXT - len_now)
        return;
    memmove(text + at + len, text + at, len_now - at);
    memcpy(text + at, bytes, len);
    len_now += len;
}

/* What the readers of texts look at. */
static char likely_char(void)
{
    static const char likely[] = "\0\n\r\",+- \t0123456789cvsdpxS\x7f\x80\xff";
    return likely[below(sizeof likely - 1)];
}

/* A run of up to 40 bytes that starts here is dropped, or comes twice. */
static void change_run(size_t at)
{
    char run[40];
    size_t len = 1 + below(sizeof run);
    len = len < len_now - at ? len : len_now - at;
    memcpy(run, text + at, len);
    if (chance(50)) {
        insert(at, run, len);
        return;
    }
    memmove(text + at, text + at + len, len_now - at - len);
    len_now -= len;
}

void damage_text(void)
{
    char byte = likely_char();
    if (len_now == 0)
        return;
    size_t at = below(len_now);
    switch (below(8)) {
    case 0:
        text[at] = (char)draw();
        break;
    case 1:
        text[at] ^= (char)(1 << below(7));
        break;
    case 2:
        cut_text(at);
        break;
    case 3:
    case 4:
        change_run(at);
        break;
    case 5:
        insert(at, &byte, 1);
        break;
    default:
        text[at] = byte;
    }
}

void put_nul(void)
{
    if (len_now)
        text[below(len_now)] = '\0';
}

int is_huge(void)
{
    enum { ONE_OF_SO_MANY = 150 };
    static unsigned asked;
    return ++asked % ONE_OF_SO_MANY == 0;
}

int swell_text(void)
{
    enum { LONG = 2 << 20 };
    size_t once = len_now, most = LONG + below(LONG);
    if (once == 0 || !is_huge())
        return 0;
    if (chance(50))
        add_long(text[below(once)], most);
    else
        while (len_now < most)
            add_bytes(text, once);
    seen.huge_texts++;
    return 1;
}
