#include "json.h"

#include <inttypes.h>

/* The bytes of a well-formed UTF-8 sequence at the start of a text, or 0. */
static size_t sequence(const unsigned char *at)
{
    static const struct {
        unsigned char from, to, second_from, second_to;
        size_t len;
    } kinds[] = {
        {0x00, 0x7f, 0x00, 0x00, 1}, {0xc2, 0xdf, 0x80, 0xbf, 2}, {0xe0, 0xe0, 0xa0, 0xbf, 3}, {0xe1, 0xec, 0x80, 0xbf, 3},
        {0xed, 0xed, 0x80, 0x9f, 3}, {0xee, 0xef, 0x80, 0xbf, 3}, {0xf0, 0xf0, 0x90, 0xbf, 4}, {0xf1, 0xf3, 0x80, 0xbf, 4},
        {0xf4, 0xf4, 0x80, 0x8f, 4},
    };
    for (size_t k = 0; k < sizeof kinds / sizeof kinds[0]; k++) {
        if (at[0] < kinds[k].from || at[0] > kinds[k].to)
            continue;
        if (kinds[k].len > 1 && (at[1] < kinds[k].second_from || at[1] > kinds[k].second_to))
            return 0;
        for (size_t i = 2; i < kinds[k].len; i++)
            if (at[i] < 0x80 || at[i] > 0xbf)
                return 0;
        return kinds[k].len;
    }
    return 0;
}

static void put_text(FILE *out, const char *text)
{
    const unsigned char *at = (const unsigned char *)text;
    fputc('"', out);
    while (*at) {
        size_t len = sequence(at);
        if (len == 0)
            fputs("\\ufffd", out);
        else if (*at == '"' || *at == '\\')
            fprintf(out, "\\%c", *at);
        else if (*at < ' ' || *at == 0x7f)
            fprintf(out, "\\u%04x", *at);
        else
            fwrite(at, 1, len, out);
        at += len ? len : 1;
    }
    fputc('"', out);
}

static void put_key(FILE *out, const char *key)
{
    fprintf(out, ",\"%s\":", key);
}

void json_open(FILE *out, const char *type)
{
    fprintf(out, "{\"type\":\"%s\"", type);
}

void json_close(FILE *out)
{
    fputs("}\n", out);
}

void json_text(FILE *out, const char *key, const char *text)
{
    put_key(out, key);
    if (text)
        put_text(out, text);
    else
        fputs("null", out);
}

void json_number(FILE *out, const char *key, uint64_t number)
{
    put_key(out, key);
    fprintf(out, "%" PRIu64, number);
}

void json_flag(FILE *out, const char *key, int value)
{
    put_key(out, key);
    fputs(value ? "true" : "false", out);
}

void json_null(FILE *out, const char *key)
{
    json_text(out, key, NULL);
}

void json_seconds(FILE *out, const char *key, double seconds)
{
    put_key(out, key);
    fprintf(out, "%.3f", seconds);
}

/* An element of an array, whatever its width. */
typedef int element(const void *numbers, size_t i);

static int byte_at(const void *numbers, size_t i)
{
    return ((const uint8_t *)numbers)[i];
}

static int value_at(const void *numbers, size_t i)
{
    return ((const int16_t *)numbers)[i];
}

static int status_at(const void *numbers, size_t i)
{
    return ((const uint16_t *)numbers)[i];
}

static void put_array(FILE *out, const char *key, const void *numbers, size_t len, element *at)
{
    put_key(out, key);
    fputc('[', out);
    for (size_t i = 0; i < len; i++)
        fprintf(out, "%s%d", i ? "," : "", at(numbers, i));
    fputc(']', out);
}

void json_bytes(FILE *out, const char *key, const uint8_t *numbers, size_t len)
{
    put_array(out, key, numbers, len, byte_at);
}

void json_values(FILE *out, const char *key, const int16_t *numbers, size_t len)
{
    put_array(out, key, numbers, len, value_at);
}

void json_statuses(FILE *out, const char *key, const uint16_t *numbers, size_t len)
{
    put_array(out, key, numbers, len, status_at);
}
