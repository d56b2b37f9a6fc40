/* Objects of JSON, one a line: json_open, its members in order, json_close. */
#ifndef STM_JSON_H
#define STM_JSON_H

#include <stddef.h>
#include <stdint.h>
#include <stdio.h>

/* The first member of every object is its type. */
void json_open(FILE *out, const char *type);
void json_close(FILE *out);

/* Bytes that are no UTF-8 are told as the replacement character. A NULL text is null. */
void json_text(FILE *out, const char *key, const char *text);
void json_number(FILE *out, const char *key, uint64_t number);
void json_flag(FILE *out, const char *key, int value);
void json_null(FILE *out, const char *key);

/* Seconds with three digits after the point. */
void json_seconds(FILE *out, const char *key, double seconds);

/* An array of numbers. */
void json_bytes(FILE *out, const char *key, const uint8_t *numbers, size_t len);
void json_values(FILE *out, const char *key, const int16_t *numbers, size_t len);
void json_statuses(FILE *out, const char *key, const uint16_t *numbers, size_t len);

#endif
