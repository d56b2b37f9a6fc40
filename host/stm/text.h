/* A text file read line by line: what the readers of proofs, models and tables share. */
#ifndef STM_TEXT_H
#define STM_TEXT_H

#include "common.h"

/* `bytes` is the line as a string, without its end; `len` counts the closing NUL. The room is how many bytes its memory takes. */
struct text {
    const char *path;
    const char *what; /* the file in a message, as "a proof" */
    FILE *file;
    uint64_t line; /* from 1 on */
    char *bytes;
    size_t len, room;
};

/* 0 where the file can be opened; `close_text` closes and frees in any case. */
int open_text(struct job *j, const char *path, const char *what, struct text *t);
void close_text(const struct text *t);

/* The next line. Its end is a line feed or a carriage return and a line feed; the last line may have none. *more is 0 where the file
 * has ended. */
int next_line(struct text *t, int *more);

/* Puts a byte behind the others, for readers of other forms than lines. */
int put_char(struct text *t, int c);

/* Whether the line holds a NUL. */
int has_nul(const struct text *t);

/* The next word from *at on, which then stands behind it; *len is 0 where there is none. Words are parted by blanks. */
const char *next_word(const char **at, size_t *len);

/* Whether a word is this one. */
int is_word(const char *word, size_t len, const char *other);

/* A decimal number of 32 bits: digits, a - before them for a negative one. */
int read_literal(const struct text *t, const char *word, size_t len, int32_t *literal);

/* Faults of the line, told with the file and the line; MISUSED. A long word is shown in part. */
int line_fault(const struct text *t, const char *message);
int word_fault(const struct text *t, const char *message, const char *word, size_t len);
int no_memory(const struct text *t);

/* Text from a file, in which bytes that a terminal would act on are shown as question marks. */
void print_shown(FILE *out, const char *text);

#endif
