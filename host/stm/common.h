/* What the commands share: exit statuses, the call that is asked for, messages, files, numbers and memory. */
#ifndef STM_COMMON_H
#define STM_COMMON_H

#include "../stm.h"

#include <inttypes.h>
#include <stdio.h>
#include <stdlib.h>
#include <string.h>

/* Exit statuses. 10 is also what a SAT solver says of a satisfiable formula; 20, its UNSAT, is no status here. */
enum { CLEAN = 0, NOT_ACCEPTED = 1, MISUSED = 2, REFUSED = 3, VIOLATED = 10, SPENT = 30 };

/* A design file and a piece are at most 16,384 bytes; one byte more is read, so that a longer one is seen to be too long. */
enum { MAX_READ = 16385, MAX_CHOICES = 100 };

enum { INVARIANT, NO_INVALID_CELL, CONSTRAINT };

/* What a command works on, and the options that it was given. */
struct job {
    const char *command;
    const char *path, *piece_path;
    uint8_t design[MAX_READ];
    size_t len;
    uint8_t piece[MAX_READ];
    size_t piece_len;
    uint64_t property;
    uint64_t bound;
    uint64_t budget;
    uint8_t choices[MAX_CHOICES + 1];
    size_t choices_len;
    int json, explain, progress, stats;
    uint64_t seconds; /* 0 where no time is set */
    const char *designs;
    int input_taken; /* whether standard input was named already */
};

/* Where messages go: standard error where it is NULL. The fuzzer puts them where its output goes. */
extern FILE *messages;
FILE *message_file(void);

void tell(const char *format, ...) __attribute__((format(printf, 1, 2)));

/* Tells what is wrong with the call; MISUSED. */
int misuse(const char *format, ...) __attribute__((format(printf, 1, 2)));

/* Of a longer path only the front is told; the system opens none. */
enum { PATH_SHOWN = 4096 };

/* Likewise of a file, with the reason that the system gives. */
int misuse_file(const char *message, const char *path);

/* A refusal's number and place, without what it says. */
void print_refusal(FILE *out, uint64_t code);

/* Tells a refusal, as an object too where they are asked for; REFUSED. */
int refuse(const struct job *j, uint64_t code);

/* The path of the piece, or NULL where none is read: with another property than 0, or where it is empty. */
const char *piece_read(const struct job *j);

/* What a refusal says, of a piece too. */
const char *meaning(uint64_t code);

/* 0 unless this is - again: standard input can be named once. A command that asks an operation before it reads the file tests it. */
int test_input(const struct job *j, const char *path);

/* The file, or standard input for -. NULL where it cannot be opened, which is told. */
FILE *open_input(struct job *j, const char *path);
void close_input(FILE *f);

/* Reads a design file or a piece; 0 where it can be read. */
int read_bytes(struct job *j, const char *path, uint8_t bytes[MAX_READ], size_t *len);

/* A decimal number up to `most`, digits only; 0 where it is one. */
int read_number(const char *text, uint64_t most, uint64_t *number);

/* Choices parted by commas, or - for none. One more than REPLAY takes is kept, so that it refuses longer lists itself. The text is
 * not changed. */
int read_choices(const char *text, struct job *j);

/* The choices as read_choices takes them. */
void print_choices(FILE *out, const uint8_t *choices, size_t len);

/* Memory for so many elements, or NULL; never for none, since a lent pointer is not null. */
void *lend(uint64_t count, size_t element);

/* An array with twice the room, or NULL; the old one then stays. */
void *doubled(void *old, size_t *room, size_t element);

/* Tells that there is no memory for the formula; MISUSED. */
int too_large(void);

/* What SOLVE, VERDICT and the call of several owners work on. */
struct memory {
    int32_t *clauses;
    uint8_t *values;
    uint32_t *trail;
};

/* 0 where there is so much memory; `give_back` frees it in any case. */
int take(struct memory *m, uint64_t words, uint64_t n);
void give_back(const struct memory *m);

#endif
