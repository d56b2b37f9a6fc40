/* A command line for the program, and the exit statuses that it may end with. */
#ifndef FUZZ_LINES_H
#define FUZZ_LINES_H

#include "../stm/common.h"

/* The most words of a line. */
enum { MAX_ARGS = 32 };

/* A set of exit statuses. */
#define STATUS(status) ((uint64_t)1 << (status))

/* The first word is the program's name. Each word has memory of its own, so that a sanitizer sees what passes its end. */
struct line {
    char *words[MAX_ARGS + 1];
    int count;
    uint64_t allowed;
    int has_formula; /* whether a model is decoded for a formula that is not refused */
    int helps; /* whether it asks for help, which is all that it then does */
};

void add_word(struct line *l, const char *text);
void change_word(struct line *l, int at, const char *text);
void free_words(struct line *l);

/* Misuse in any case, whatever else is known; and statuses of which it ends with one where it is no misuse. */
void is_misuse(struct line *l);
void narrow(struct line *l, uint64_t allowed);

/* The words of a line: the command's name, and what it takes, but for options. */
void make_command(struct line *l);

/* Puts options in after the command's name. Right ones change nothing in the exit status, wrong ones are misuse. */
void put_options(struct line *l);

/* The word of a number, mostly of one that is taken. Answers the number; a word that is none is misuse. */
uint64_t add_number(struct line *l);
void add_known(struct line *l, uint64_t number);

/* The words PROPERTY and BOUND, so that the formula has at most so many words and so great a product of variables and words; 0 where
 * there is no such bound. */
int add_asked(struct line *l, uint64_t most_words, uint64_t most_search, uint64_t *property, uint64_t *bound);

/* The same, of a property that an accepted design has and a low bound. */
int add_likely(struct line *l, uint64_t most_words, uint64_t most_search, uint64_t *property, uint64_t *bound);

/* The words after the design, and the proof or the model that they name; all words of the command that reads a table. */
void make_refute(struct line *l);
void make_decode(struct line *l);
void make_rows(struct line *l);

/* The lines of a proof, as the text; also what is none. */
void make_proof(void);

/* What was changed for a table is set back. */
void end_rows(void);

#endif
