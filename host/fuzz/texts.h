/* The text that is being made: a proof, a model, a table. It may have any bytes, NULs too. */
#ifndef FUZZ_TEXTS_H
#define FUZZ_TEXTS_H

#include <stddef.h>

enum { MAX_TEXT = 8 << 20 };

/* What is added past MAX_TEXT is left out. */
void start_text(void);
void add(const char *format, ...) __attribute__((format(printf, 1, 2)));
void add_bytes(const char *bytes, size_t len);
size_t text_len(void);
void cut_text(size_t len);
void save_text(const char *path);

/* A NUL in the place of some byte. */
void put_nul(void);

/* Changes, drops, doubles or puts in some bytes, or cuts the text. */
void damage_text(void);

/* A text of some MB, now and then: it comes over and over, or one of its bytes does. Answers whether it is that long now. */
int swell_text(void);

/* A field of a table, in quotes where it has to be and now and then elsewhere. */
void add_field(const char *field);

/* So many bytes of one line. */
void add_long(char byte, size_t len);

/* Whether a text of some MB is to be made now. They are rare, since they take long. */
int is_huge(void);

#endif
