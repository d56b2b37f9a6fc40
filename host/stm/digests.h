/* The list `rows-files.txt` of a folder: the digest of every design and piece that its rows are about, as sha256sum writes it. */
#ifndef STM_DIGESTS_H
#define STM_DIGESTS_H

#include "text.h"

struct listed;

struct digests {
    struct listed *files;
    size_t len, room;
};

/* 0 where the list can be read, or there is none; `free_digests` frees it in any case. */
int read_digests(struct job *j, const char *folder, struct digests *d);
void free_digests(const struct digests *d);

/* 0 where these are the bytes that the list has of the name; else it is told with the line of the row that has the name. A row about a
 * file that was changed since would be judged wrong, whatever it says. */
int test_digest(const struct digests *d, const struct text *row, const char *name, size_t len, const uint8_t *bytes, size_t bytes_len);

#endif
