/* Lent memory: it stands against a page that may not be touched, so that a read or write past it ends the program, also in code that no
 * sanitizer has seen. */
#ifndef FUZZ_MEMORY_H
#define FUZZ_MEMORY_H

#include "../stm.h"

enum { PAGE = 4096 };

/* The owners have a region for each piece and each choice buffer, and one for each of the arrays that name them. */
enum {
    DESIGN, PIECE, VALUES, STATUSES, MARK, ANSWER, CHOICES, CLAUSES, ASSIGNED, TRAIL, PIECES, BUDGETS, BUFFERS, REFUTATION,
    OWNER_PIECE
};
enum { OWNER_CHOICES = OWNER_PIECE + STM_OWNERS, REGIONS = OWNER_CHOICES + STM_OWNERS };

/* The words that the region of the clauses has room for. */
enum { CLAUSE_PAGES = 512, MAX_WORDS = CLAUSE_PAGES * PAGE / 4 };

struct lent {
    const char *name;
    size_t capacity;
    uint8_t *base, *copy;
    uint8_t *at, *margin;
    size_t bytes, margin_len;
    uint8_t fill;
};

extern struct lent regions[REGIONS];

void open_regions(void);
void close_regions(void);

/* So many bytes of a region, at its end or at its start, filled with one value together with what is next to them. */
void *lent(size_t region, size_t bytes);

/* A set of regions. */
#define SET(region) (1u << (region))

/* Remembers what regions hold before a call. */
void keep(size_t region);
void keep_all(unsigned set);

/* Whether the bytes of a region from `from` on are as they were. */
void same(size_t region, size_t from, const char *call);

/* The end of a call: a refused one has changed nothing, and none has written next to a region. `writable` are those that it may write. */
void ended(const char *call, uint64_t code, unsigned readable, unsigned writable);

#endif
