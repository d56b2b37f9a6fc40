#define _GNU_SOURCE
#include "memory.h"

#include "random.h"
#include "report.h"

#include <stdlib.h>
#include <string.h>
#include <sys/mman.h>

enum { MARGIN = 64 };

#define OWNER_REGIONS(i) \
    [OWNER_PIECE + (i)] = {.name = "an owner's piece", .capacity = 8 * PAGE}, \
    [OWNER_CHOICES + (i)] = {.name = "an owner's choices", .capacity = PAGE}

struct lent regions[REGIONS] = {
    [DESIGN] = {.name = "design", .capacity = 8 * PAGE},   [VALUES] = {.name = "values", .capacity = PAGE},
    [STATUSES] = {.name = "statuses", .capacity = PAGE},   [ANSWER] = {.name = "answer", .capacity = PAGE},
    [CHOICES] = {.name = "choices", .capacity = PAGE},     [CLAUSES] = {.name = "clauses", .capacity = CLAUSE_PAGES * PAGE},
    [ASSIGNED] = {.name = "values", .capacity = 64 * PAGE}, [TRAIL] = {.name = "trail", .capacity = 256 * PAGE},
    [PIECE] = {.name = "piece", .capacity = 8 * PAGE},     [MARK] = {.name = "mark", .capacity = PAGE},
    [PIECES] = {.name = "pieces", .capacity = PAGE},       [BUDGETS] = {.name = "budgets", .capacity = PAGE},
    [BUFFERS] = {.name = "choice buffers", .capacity = PAGE}, [REFUTATION] = {.name = "refutation", .capacity = PAGE},
    OWNER_REGIONS(0), OWNER_REGIONS(1), OWNER_REGIONS(2), OWNER_REGIONS(3),
};

void open_regions(void)
{
    for (size_t i = 0; i < REGIONS; i++) {
        struct lent *l = &regions[i];
        uint8_t *all = mmap(NULL, l->capacity + 2 * PAGE, PROT_NONE, MAP_PRIVATE | MAP_ANONYMOUS, -1, 0);
        if (all == MAP_FAILED || mprotect(all + PAGE, l->capacity, PROT_READ | PROT_WRITE))
            fault("no memory");
        l->base = all + PAGE;
        l->copy = malloc(l->capacity);
        if (!l->copy)
            fault("no memory");
    }
}

void close_regions(void)
{
    for (size_t i = 0; i < REGIONS; i++)
        free(regions[i].copy);
}

void *lent(size_t region, size_t bytes)
{
    struct lent *l = &regions[region];
    if (bytes > l->capacity)
        fault("%s: %zu bytes are asked for", l->name, bytes);
    size_t room = l->capacity - bytes, margin = room < MARGIN ? room : MARGIN;
    int at_end = chance(80);
    l->bytes = bytes;
    l->at = at_end ? l->base + room : l->base;
    l->margin = at_end ? l->at - margin : l->at + bytes;
    l->margin_len = margin;
    l->fill = (uint8_t)PICK(0, 1, 2, 0x5a, 0xff);
    memset(l->at, l->fill, bytes);
    memset(l->margin, l->fill, margin);
    return l->at;
}

void keep(size_t region)
{
    struct lent *l = &regions[region];
    memcpy(l->copy, l->at, l->bytes);
}

void keep_all(unsigned set)
{
    for (size_t i = 0; i < REGIONS; i++)
        if (set >> i & 1)
            keep(i);
}

void same(size_t region, size_t from, const char *call)
{
    struct lent *l = &regions[region];
    if (from < l->bytes && memcmp(l->copy + from, l->at + from, l->bytes - from))
        fault("%s: %s has changed", call, l->name);
}

/* Nothing next to a region has been written; on its other side no page may be touched. */
static void margins(size_t region, const char *call)
{
    struct lent *l = &regions[region];
    for (size_t i = 0; i < l->margin_len; i++)
        if (l->margin[i] != l->fill)
            fault("%s: bytes next to %s have changed", call, l->name);
}

void ended(const char *call, uint64_t code, unsigned readable, unsigned writable)
{
    count_call(call, code != 0);
    seen.too_many_variables += code == 19;
    for (size_t i = 0; i < REGIONS; i++) {
        if ((readable | writable) >> i & 1)
            margins(i, call);
        if (readable >> i & 1 || (code && writable >> i & 1))
            same(i, 0, call);
    }
}
