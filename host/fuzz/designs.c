#include "designs.h"

#include "memory.h"
#include "random.h"
#include "report.h"

#include <stdio.h>
#include <stdlib.h>
#include <string.h>

struct design_file files[MAX_FILES];
size_t file_count, last_file;
uint8_t *design;
size_t design_len;
uint64_t design_code;

/* The design before it is lent. */
static uint8_t draft[MAX_DESIGN + 512];
static size_t draft_len;

void read_design_file(const char *path)
{
    FILE *f = fopen(path, "rb");
    if (!f || file_count == MAX_FILES)
        fault("cannot open %s", path);
    uint8_t *bytes = malloc(MAX_DESIGN);
    if (!bytes)
        fault("no memory");
    size_t len = fread(bytes, 1, MAX_DESIGN, f);
    files[file_count++] = (struct design_file){.path = path, .bytes = bytes, .len = len};
    fclose(f);
}

void free_design_files(void)
{
    for (size_t i = 0; i < file_count; i++)
        free(files[i].bytes);
}

uint8_t likely_byte(void)
{
    return (uint8_t)PICK(0, 1, 2, 3, 4, 5, 6, 7, 8, 9, 0x10, 0x11, 0x12, 0x13, 0x14, 0x15, 0x16, 0x17, 0x20, 0x21, 0x22, 32, 33, 255);
}

size_t tail_len(const uint8_t *bytes, size_t len)
{
    return len >= 18 && bytes[len - 16] == 2 && bytes[len - 15] == 0 ? 18 : 16;
}

/* A field of the trailer, or the constraint's offset, goes up or down, or becomes any number. */
static void damage_trailer(void)
{
    if (draft_len < 16)
        return;
    size_t tail = tail_len(draft, draft_len);
    uint8_t *field = draft + draft_len - tail + 2 * (tail == 18 && chance(20) ? 0 : below(tail / 2));
    unsigned n = field[0] + 256u * field[1];
    n = chance(70) ? n + (unsigned)PICK(1, 2, 0xffff, 0xfffe, 256) : (unsigned)draw();
    field[0] = (uint8_t)n;
    field[1] = (uint8_t)(n >> 8);
}

/* The constraint's offset becomes a place near one of its limits: the invariant, and the offset itself. */
static void damage_constraint(void)
{
    if (tail_len(draft, draft_len) != 18)
        return;
    uint8_t *field = draft + draft_len - 18;
    unsigned limit = chance(50) ? draft[draft_len - 2] + 256u * draft[draft_len - 1] : (unsigned)draft_len - 18;
    unsigned n = limit + (unsigned)PICK(0, 0, 1, 2, 0xffff);
    field[0] = (uint8_t)n;
    field[1] = (uint8_t)(n >> 8);
}

/* Another version, which may be a right one. */
static void damage_version(void)
{
    if (draft_len >= 16)
        draft[draft_len - 16] = (uint8_t)PICK(1, 1, 2, 2, 3);
}

/* A run of bytes of another design. */
static void splice(void)
{
    size_t from = below(file_count), len = below(64);
    if (files[from].len < len || draft_len < len || len == 0)
        return;
    memcpy(draft + below(draft_len - len + 1), files[from].bytes + below(files[from].len - len + 1), len);
}

/* A byte more or less, with the trailer and the constraint's offset kept at the end. */
static void shift(void)
{
    size_t tail = tail_len(draft, draft_len);
    if (draft_len <= tail)
        return;
    size_t at = below(draft_len - tail);
    if (chance(50)) {
        memmove(draft + at + 1, draft + at, draft_len - at);
        draft[at] = likely_byte();
        draft_len++;
    } else {
        memmove(draft + at, draft + at + 1, draft_len - at - 1);
        draft_len--;
    }
}

static void damage(void)
{
    switch (below(12)) {
    case 0:
    case 1:
        damage_trailer();
        break;
    case 10:
        damage_constraint();
        break;
    case 11:
        damage_version();
        break;
    case 2:
        splice();
        break;
    case 3:
        shift();
        break;
    case 4:
        draft_len = below(draft_len + 1);
        break;
    case 5:
    case 6:
        if (draft_len)
            draft[below(draft_len)] = likely_byte();
        break;
    case 7:
        if (draft_len)
            draft[below(draft_len)] = (uint8_t)draw();
        break;
    default:
        if (draft_len)
            draft[below(draft_len)] ^= (uint8_t)(1u << below(8));
    }
}

/* A file of an edge length, its trailer in part a right one. */
static void edge_design(void)
{
    draft_len = (size_t)PICK(0, 1, 15, 16, 17, 18, 19, 32, 16383, 16384, 16385, 20000);
    for (size_t i = 0; i < draft_len; i++)
        draft[i] = likely_byte();
    if (draft_len >= 16 && chance(70))
        memcpy(draft + draft_len - 16, chance(50) ? "\1\0\0\0\0\0\1\0\2\0\5\0\0\0\5\0" : "\2\0\0\0\0\0\1\0\2\0\5\0\0\0\5\0", 16);
}

static void take_file(size_t file)
{
    last_file = file;
    draft_len = files[file].len;
    memcpy(draft, files[file].bytes, draft_len);
}

static void lend_draft(void)
{
    design = lent(DESIGN, draft_len);
    design_len = draft_len;
    memcpy(design, draft, draft_len);
    keep(DESIGN);
    design_code = stm_check(design, design_len);
    ended("check", design_code, SET(DESIGN), 0);
    require((design_code == 0) || (STM_NUMBER(design_code) >= 1 && STM_NUMBER(design_code) <= 10), "check", "no such refusal", design_code);
    int version_2 = draft_len >= 16 && draft[draft_len - 16] == 2 && draft[draft_len - 15] == 0;
    require(!version_2 || draft_len >= 18 || STM_NUMBER(design_code) == 1, "check", "too short for version 2", design_code);
}

void next_design(void)
{
    if (chance(3)) {
        edge_design();
    } else {
        take_file(below(file_count));
        if (chance(45))
            for (size_t i = 0, n = 1 + below(4); i < n; i++)
                damage();
    }
    lend_draft();
}

void whole_design(size_t file)
{
    take_file(file);
    lend_draft();
}

int is_whole(void)
{
    return design_len == files[last_file].len && memcmp(design, files[last_file].bytes, design_len) == 0;
}
