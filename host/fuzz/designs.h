/* The given design files, and the design under test, whole or damaged, in lent memory. */
#ifndef FUZZ_DESIGNS_H
#define FUZZ_DESIGNS_H

#include <stddef.h>
#include <stdint.h>

enum { MAX_FILES = 64, MAX_DESIGN = 20000 };

struct design_file {
    const char *path;
    uint8_t *bytes;
    size_t len;
};
extern struct design_file files[MAX_FILES];
extern size_t file_count;

/* The file that the design under test was made from, the last one that was. */
extern size_t last_file;

extern uint8_t *design;
extern size_t design_len;
extern uint64_t design_code; /* what CHECK says of it */

void read_design_file(const char *path);
void free_design_files(void);

void next_design(void);

/* A given file as it is; and whether the design under test is one. */
void whole_design(size_t file);
int is_whole(void);

uint8_t likely_byte(void);

/* The trailer and, in version 2, the constraint's offset before it. */
size_t tail_len(const uint8_t *bytes, size_t len);

#endif
