/* A folder of the fuzzer's own, with what the program under test reads: the design, the piece and the texts under test, and beside
 * them the given designs, their pieces and our tables of rows. After a fault it stays. */
#ifndef FUZZ_SCRATCH_H
#define FUZZ_SCRATCH_H

#include <stddef.h>

enum { DESIGN_FILE, PIECE_FILE, PROOF_FILE, MODEL_FILE, TABLE_FILE, SCRATCH_FILES };
enum { MAX_PATH = 256 };
extern char scratch[MAX_PATH], scratch_paths[SCRATCH_FILES][MAX_PATH];

/* A table of rows as it stands beside the designs, and its copy in the folder. */
struct rows_file {
    char path[MAX_PATH];
    char *bytes;
    size_t len;
};
enum { MAX_ROWS_FILES = 8 };
extern struct rows_file rows_files[MAX_ROWS_FILES];
extern size_t rows_files_count;

/* The designs, pieces and tables are those beside the design at this path. The folder is then that of the designs for the program. */
void open_scratch(const char *design_path);
void close_scratch(void);

void write_file(const char *path, const void *bytes, size_t len);

/* Standard input from here on. */
void give_input(const char *path);

#endif
