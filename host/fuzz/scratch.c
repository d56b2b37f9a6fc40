#define _GNU_SOURCE
#include "scratch.h"

#include "report.h"

#include <glob.h>
#include <libgen.h>
#include <stdio.h>
#include <stdlib.h>
#include <string.h>
#include <unistd.h>

char scratch[MAX_PATH], scratch_paths[SCRATCH_FILES][MAX_PATH];
struct rows_file rows_files[MAX_ROWS_FILES];
size_t rows_files_count;

void write_file(const char *path, const void *bytes, size_t len)
{
    FILE *f = fopen(path, "wb");
    if (!f || fwrite(bytes, 1, len, f) != len || fclose(f))
        fault("cannot write %s", path);
}

void give_input(const char *path)
{
    if (!freopen(path, "rb", stdin))
        fault("cannot open %s", path);
}

static void join(char path[MAX_PATH], const char *folder, const char *name)
{
    if (snprintf(path, MAX_PATH, "%s/%s", folder, name) >= MAX_PATH)
        fault("too long a path: %s", name);
}

/* A link to a file beside the designs. */
static void link_file(const char *path)
{
    char copy[MAX_PATH], to[MAX_PATH];
    join(to, scratch, basename(strcpy(copy, path)));
    char *whole = realpath(path, NULL);
    if (!whole || symlink(whole, to))
        fault("cannot link %s", path);
    free(whole);
}

static void copy_rows(const char *path)
{
    enum { MAX_ROWS_FILE = 1 << 20 };
    char copy[MAX_PATH];
    FILE *f = fopen(path, "rb");
    struct rows_file *r = &rows_files[rows_files_count++];
    r->bytes = malloc(MAX_ROWS_FILE);
    if (!f || !r->bytes)
        fault("cannot open %s", path);
    r->len = fread(r->bytes, 1, MAX_ROWS_FILE, f);
    fclose(f);
    join(r->path, scratch, basename(strcpy(copy, path)));
    write_file(r->path, r->bytes, r->len);
}

/* Does this for each file of the folder whose name matches. */
static void for_each(const char *folder, const char *pattern, void (*act)(const char *path), size_t most)
{
    char path[MAX_PATH];
    glob_t found;
    join(path, folder, pattern);
    if (glob(path, 0, NULL, &found))
        return;
    for (size_t i = 0; i < found.gl_pathc && i < most; i++)
        if (strlen(found.gl_pathv[i]) < MAX_PATH)
            act(found.gl_pathv[i]);
    globfree(&found);
}

void open_scratch(const char *design_path)
{
    static const char *const names[SCRATCH_FILES] = {"fuzzed.stm", "fuzzed.piece", "proof.drat", "model.txt", "table.csv"};
    char copy[MAX_PATH];
    strcpy(scratch, "/tmp/stm-fuzz-XXXXXX");
    if (!mkdtemp(scratch) || strlen(design_path) >= MAX_PATH)
        fault("cannot make %s", scratch);
    for (size_t i = 0; i < SCRATCH_FILES; i++)
        join(scratch_paths[i], scratch, names[i]);
    const char *folder = dirname(strcpy(copy, design_path));
    for_each(folder, "*.stm", link_file, SIZE_MAX);
    for_each(folder, "*.piece", link_file, SIZE_MAX);
    for_each(folder, "rows*.txt", copy_rows, MAX_ROWS_FILES);
    setenv("STM_DESIGNS", scratch, 1);
}

static void remove_file(const char *path)
{
    unlink(path);
}

void close_scratch(void)
{
    for_each(scratch, "*", remove_file, SIZE_MAX);
    rmdir(scratch);
    for (size_t i = 0; i < rows_files_count; i++)
        free(rows_files[i].bytes);
}
