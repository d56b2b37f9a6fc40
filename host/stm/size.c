/* stm size FILE PROPERTY BOUND */
#include "commands.h"
#include "formula.h"
#include "json.h"

static const char *const names[SIZE_LEN] = {"S", "P", "w", "G", "n", "clauses", "words"};

static void print_object(const struct job *j, const uint64_t sizes[SIZE_LEN])
{
    json_open(stdout, "size");
    json_text(stdout, "design", j->path);
    json_text(stdout, "piece", piece_read(j));
    json_number(stdout, "property", j->property);
    json_number(stdout, "bound", j->bound);
    for (size_t i = 0; i < SIZE_LEN; i++)
        json_number(stdout, names[i], sizes[i]);
    json_close(stdout);
}

int run_size(struct job *j, int count, char **words)
{
    (void)count;
    uint64_t sizes[SIZE_LEN];
    int failed = read_property_bound(j, words);
    if (failed)
        return failed;
    uint64_t code = sizes_for(j, j->bound, sizes);
    if (code)
        return refuse(j, code);
    if (j->json)
        print_object(j, sizes);
    else
        for (size_t i = 0; i < SIZE_LEN; i++)
            printf("%s %" PRIu64 "\n", names[i], sizes[i]);
    return CLEAN;
}
