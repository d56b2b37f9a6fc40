/* fuzz: calls the entries, and the program stm in this process, on whole and damaged designs and texts.
 *
 * fuzz SEED COUNT OPERATIONS FILE..      OPERATIONS as check,solve,stm; FILE a design
 */
#include "../stm/common.h"
#include "designs.h"
#include "memory.h"
#include "operations.h"
#include "pieces.h"
#include "random.h"
#include "report.h"
#include "scratch.h"

static const struct share {
    const char *name;
    operation *call;
    unsigned share;
} operations[] = {
    {"check", call_check, 2},   {"start", call_start, 2},   {"step", call_step, 4},       {"holds", call_holds, 3},
    {"replay", call_replay, 4}, {"size", call_size, 3},     {"encode", call_encode, 3},   {"encode", call_parts, 1},
    {"solve", call_solve, 4},   {"decode", call_decode, 3}, {"verdict", call_verdict, 2}, {"stm", call_stm, 3},
    {"owners", call_owners, 1}, {"refute", call_refute, 4}, {"stm", call_readers, 1},
};

enum { OPERATIONS = sizeof operations / sizeof operations[0], MAX_SHARES = 64 };
static operation *shares[MAX_SHARES];
static size_t share_count;

/* The operations to call, each as often as its share. */
static void choose(const char *list)
{
    for (size_t i = 0; i < OPERATIONS; i++) {
        size_t len = strlen(operations[i].name);
        for (const char *at = list; (at = strstr(at, operations[i].name)); at++) {
            if ((at != list && at[-1] != ',') || (at[len] != ',' && at[len] != '\0'))
                continue;
            for (unsigned n = 0; n < operations[i].share && share_count < MAX_SHARES; n++)
                shares[share_count++] = operations[i].call;
        }
    }
    if (share_count == 0)
        fault("no operation is chosen");
}

int main(int argc, char **argv)
{
    uint64_t seed, count;
    if (argc < 5 || read_number(argv[1], UINT64_MAX, &seed) || read_number(argv[2], UINT64_MAX, &count))
        return misuse("usage: fuzz SEED COUNT OPERATIONS FILE..");
    if (open_report(seed))
        return MISUSED;
    /* so that standard error has only what a sanitizer says */
    messages = stdout;
    set_seed(seed);
    open_regions();
    choose(argv[3]);
    for (int i = 4; i < argc; i++)
        read_design_file(argv[i]);
    open_scratch(argv[4]);
    while (calls < count) {
        next_design();
        next_piece();
        for (size_t i = 0; i < 6; i++)
            shares[below(share_count)]();
    }
    close_scratch();
    free_design_files();
    close_regions();
    close_report(argv[3]);
    return 0;
}
