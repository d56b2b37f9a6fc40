/* VERDICT from C: does a run of up to three choices break the design's invariant?
 *     cc docs/verdict.c $(pkg-config --cflags --libs stm) -o verdict && ./verdict designs/design-a.stm
 * The memory is for small designs; with less than SIZE tells the call is refused by 16. */
#include <inttypes.h>
#include <stdio.h>
#include <stm.h>

int main(int argc, char **argv)
{
    static uint8_t design[16385], values[100000], choices[3];
    static int32_t clauses[1000000];
    static uint32_t trail[100000];
    static const char *const verdicts[] = {"CLEAN", "VIOLATED", "SPENT"};
    FILE *file = argc == 2 ? fopen(argv[1], "rb") : NULL;
    if (!file)
        return fprintf(stderr, "usage: verdict FILE, a design that can be read\n"), 2;
    size_t len = fread(design, 1, sizeof design, file);
    uint64_t answer[3] = {0};
    uint64_t refused = stm_verdict(design, len, design, 0, 0, 3, UINT64_MAX, clauses, 1000000, values, 100000, trail, 100000,
                                   choices, 3, answer);
    if (refused)
        printf("refused %u at %" PRIu64 "\n", STM_NUMBER(refused), STM_PLACE(refused));
    else
        printf("%s, step %" PRIu64 ", %" PRIu64 " tries\n", verdicts[answer[0]], answer[1], answer[2]);
    return refused ? 3 : answer[0] == 1 ? 10 : answer[0] == 2 ? 30 : 0;
}
