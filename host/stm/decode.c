/* stm decode FILE PROPERTY BOUND MODEL */
#include "commands.h"
#include "formula.h"
#include "model.h"
#include "trace.h"

/* The run that the model's flags name, and what REPLAY says of it. A satisfying assignment decodes to a run that breaks the property, so
 * one that does not is no satisfying assignment. */
static int print_decoded(struct job *j)
{
    uint64_t answer[REPLAY_LEN] = {0};
    uint64_t code = replay_of(j, answer);
    if (code)
        return refuse(j, code);
    printf("choices ");
    print_choices(stdout, j->choices, j->choices_len);
    printf("\n");
    int status = print_run(j, answer);
    if (status != CLEAN)
        return status;
    tell("stm: the run does not break the property, so the model does not satisfy the formula\n");
    return NOT_ACCEPTED;
}

static int decode(struct job *j, const char *path)
{
    uint64_t sizes[SIZE_LEN];
    uint64_t code = sizes_for(j, j->bound, sizes);
    if (code)
        return refuse(j, code);
    uint64_t n = sizes[SIZE_VARIABLES];
    uint8_t *values = lend(n, sizeof *values);
    int status = values ? read_model(j, path, n, values) : too_large();
    if (!status) {
        code = stm_decode(j->design, j->len, j->piece, j->piece_len, j->property, j->bound, values, (size_t)n, j->choices, MAX_CHOICES);
        j->choices_len = (size_t)j->bound;
        status = code ? refuse(j, code) : print_decoded(j);
    }
    free(values);
    return status;
}

int run_decode(struct job *j, int count, char **words)
{
    (void)count;
    int failed = read_property_bound(j, words);
    if (!failed)
        failed = test_input(j, words[3]);
    return failed ? failed : decode(j, words[3]);
}
