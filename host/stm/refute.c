/* stm refute FILE PROPERTY BOUND PROOF */
#include "commands.h"
#include "refutation.h"

static int print_refutation(const struct proof *p, const uint64_t answer[2])
{
    if (answer[0] == ACCEPTED) {
        printf("accepted: %zu clauses, %zu words\n", p->clauses, p->len);
        return CLEAN;
    }
    print_fault(stdout, p, answer);
    printf("\n");
    return NOT_ACCEPTED;
}

int run_refute(struct job *j, int count, char **words)
{
    (void)count;
    struct proof p;
    uint64_t answer[2] = {0};
    int status = read_property_bound(j, words);
    if (status)
        return status;
    status = read_proof(j, words[3], &p);
    if (!status)
        status = refute_by(j, &p, answer);
    if (!status)
        status = print_refutation(&p, answer);
    free_proof(&p);
    return status;
}
