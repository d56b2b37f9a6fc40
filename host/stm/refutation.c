#include "refutation.h"

#include "formula.h"

/* The refusal of a clause list, and of a refutation, whose places count on from the list's length. */
enum { BAD_LIST = 17 };

/* Only a literal of the proof is refused: the list is ENCODE's, and every clause of the proof is closed. */
static int refuse_proof(const struct job *j, const struct proof *p, uint64_t code, uint64_t list_len, uint64_t n)
{
    if (STM_NUMBER(code) != BAD_LIST || STM_PLACE(code) < list_len)
        return refuse(j, code);
    print_refusal(message_file(), code);
    tell("a literal in line %" PRIu64 " of the proof is none of the formula's %" PRIu64 " variables\n",
         line_of(p, STM_PLACE(code) - list_len), n);
    return REFUSED;
}

int refute_by(const struct job *j, const struct proof *p, uint64_t answer[2])
{
    uint64_t sizes[SIZE_LEN];
    uint64_t code = sizes_for(j, j->bound, sizes);
    if (code)
        return refuse(j, code);
    uint64_t n = sizes[SIZE_VARIABLES];
    int32_t *list = lend(sizes[SIZE_WORDS], sizeof *list);
    uint8_t *values = lend(n, sizeof *values);
    int status = list && values ? 0 : too_large();
    size_t len = 0;
    if (!status && (code = put_parts(j, sizes, j->bound, list, &len)))
        status = refuse(j, code);
    if (!status) {
        code = stm_refute(n, list, len, p->words, p->len, values, (size_t)n, answer);
        status = code ? refuse_proof(j, p, code, len, n) : 0;
    }
    free(list);
    free(values);
    return status;
}

void print_fault(FILE *out, const struct proof *p, const uint64_t answer[2])
{
    if (answer[0] == DOES_NOT_FOLLOW)
        fprintf(out, "line %" PRIu64 " does not follow", line_of(p, answer[1]));
    else
        fprintf(out, "ended without an empty clause");
}
