/* The calls on a clause list: SOLVE and REFUTE. */
#include "memory.h"
#include "operations.h"
#include "random.h"
#include "report.h"

#include <string.h>

enum { MAX_LIST = 400, MAX_LIST_VARIABLES = 12 };

/* Clauses over n variables, some of them not closed, some words wrong. Answers the words. */
static size_t any_list(size_t n, int32_t *words)
{
    size_t len = 0;
    for (size_t i = 0, clauses = below(1 + 4 * n); i < clauses; i++) {
        for (size_t k = below(4); k > 0 && n > 0; k--)
            words[len++] = (int32_t)(1 + below(n)) * (chance(50) ? 1 : -1);
        if (chance(99) || len == 0)
            words[len++] = 0;
    }
    if (len && chance(10))
        words[below(len)] = (int32_t)PICK(0, 13, 0x7fffffff, 0x80000000u, 0xffffffffu);
    return len;
}

void call_solve(void)
{
    static int32_t list[MAX_LIST];
    size_t count = below(13), len = any_list(count, list);
    uint64_t n = chance(97) ? count : PICK(13, 0x7fffffff, 0x80000000u, (uint64_t)1 << 32, UINT64_MAX);
    int32_t *words = lent(CLAUSES, len * sizeof *words);
    memcpy(words, list, len * sizeof *words);
    size_t values_len = near(count), trail_len = near(count);
    uint8_t *values = lent(ASSIGNED, values_len);
    uint32_t *trail = lent(TRAIL, trail_len * sizeof *trail);
    uint64_t *answer = lent(ANSWER, 2 * sizeof *answer), budget = PICK(0, 1, 2, 5, 20, 100, UINT64_MAX);
    keep_all(SET(CLAUSES) | SET(ASSIGNED) | SET(TRAIL) | SET(ANSWER));
    uint64_t code = stm_solve(n, words, len, values, values_len, trail, trail_len, budget, answer);
    ended("solve", code, SET(CLAUSES), SET(ASSIGNED) | SET(TRAIL) | SET(ANSWER));
    require(code == 0 || code == 16 || STM_NUMBER(code) == 17, "solve", "no such refusal", code);
    if (code)
        return;
    same(ASSIGNED, (size_t)n, "solve");
    same(TRAIL, (size_t)n * sizeof *trail, "solve");
    for (size_t i = 0; i < n; i++)
        require(trail[i] == 0 && values[i] <= (answer[0] == 0), "solve", "leaves other values", values[i]);
    require(answer[0] <= 2 && answer[1] <= budget, "solve", "no such answer", answer[0]);
}

/* The same list without its empty clauses, by which everything would follow. Answers its length. */
static size_t without_empty(int32_t *words, size_t len)
{
    size_t kept = 0;
    for (size_t i = 0; i < len; i++)
        if (words[i] != 0 || (kept > 0 && words[kept - 1] != 0))
            words[kept++] = words[i];
    return kept;
}

/* A word of the refutation where a clause begins that does not follow, or none. */
static void require_answer(const uint64_t answer[2], const int32_t *refutation, size_t len)
{
    uint64_t at = answer[1];
    require(answer[0] <= 2, "refute", "no such answer", answer[0]);
    require(answer[0] == 1 || at == 0, "refute", "a word without a clause", at);
    require(answer[0] != 1 || (at < len && (at == 0 || refutation[at - 1] == 0)), "refute", "no clause begins there", at);
    seen.refutations_found[answer[0]]++;
}

/* What is accepted has no satisfying assignment. */
static void require_unsatisfiable(uint64_t n, const int32_t *words, size_t len)
{
    uint8_t values[MAX_LIST_VARIABLES + 1];
    uint32_t trail[MAX_LIST_VARIABLES + 1];
    uint64_t answer[2];
    uint64_t code = stm_solve(n, words, len, values, sizeof values, trail, sizeof trail / sizeof *trail, UINT64_MAX, answer);
    require(code == 0 && answer[0] == 1, "refute", "accepts what is not UNSAT", code);
}

void call_refute(void)
{
    static int32_t list[MAX_LIST], proof[MAX_LIST];
    size_t count = below(MAX_LIST_VARIABLES + 1), few = count < 3 ? count : below(count + 1);
    size_t len = any_list(chance(50) ? count : few, list), proof_len = any_list(below(few + 1), proof);
    if (chance(70))
        len = without_empty(list, len);
    if (chance(50))
        proof_len = without_empty(proof, proof_len);
    uint64_t n = chance(97) ? count : PICK(13, 0x7fffffff, 0x80000000u, (uint64_t)1 << 32, UINT64_MAX);
    int32_t *words = lent(CLAUSES, len * sizeof *words), *refutation = lent(REFUTATION, proof_len * sizeof *refutation);
    memcpy(words, list, len * sizeof *words);
    memcpy(refutation, proof, proof_len * sizeof *refutation);
    size_t values_len = near(count);
    uint8_t *values = lent(ASSIGNED, values_len);
    uint64_t *answer = lent(ANSWER, 2 * sizeof *answer);
    keep_all(SET(CLAUSES) | SET(REFUTATION) | SET(ASSIGNED) | SET(ANSWER));
    uint64_t code = stm_refute(n, words, len, refutation, proof_len, values, values_len, answer);
    ended("refute", code, SET(CLAUSES) | SET(REFUTATION), SET(ASSIGNED) | SET(ANSWER));
    require(code == 0 || code == 16 || STM_NUMBER(code) == 17, "refute", "no such refusal", code);
    require(STM_PLACE(code) <= len + proof_len, "refute", "no such place", code);
    if (code)
        return;
    same(ASSIGNED, (size_t)n, "refute");
    for (size_t i = 0; i < n; i++)
        require(values[i] == 0, "refute", "leaves values set", values[i]);
    require_answer(answer, refutation, proof_len);
    if (answer[0] == 0)
        require_unsatisfiable(n, words, len);
}
