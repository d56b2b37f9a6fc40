/* The calls on a formula: SIZE, ENCODE and DECODE. */
#include "formulas.h"

#include "designs.h"
#include "memory.h"
#include "operations.h"
#include "pieces.h"
#include "random.h"
#include "refusals.h"
#include "report.h"

int sizes_of(uint64_t property, uint64_t bound, uint64_t sizes[SIZE_LEN])
{
    uint64_t *answer = lent(ANSWER, SIZE_LEN * sizeof *answer);
    keep(ANSWER);
    uint64_t code = stm_size(design, design_len, piece, piece_len, property, bound, answer);
    ended("size", code, SET(DESIGN) | SET(PIECE), SET(ANSWER));
    require(code == formula_refusal(property, bound), "size", "not the first refusal", code);
    if (code == 0)
        memcpy(sizes, answer, SIZE_LEN * sizeof *answer);
    return code == 0;
}

uint64_t affordable(uint64_t property, uint64_t bound, uint64_t most, uint64_t sizes[SIZE_LEN])
{
    while (sizes_of(property, bound, sizes) && bound > 0 && sizes[SIZE_VARIABLES] * sizes[SIZE_WORDS] > most)
        bound--;
    return bound;
}

void call_size(void)
{
    uint64_t sizes[SIZE_LEN];
    if (!sizes_of(any_property(), any_bound(), sizes))
        return;
    int fits_limits = sizes[SIZE_MOVERS] >= 1 && sizes[SIZE_MOVERS] <= 64 && sizes[SIZE_VARIABLES] <= STM_MAX_VARIABLES;
    require(fits_limits, "size", "out of range", sizes[SIZE_VARIABLES]);
}

/* One part into memory of some length. Answers the words written. */
static uint64_t encode(uint64_t property, uint64_t bound, uint64_t part, size_t len)
{
    int32_t *clauses = lent(CLAUSES, len * sizeof *clauses);
    uint64_t *answer = lent(ANSWER, sizeof *answer);
    keep_all(SET(CLAUSES) | SET(ANSWER));
    uint64_t code = stm_encode(design, design_len, piece, piece_len, property, bound, part, clauses, len, answer);
    ended("encode", code, SET(DESIGN) | SET(PIECE), SET(CLAUSES) | SET(ANSWER));
    uint64_t first = formula_refusal(property, bound);
    first = first ? first : part > bound + 2 ? 15 : 0;
    require(first ? code == first : code == 0 || code == 16, "encode", "not the first refusal", code);
    if (code)
        return 0;
    require(answer[0] >= 1 || part == bound + 1, "encode", "an empty part", answer[0]);
    require(answer[0] <= len && (answer[0] == 0 || clauses[answer[0] - 1] == 0), "encode", "no closing 0", answer[0]);
    same(CLAUSES, (size_t)answer[0] * sizeof *clauses, "encode");
    return answer[0];
}

void call_encode(void)
{
    uint64_t property = any_property(), bound = any_bound(), last = choices_for(bound) + 2;
    uint64_t part = chance(80) ? below((size_t)last + 1) : PICK(last + 1, 255, 256, (uint64_t)1 << 32, UINT64_MAX);
    encode(property, bound, part, below(chance(50) ? 2000 : 40000));
}

/* Every part into memory that just suffices, and into memory short by one word. */
void call_parts(void)
{
    uint64_t property = below((size_t)last_property() + 1), bound = below(3), sizes[SIZE_LEN], total = 0;
    if (!sizes_of(property, bound, sizes) || sizes[SIZE_WORDS] > MAX_WORDS / 8)
        return;
    for (uint64_t part = 0; part <= bound + 2; part++) {
        size_t words = (size_t)encode(property, bound, part, (size_t)sizes[SIZE_WORDS]);
        require(encode(property, bound, part, words) == words, "encode", "another length", words);
        require(words == 0 || encode(property, bound, part, words - 1) == 0, "encode", "short memory is not refused", words);
        total += words;
    }
    require(total == sizes[SIZE_WORDS], "encode", "not SIZE's words", total);
}

void put_flags(const uint64_t sizes[SIZE_LEN], uint64_t bound, unsigned right, uint8_t *values, size_t len)
{
    for (size_t j = 0; j < bound; j++) {
        size_t at = (size_t)flags_of(sizes, j) - 1 + below((size_t)sizes[SIZE_MOVERS]);
        if (at < len)
            values[at] = chance(right) ? 1 : (uint8_t)PICK(0, 2, 255);
    }
}

/* A few frames' worth of values, of which some are flags. */
void call_decode(void)
{
    uint64_t property = any_property(), bound = any_bound(), sizes[SIZE_LEN] = {0};
    int known = sizes_of(property, bound, sizes);
    size_t n = sizes[SIZE_VARIABLES] > 60000 ? 60000 : (size_t)sizes[SIZE_VARIABLES];
    size_t values_len = near(n), choices_len = near(choices_for(bound));
    uint8_t *values = lent(ASSIGNED, values_len);
    memset(values, 0, values_len);
    if (known)
        put_flags(sizes, bound, 97, values, values_len);
    uint8_t *choices = lent(CHOICES, choices_len);
    keep_all(SET(ASSIGNED) | SET(CHOICES));
    uint64_t code = stm_decode(design, design_len, piece, piece_len, property, bound, values, values_len, choices, choices_len);
    ended("decode", code, SET(DESIGN) | SET(PIECE) | SET(ASSIGNED), SET(CHOICES));
    uint64_t refusal = formula_refusal(property, bound);
    int short_ = values_len < sizes[SIZE_VARIABLES] || choices_len < bound;
    refusal = refusal ? refusal : short_ ? 16 : 0;
    require(refusal ? code == refusal : code == 0 || STM_NUMBER(code) == 18, "decode", "not the first refusal", code);
    if (code)
        return;
    same(CHOICES, bound, "decode");
    for (size_t j = 0; j < bound; j++)
        require(choices[j] < sizes[SIZE_MOVERS], "decode", "no such mover", choices[j]);
}
