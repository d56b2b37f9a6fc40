#include "formula.h"

uint64_t sizes_for(const struct job *j, uint64_t bound, uint64_t sizes[SIZE_LEN])
{
    return stm_size(j->design, j->len, j->piece, j->piece_len, j->property, bound, sizes);
}

uint64_t frame_of(const uint64_t sizes[SIZE_LEN])
{
    return sizes[SIZE_STATE] + sizes[SIZE_PROPERTY] + sizes[SIZE_MOVERS] + sizes[SIZE_STEP];
}

uint64_t flags_of(const uint64_t sizes[SIZE_LEN], uint64_t frame)
{
    return 2 + frame * frame_of(sizes) + sizes[SIZE_STATE] + sizes[SIZE_PROPERTY];
}

uint64_t put_parts(const struct job *j, const uint64_t sizes[SIZE_LEN], uint64_t bound, int32_t *clauses, size_t *at)
{
    size_t len = (size_t)sizes[SIZE_WORDS];
    uint64_t code = 0;
    *at = 0;
    for (uint64_t part = 0; !code && part <= bound + 2; part++) {
        uint64_t count[1] = {0};
        code = stm_encode(j->design, j->len, j->piece, j->piece_len, j->property, bound, part, clauses + *at, len - *at, count);
        *at += (size_t)count[0];
    }
    return code;
}
