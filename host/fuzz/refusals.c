#include "refusals.h"

#include "../stm/formula.h"
#include "designs.h"
#include "pieces.h"
#include "random.h"
#include "report.h"

uint64_t last_property(void)
{
    return tail_len(design, design_len) == 18 ? 2 : 1;
}

uint64_t first_refusal(uint64_t property, uint64_t bound)
{
    if (design_code || property > last_property())
        return design_code ? design_code : 13;
    if (property == INVARIANT && piece_code)
        return piece_code;
    return bound > MAX_BOUND ? 14 : 0;
}

/* Whether the formula has too many variables, counted from the frames: SIZE at bound 0 tells their parts and is never refused for
 * this. */
static int over_limit(uint64_t property, uint64_t bound)
{
    uint64_t sizes[SIZE_LEN] = {0};
    uint64_t code = stm_size(design, design_len, piece, piece_len, property, 0, sizes);
    require(code == 0, "size", "bound 0 is refused", code);
    return 1 + bound * frame_of(sizes) + sizes[SIZE_STATE] + sizes[SIZE_PROPERTY] > STM_MAX_VARIABLES;
}

uint64_t formula_refusal(uint64_t property, uint64_t bound)
{
    uint64_t first = first_refusal(property, bound);
    return first ? first : over_limit(property, bound) ? 19 : 0;
}

uint64_t any_property(void)
{
    return chance(5) ? over_a_byte() : chance(15) ? PICK(2, 2, 3, 255) : below((size_t)last_property() + 1);
}

uint64_t any_bound(void)
{
    return chance(5) ? over_a_byte() : PICK(0, 0, 1, 1, 2, 2, 3, 4, 5, 99, 100, 101, 255);
}

size_t choices_for(uint64_t bound)
{
    return bound > 255 ? 255 : (size_t)bound;
}
