/* `stm refute`, and proofs in DRAT text. */
#include "designs.h"
#include "formulas.h"
#include "lines.h"
#include "memory.h"
#include "random.h"
#include "refusals.h"
#include "report.h"
#include "scratch.h"
#include "texts.h"

void make_proof(void)
{
    static const char *const lines[] = {
        "0\n", "0\n", "1 0\n", "1 -1 0\n", "2 -2 3 0\n", "2 3 -4 0\n", "d 1 0\n", "d 0\n", "c 1\n", "\n", " 1\t0 \r\n", "-9 0\n",
        "d 2147483647 0\n", "x\n", "1\n", "d\n", "0 0\n", "-\n", "-0 0\n", "2147483648 0\n", "-2147483649 0\n",
        "-2147483648 0\n", "2147483647 0\n", "a\n", "c",
    };
    enum { GOOD = 13, MAX_LINES = 24, MANY_LINES = 3000 };
    int is_long = chance(3);
    size_t kinds = is_long || chance(60) ? GOOD : sizeof lines / sizeof lines[0];
    start_text();
    for (size_t count = below(is_long ? MANY_LINES : MAX_LINES); count > 0; count--)
        add("%s", lines[below(kinds)]);
    for (size_t count = chance(15) ? 1 + below(3) : 0; count > 0; count--)
        damage_text();
    if (chance(10))
        cut_text(below(text_len() + 1));
}

/* The proof is read before anything is refused. */
void make_refute(struct line *l)
{
    uint64_t property, bound;
    int is_short = chance(50) ? add_asked(l, MAX_WORDS, UINT64_MAX, &property, &bound)
                              : add_likely(l, MAX_WORDS, 2 * MAX_SEARCH, &property, &bound);
    if (!is_short) {
        change_word(l, 1, "size");
        narrow(l, STATUS(formula_refusal(property, bound) ? REFUSED : CLEAN));
        return;
    }
    make_proof();
    swell_text();
    save_text(scratch_paths[PROOF_FILE]);
    add_word(l, scratch_paths[PROOF_FILE]);
    if (formula_refusal(property, bound))
        narrow(l, STATUS(MISUSED) | STATUS(REFUSED));
}
