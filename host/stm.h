/* The matrix checker's operations, for C. The archive is crates/entries/out/libentries.a, installed as libstm.a.
 *
 * A slice is passed as a pointer and the number of its elements. No pointer is null, also where the number is 0. An array
 * parameter such as answer[2] is a pointer to that many elements. Memory lent to one call does not overlap.
 *
 * An operation returns 0 where it is not refused. Else the low byte of what it returns is the refusal's number and the rest
 * its place, and no lent memory has changed: answer, answers, idle and holds, too, are as they were. A place of 2^56 - 1 or more is
 * told as 2^56 - 1. Every length and content is allowed: nothing has to be tested before a call.
 * A design is the bytes of a design file, of version 1 or 2. A property is 0 for the invariant, 1 for "no invalid cell is met",
 * and for a design of version 2 also 2 for its constraint over two successive states; a bound is 0 to 100. A greater one is
 * refused. Refusals are listed in the order of their tests.
 *
 * A state has a mark beside its values and statuses: 0 at the start, and 1 from the step on in which a sum, difference or product of
 * a statement or condition that was carried out had an exact value outside -32,768 to 32,767. The value wraps all the same. Sums in
 * guards, events and properties wrap without a mark. Where the mark is 1 every property is false; of property 2 the later state's
 * mark decides.
 *
 * A piece is a property kept outside the design. With property 0, a piece of any bytes stands in the place of the file's
 * invariant: one Boolean expression that fills its length, at most 16,384 bytes, over the design's variables and matrices,
 * without the operators that read the next state. Else the call is refused by 8 at place 0, of several owners that owner
 * alone. An empty piece is none: property 0 is then the file's invariant. With any other property the piece is not read,
 * whatever it holds.
 */
#ifndef STM_H
#define STM_H

#include <stddef.h>
#include <stdint.h>

/* The requests of document 02 that are in force are R-1 to this one; the version counts them. */
#define STM_REQUESTS "8"
#define STM_VERSION "0." STM_REQUESTS

/* The number and the place of a refusal. */
#define STM_NUMBER(code) ((unsigned)((code) & 255u))
#define STM_PLACE(code) ((uint64_t)((code) >> 8))

/* A state: the variables' values and the matrices' statuses, 0 where there is none, and the mark. Refusal 11 tells the first entry that
 * does not fit: values from place 0, statuses from place 32, and last the mark, which is 0 or 1, at place 40. */
#define STM_VALUES 32
#define STM_STATUSES 8
#define STM_MARK_PLACE (STM_VALUES + STM_STATUSES)

/* The most variables of a formula: a literal is an int32_t. */
#define STM_MAX_VARIABLES INT32_MAX

/* CHECK: refusals 1 to 10. Every other call on a design has these first. */
uint64_t stm_check(const uint8_t *design, size_t design_len);

/* START: writes the first state, whose mark is 0. */
uint64_t stm_start(const uint8_t *design, size_t design_len, int16_t values[STM_VALUES], uint16_t statuses[STM_STATUSES],
                   uint16_t mark[1]);

/* STEP: 11, 12. Replaces the state, mark included, by the next one; a mark of 1 stays. idle[0] is 1 where the choice was disabled,
 * else 0. */
uint64_t stm_step(const uint8_t *design, size_t design_len, int16_t values[STM_VALUES], uint16_t statuses[STM_STATUSES],
                  uint16_t mark[1], uint64_t choice, uint8_t idle[1]);

/* HOLDS: 11, 13. It takes no piece. holds[0] is 1 where the property is true in the state, else 0, and so where the mark is 1. One
 * state does not decide a constraint: property 2 is refused by 13 for every design. */
uint64_t stm_holds(const uint8_t *design, size_t design_len, const int16_t values[STM_VALUES],
                   const uint16_t statuses[STM_STATUSES], uint16_t mark, uint64_t property, uint8_t holds[1]);

/* REPLAY: 13, 8 for the piece, 14, 12. A choice is a byte. answer[0] is 1 where the choices break the property, and answer[1] the
 * first step that does; else both are 0. Property 2 breaks at step 1 or later, since step 0 has no state before it. answer[2] is
 * the events read: the choices of normal cells whose status stood. answer[3] is the guards read: those of them whose event was
 * true, also where the cell has no guard. All choices count, past a break too. */
uint64_t stm_replay(const uint8_t *design, size_t design_len, const uint8_t *piece, size_t piece_len, uint64_t property,
                    const uint8_t *choices, size_t choices_len, uint64_t answer[4]);

/* SIZE: 13, 8 for the piece, 14, 19 where n is over STM_MAX_VARIABLES. answer is S, P, w, G, n, clauses, words. For property 2 P
 * is 0, and its gates are in G. */
uint64_t stm_size(const uint8_t *design, size_t design_len, const uint8_t *piece, size_t piece_len, uint64_t property,
                  uint64_t bound, uint64_t answer[7]);

/* ENCODE: 13, 8 for the piece, 14, 19, 15, 16. Writes the words of one part; answer[0] is their number. */
uint64_t stm_encode(const uint8_t *design, size_t design_len, const uint8_t *piece, size_t piece_len, uint64_t property,
                    uint64_t bound, uint64_t part, int32_t *clauses, size_t clauses_len, uint64_t answer[1]);

/* SOLVE: 17, 16. answer[0] is 0 for SAT, 1 for UNSAT, 2 for SPENT; answer[1] is the tries. The first n values are then 0 or 1
 * on SAT, else 0, and the first n trail words 0; the rest is kept. */
uint64_t stm_solve(uint64_t n, const int32_t *words, size_t words_len, uint8_t *values, size_t values_len, uint32_t *trail,
                   size_t trail_len, uint64_t budget, uint64_t answer[2]);

/* REFUTE: 17, 16. Reads a clause list over n variables and a refutation of it in the same form. A clause of the refutation
 * follows if it holds a literal and its negation, or if, with all its literals set false, the search's unit setting over the
 * list and the earlier clauses of the refutation reaches a clause all false. Reading ends at the first empty clause that
 * follows; what is accepted has no satisfying assignment. 17 tests all of the list, then all of the refutation, whose places
 * count on from words_len. answer[0] is 0 where the refutation is accepted, 1 where a clause of it does not follow, and
 * answer[1] then the word of the refutation at which the first such clause begins, 2 where it ended without an empty clause;
 * answer[1] is else 0. The first n values are 0 after every answer, the rest is kept. */
uint64_t stm_refute(uint64_t n, const int32_t *words, size_t words_len, const int32_t *refutation, size_t refutation_len,
                    uint8_t *values, size_t values_len, uint64_t answer[2]);

/* DECODE: 13, 8 for the piece, 14, 19, 16, 18. Writes `bound` choices and keeps the rest. */
uint64_t stm_decode(const uint8_t *design, size_t design_len, const uint8_t *piece, size_t piece_len, uint64_t property,
                    uint64_t bound, const uint8_t *values, size_t values_len, uint8_t *choices, size_t choices_len);

/* VERDICT: 13, 8 for the piece, 14, then 19 and 16 for its own bound. answer[0] is 0 for CLEAN, 1 for VIOLATED, 2 for SPENT;
 * answer[1] the step that breaks, or the bound that was spent, else 0; answer[2] the tries. On VIOLATED the first answer[1]
 * choices are written. */
uint64_t stm_verdict(const uint8_t *design, size_t design_len, const uint8_t *piece, size_t piece_len, uint64_t property,
                     uint64_t bound, uint64_t budget, int32_t *clauses, size_t clauses_len, uint8_t *values, size_t values_len,
                     uint32_t *trail, size_t trail_len, uint8_t *choices, size_t choices_len, uint64_t answer[3]);

/* The most owners of one call, one owner's piece, and one owner's choice buffer. */
#define STM_OWNERS 4
struct stm_piece {
    const uint8_t *bytes;
    size_t len;
};
struct stm_choices {
    uint8_t *choices;
    size_t len;
};

/* OWNERS, several owners on one design: 20 where `owners` is 0 or over STM_OWNERS, straight after CHECK's refusals; nothing else
 * refuses the whole call. It is each owner's VERDICT on property 0, with a piece, a budget and a choice buffer of its own, and with one
 * memory for the clauses, values and trail of all.
 *
 * answers[i] is what owner i is told, as by VERDICT alone with memory of these lengths and these old choices: the number and the place
 * of its own refusal (8 for its piece, 14, 19, 16), or 0 and 0; then the three numbers of VERDICT's answer, which are 0 where the
 * owner is refused. Its choices are written as by VERDICT. Nothing of this depends on the others' pieces, budgets and choices, or on
 * what the shared memory held.
 *
 * When the call ends, the clause words, values and trail words that any owner used are 0: those of the last formula that it tried,
 * and none of an owner who was refused. What stands behind them is kept.
 *
 * Only the first `owners` places of the four arrays are used; the answers and choices of the other places are kept. Their pointers
 * are not null either; with length 0 any pointer that is not null will do. The array `choices` itself, of pointers and lengths, is
 * never changed. */
uint64_t stm_owners(const uint8_t *design, size_t design_len, uint64_t bound, uint64_t owners,
                    const struct stm_piece pieces[STM_OWNERS], const uint64_t budgets[STM_OWNERS], int32_t *clauses,
                    size_t clauses_len, uint8_t *values, size_t values_len, uint32_t *trail, size_t trail_len,
                    struct stm_choices choices[STM_OWNERS], uint64_t answers[STM_OWNERS][5]);

#endif
