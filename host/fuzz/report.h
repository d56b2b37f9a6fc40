/* Faults, requirements, calls by name, and the kinds of answers that were met. */
#ifndef FUZZ_REPORT_H
#define FUZZ_REPORT_H

#include <stdint.h>

/* From here on the report goes where standard output went before; standard output has none of it. 0 where this works. */
int open_report(uint64_t seed);

/* Tells the fault, with the seed and the call at which it comes again, and ends the process. */
void fault(const char *format, ...) __attribute__((format(printf, 1, 2), noreturn));
void require(int true_, const char *call, const char *what, uint64_t code);

extern uint64_t calls;
void count_call(const char *name, int was_refused);

/* More than any exit status of stm. */
enum { EXIT_STATUSES = 32 };

/* How often each kind of answer came. */
struct seen {
    uint64_t too_many_variables, events_read, guards_read, pieces_taken, pieces_refused, marks_set, marks_refused;
    /* owners by what they are told: CLEAN, VIOLATED and SPENT by VERDICT's number for them, the others by the refusal's number */
    uint64_t wrong_counts, owners_found[3], owners_refused[256];
    /* refutations by REFUTE's number for the answer */
    uint64_t refutations_found[3];
    /* the program by its exit status: all commands, and those that read a text */
    uint64_t stm[EXIT_STATUSES], proofs[EXIT_STATUSES], models[EXIT_STATUSES], tables[EXIT_STATUSES];
    /* runs told in words */
    uint64_t explained;
    /* models without a single flag in some frame, refused by 18 */
    uint64_t flags_refused;
    /* calls of the program with wrong options, and with right ones alone; with a text of some MB; with standard input */
    uint64_t wrong_options, right_options, huge_texts, inputs;
    /* texts given to the readers themselves */
    uint64_t texts_read, texts_refused;
};
extern struct seen seen;

/* The end: the calls by name; that in so many calls every kind of answer came, of the operations in the list; and how often each did. */
void close_report(const char *list);

#endif
