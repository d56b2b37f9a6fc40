/* The commands. `words` are those that stand after the command's name, without options: as many as the command takes. What a command
 * works on has been read already: the design, and the piece where there is one. Each answers the exit status. */
#ifndef STM_COMMANDS_H
#define STM_COMMANDS_H

#include "common.h"

typedef int run_command(struct job *j, int count, char **words);

run_command run_check, run_replay, run_size, run_cnf, run_verdict, run_refute, run_decode, run_owners, run_rows;

/* The words PROPERTY and BOUND, and both behind FILE. */
int read_property(struct job *j, const char *text);
int read_bound(struct job *j, const char *text);
int read_property_bound(struct job *j, char **words);

/* What VERDICT answers: the verdict, the step or the bound, the tries. */
enum { ANSWER_VERDICT, ANSWER_AT, ANSWER_TRIES, ANSWER_LEN };
enum { ANSWER_CLEAN, ANSWER_VIOLATED, ANSWER_SPENT, ANSWER_VERDICTS };

/* The verdicts' names. */
extern const char *const verdicts[ANSWER_VERDICTS];

/* The verdict, where it is VIOLATED with the choices and the trace. */
int print_verdict(struct job *j, const uint64_t answer[ANSWER_LEN]);

/* The program, but for its name: also what the fuzzer calls. */
int stm_main(int argc, char **argv);

#endif
