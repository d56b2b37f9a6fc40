#include "help.h"

#include "command.h"

/* The archive that is linked: the digest of its file, which the build writes, and a symbol that only the second implementation's
 * archive has. So a program over that one cannot pass for the proved one, however it was linked. */
extern const char stm_archive_sha256[];
extern const unsigned char stm_second_implementation __attribute__((weak));

static const char ABOUT[] =
    "\n"
    "FILE is a design; - in the place of any one file is standard input; BOUND is 0 to 100; CHOICES as 2,0,1, or - for none.\n"
    "PROPERTY: 0 the invariant, 1 no invalid cell is met, 2 the constraint of a design of version 2.\n"
    "\n"
    "check    whether the design is accepted\n"
    "replay   the run of these choices, whether it breaks the property, and the events and guards that were read\n"
    "size     the sizes of the formula: S, P, w, G, n, clauses, words\n"
    "cnf      the formula as DIMACS, for other solvers\n"
    "verdict  whether a run of at most BOUND choices breaks the property; BUDGET limits the tries\n"
    "refute   whether a proof (DRAT text, as cadical --no-binary writes) shows that no run within the bound breaks the property\n"
    "decode   the run that another solver's model names (its v lines, or minisat's file), replayed\n"
    "owners   the verdicts on the pieces of one to four owners, each with a budget of its own; an empty PIECEFILE is the invariant\n"
    "rows     another tool's table, judged row by row: file,property,bound,verdict,step,choices,proof (from step on optional)\n"
    "\n"
    "--piece PIECEFILE   its expression is property 0 in the invariant's place\n"
    "--explain           each step in words; not with --json\n"
    "--progress          a line for each bound on standard error; on a terminal also without it, where 1,000 tries are not enough\n"
    "--stats             each bound's variables, clauses, tries and time\n"
    "--time SECONDS      stops then, with status 30\n"
    "--designs FOLDER    where the designs and the reference rows are\n"
    "--json              one object a line\n"
    "\n"
    "Standard output has the answer; refusals (but an owner's), misuse and progress go to standard error.\n"
    "exit status: 0 clean, accepted, done, or all rows agree; 10 violated; 30 spent, or some rows not judged;\n"
    "             1 a proof or a model is not accepted, or a row differs; 2 misused, or a bad row; 3 refused;\n"
    "             of several owners the first of 10, 3, 30 that one of them has, of rows the first of 2, 1, 30\n";

void print_help(void)
{
    for (size_t i = 0; i < commands_len; i++) {
        printf("%s stm %s %s", i ? "      " : "usage:", commands[i].name, commands[i].words);
        for (size_t k = 0; k < options_len; k++)
            if (commands[i].options & options[k].bit)
                printf(" [%s%s%s]", options[k].name, options[k].value ? " " : "", options[k].value ? options[k].value : "");
        printf("\n");
    }
    printf("       stm --help, stm --version\n%s", ABOUT);
}

void print_version(void)
{
    const char *archive = &stm_second_implementation ? "second implementation" : "proved";
    printf("stm %s\narchive: %s, sha256 %s\n", STM_VERSION, archive, stm_archive_sha256);
    printf("covers: document 01 and requests R-1 to R-%s of document 02\n", STM_REQUESTS);
}
