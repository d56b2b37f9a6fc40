/* The table of commands and that of options, from which the help is printed, too. */
#ifndef STM_COMMAND_H
#define STM_COMMAND_H

#include "commands.h"

/* Options, as a set. */
enum { PIECE = 1, EXPLAIN = 2, PROGRESS = 4, STATS = 8, TIME = 16, DESIGNS = 32, JSON = 64 };

/* More words than any call has. */
enum { MANY = 1 << 20 };

struct command {
    const char *name;
    const char *words; /* those that stand after the name, for the help */
    int least, most;   /* how many they are */
    unsigned options;  /* those that it takes */
    int reads_design;  /* whether the first word is a design */
    run_command *run;
};

struct option {
    const char *name;
    unsigned bit;
    const char *value; /* what stands behind it, or NULL */
};

extern const struct command commands[];
extern const size_t commands_len;
extern const struct option options[];
extern const size_t options_len;

#endif
