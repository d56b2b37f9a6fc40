/* stm: the matrix checker on the command line. It lends its own memory to the operations and prints what they answer. Worked out here
 * are only what --explain adds, how rows agree with our tables, whether the property of a trace holds behind its first break where
 * HOLDS does not tell (trace.c), and the tries of a single bound (bounds.c). This file: the command, its words and its options. */
#include "command.h"

#include "help.h"

#include <errno.h>

/* The longest time that can be set, in seconds: over thirty years. */
static const uint64_t MAX_SECONDS = 1000000000;

const struct command commands[] = {
    {"check", "FILE", 1, 1, JSON, 1, run_check},
    {"replay", "FILE PROPERTY CHOICES", 3, 3, PIECE | EXPLAIN | JSON, 1, run_replay},
    {"size", "FILE PROPERTY BOUND", 3, 3, PIECE | JSON, 1, run_size},
    {"cnf", "FILE PROPERTY BOUND", 3, 3, PIECE, 1, run_cnf},
    {"verdict", "FILE PROPERTY BOUND [BUDGET]", 3, 4, PIECE | PROGRESS | STATS | TIME | JSON, 1, run_verdict},
    {"refute", "FILE PROPERTY BOUND PROOF", 4, 4, PIECE, 1, run_refute},
    {"decode", "FILE PROPERTY BOUND MODEL", 4, 4, PIECE | EXPLAIN, 1, run_decode},
    {"owners", "FILE BOUND PIECEFILE[:BUDGET]..", 2, MANY, 0, 1, run_owners},
    {"rows", "RESULTS.csv", 1, 1, DESIGNS | JSON, 0, run_rows},
};
const size_t commands_len = sizeof commands / sizeof commands[0];

const struct option options[] = {
    {"--piece", PIECE, "PIECEFILE"}, {"--explain", EXPLAIN, NULL}, {"--progress", PROGRESS, NULL}, {"--stats", STATS, NULL},
    {"--time", TIME, "SECONDS"},     {"--designs", DESIGNS, "FOLDER"}, {"--json", JSON, NULL},
};
const size_t options_len = sizeof options / sizeof options[0];

static const struct command *find_command(const char *name)
{
    for (size_t i = 0; i < commands_len; i++)
        if (strcmp(commands[i].name, name) == 0)
            return &commands[i];
    return NULL;
}

static const struct option *find_option(const char *name)
{
    for (size_t i = 0; i < options_len; i++)
        if (strcmp(options[i].name, name) == 0)
            return &options[i];
    return NULL;
}

int read_property(struct job *j, const char *text)
{
    return read_number(text, UINT64_MAX, &j->property);
}

int read_bound(struct job *j, const char *text)
{
    return read_number(text, UINT64_MAX, &j->bound);
}

int read_property_bound(struct job *j, char **words)
{
    int failed = read_property(j, words[1]);
    return failed ? failed : read_bound(j, words[2]);
}

static int read_time(struct job *j, const char *text)
{
    int failed = read_number(text, MAX_SECONDS, &j->seconds);
    if (!failed && j->seconds == 0)
        failed = misuse("--time takes at least 1 second");
    return failed;
}

static int set_option(struct job *j, unsigned option, const char *value)
{
    switch (option) {
    case PIECE:
        j->piece_path = value;
        return 0;
    case TIME:
        return read_time(j, value);
    case DESIGNS:
        j->designs = value;
        return 0;
    case EXPLAIN:
        j->explain = 1;
        return 0;
    case PROGRESS:
        j->progress = 1;
        return 0;
    case STATS:
        j->stats = 1;
        return 0;
    default:
        j->json = 1;
        return 0;
    }
}

/* The option at argv[*i], and its value behind it. */
static int take_option(struct job *j, const struct command *c, int argc, char **argv, int *i, unsigned *seen)
{
    const struct option *o = find_option(argv[*i]);
    if (!o)
        return misuse("unknown option: %s; stm --help lists them", argv[*i]);
    if (!(c->options & o->bit))
        return misuse("%s takes no %s", c->name, o->name);
    if (*seen & o->bit)
        return misuse("%s stands twice", o->name);
    *seen |= o->bit;
    if (o->value && ++*i == argc)
        return misuse("%s needs %s", o->name, o->value);
    return set_option(j, o->bit, o->value ? argv[*i] : NULL);
}

/* Takes the options out of what stands after the command's name; all is words after --. Answers their number in *count. */
static int take_options(struct job *j, const struct command *c, int argc, char **argv, int *count)
{
    unsigned seen = 0;
    int ended = 0, failed = 0;
    *count = 0;
    for (int i = 0; i < argc && !failed; i++) {
        if (!ended && strcmp(argv[i], "--") == 0)
            ended = 1;
        else if (!ended && strncmp(argv[i], "--", 2) == 0)
            failed = take_option(j, c, argc, argv, &i, &seen);
        else
            argv[(*count)++] = argv[i];
    }
    if (!failed && j->explain && j->json)
        failed = misuse("--explain and --json do not go together");
    return failed;
}

static int run(const struct command *c, int argc, char **argv)
{
    static struct job j;
    int count;
    j = (struct job){.command = c->name, .budget = UINT64_MAX};
    int failed = take_options(&j, c, argc, argv, &count);
    if (failed)
        return failed;
    if (count < c->least || count > c->most)
        return misuse("usage: stm %s %s; stm --help tells more", c->name, c->words);
    if (c->reads_design) {
        j.path = argv[0];
        failed = read_bytes(&j, j.path, j.design, &j.len);
    }
    if (!failed && j.piece_path)
        failed = read_bytes(&j, j.piece_path, j.piece, &j.piece_len);
    return failed ? failed : c->run(&j, count, argv);
}

/* --help and --version stand in the place of a command, --help also among its words. */
static int asks_for_help(int argc, char **argv)
{
    for (int i = 1; i < argc && strcmp(argv[i], "--"); i++)
        if (strcmp(argv[i], "--help") == 0)
            return 1;
    return 0;
}

static int dispatch(int argc, char **argv)
{
    if (argc < 2)
        return misuse("no command is named; stm --help lists them");
    if (asks_for_help(argc, argv)) {
        print_help();
        return CLEAN;
    }
    if (strcmp(argv[1], "--version") == 0) {
        if (argc > 2)
            return misuse("--version takes no words");
        print_version();
        return CLEAN;
    }
    const struct command *c = find_command(argv[1]);
    return c ? run(c, argc - 2, argv + 2) : misuse("unknown command: %s; stm --help lists them", argv[1]);
}

int stm_main(int argc, char **argv)
{
    int status = dispatch(argc, argv);
    if (fflush(stdout) || ferror(stdout))
        return misuse("cannot write: %s", strerror(errno));
    return status;
}
