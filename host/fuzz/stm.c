/* The program in this process. */
#include "../stm/commands.h"
#include "../stm/explain.h"
#include "designs.h"
#include "lines.h"
#include "operations.h"
#include "pieces.h"
#include "random.h"
#include "report.h"
#include "scratch.h"

/* Whether the word is the path of a file that the program reads, and can read from standard input. */
static int is_input(const char *word)
{
    static const int inputs[] = {DESIGN_FILE, PROOF_FILE, MODEL_FILE, TABLE_FILE};
    for (size_t i = 0; i < sizeof inputs / sizeof inputs[0]; i++)
        if (strcmp(word, scratch_paths[inputs[i]]) == 0)
            return 1;
    return 0;
}

/* Puts - in the place of a file, and the file on standard input; now and then of all files, of which only one can be there. Answers
 * whether standard input was given. */
static int put_input(struct line *l)
{
    int count = 0, twice = chance(30);
    for (int i = 2; i < l->count; i++) {
        if (!is_input(l->words[i]) || (count && !twice))
            continue;
        if (count++ == 0)
            give_input(l->words[i]);
        strcpy(l->words[i], "-");
    }
    /* a refusal may be told before the second is read */
    if (count > 1 && l->allowed != STATUS(CLEAN))
        l->allowed = STATUS(MISUSED) | STATUS(REFUSED);
    seen.inputs += count > 0;
    return count > 0;
}

/* Whether a run is printed, in words. */
static int is_explained(const struct line *l, int status)
{
    int asked = 0;
    for (int i = 2; i < l->count; i++)
        asked |= strcmp(l->words[i], "--explain") == 0;
    return asked && status != MISUSED && status != REFUSED;
}

static void count_status(const struct line *l, int status)
{
    const char *command = l->count > 1 ? l->words[1] : "";
    if (status < 0 || status >= EXIT_STATUSES)
        fault("stm %s: no exit status: %d", command, status);
    seen.stm[status]++;
    if (l->helps)
        return;
    if (strcmp(command, "refute") == 0)
        seen.proofs[status]++;
    if (strcmp(command, "decode") == 0)
        seen.models[status]++;
    seen.explained += is_explained(l, status) != 0;
    seen.flags_refused += l->has_formula && status == REFUSED;
    if (strcmp(command, "rows") == 0)
        seen.tables[status]++;
}

/* The program may write into its words, and reorders them: it has a copy of the pointers. */
static int run(const struct line *l)
{
    char *argv[MAX_ARGS + 1] = {NULL};
    memcpy(argv, l->words, (size_t)l->count * sizeof *argv);
    return stm_main(l->count, argv);
}

/* The line, for a fault. */
static void join_words(const struct line *l, char *text, size_t len)
{
    size_t at = 0;
    text[0] = '\0';
    for (int i = 0; i < l->count && at < len; i++)
        at += (size_t)snprintf(text + at, len - at, " %.100s", l->words[i]);
}

/* Faults that only the line shows: another exit status, and an explanation of a run that is wrong. */
static void check_run(const struct line *l, int status)
{
    char text[2000];
    int allowed = l->allowed >> status & 1;
    if (allowed && !disagreements)
        return;
    join_words(l, text, sizeof text);
    if (!allowed)
        fault("another exit status: %d, not of the set %" PRIx64 ":%s", status, l->allowed, text);
    fault("an explanation that disagrees:%s", text);
}

void call_stm(void)
{
    struct line l = {.count = 0};
    make_command(&l);
    write_file(scratch_paths[DESIGN_FILE], design, design_len);
    write_file(scratch_paths[PIECE_FILE], piece, piece_len);
    put_options(&l);
    int has_input = chance(10) && put_input(&l);
    int status = run(&l);
    count_call("stm", status == REFUSED);
    count_status(&l, status);
    check_run(&l, status);
    if (has_input)
        give_input("/dev/null");
    end_rows();
    free_words(&l);
}
