#define _GNU_SOURCE
#include "report.h"

#include "../stm/common.h"
#include "lines.h"
#include "scratch.h"

#include <stdarg.h>
#include <unistd.h>

static FILE *report;
static uint64_t first_seed;
uint64_t calls;
struct seen seen;

/* Calls by name, and how many of them were refused. */
enum { MAX_NAMES = 24 };
static struct tally {
    const char *name;
    uint64_t calls, refused;
} tallies[MAX_NAMES];

int open_report(uint64_t seed)
{
    first_seed = seed;
    report = fdopen(dup(1), "w");
    return report && freopen("/dev/null", "w", stdout) ? 0 : MISUSED;
}

void fault(const char *format, ...)
{
    va_list arguments;
    va_start(arguments, format);
    fprintf(report, "fault, seed %" PRIu64 ", call %" PRIu64 ": ", first_seed, calls);
    vfprintf(report, format, arguments);
    fprintf(report, "; what it read is in %s\n", scratch);
    va_end(arguments);
    fclose(report);
    _exit(1);
}

void require(int true_, const char *call, const char *what, uint64_t code)
{
    if (!true_)
        fault("%s: %s (code %" PRIu64 ")", call, what, code);
}

void count_call(const char *name, int was_refused)
{
    struct tally *t = tallies;
    while (t->name && strcmp(t->name, name))
        t++;
    t->name = name;
    t->calls++;
    t->refused += was_refused != 0;
    calls++;
}

enum { MANY_CALLS = 50000 };

static void require_entries_seen(const char *list)
{
    if (strstr(list, "size") && seen.too_many_variables == 0)
        fault("no call was refused by 19");
    if (strstr(list, "replay") && (seen.guards_read == 0 || seen.guards_read == seen.events_read))
        fault("no guard was read, or one for every event");
    if (seen.pieces_taken == 0 || seen.pieces_refused == 0)
        fault("no piece was taken, or none refused");
    if (strstr(list, "step") && (seen.marks_set == 0 || seen.marks_refused == 0))
        fault("no step set the mark, or no mark was refused");
    if (strstr(list, "refute") && (!seen.refutations_found[0] || !seen.refutations_found[1] || !seen.refutations_found[2]))
        fault("no refutation was accepted, or no clause did not follow, or none ended");
}

static void require_owners_seen(void)
{
    if (!seen.wrong_counts || !seen.owners_refused[8] || !seen.owners_refused[14] || !seen.owners_refused[16])
        fault("a wrong count of owners never came, or no owner was refused by 8, 14 or 16");
    if (!seen.owners_found[0] || !seen.owners_found[1] || !seen.owners_found[2])
        fault("no owner was clean, or none violated, or none spent");
}

static void require_status(const char *what, const uint64_t by_status[EXIT_STATUSES], int status)
{
    if (by_status[status] == 0)
        fault("no %s with exit status %d", what, status);
}

/* Tables that agree, differ, are faulty, and cannot be judged. */
static void require_tables_seen(void)
{
    require_status("stm rows", seen.tables, MISUSED);
    require_status("stm rows", seen.tables, CLEAN);
    require_status("stm rows", seen.tables, NOT_ACCEPTED);
    require_status("stm rows", seen.tables, SPENT);
}

static void require_stm_seen(void)
{
    static const int statuses[] = {CLEAN, NOT_ACCEPTED, MISUSED, REFUSED, VIOLATED, SPENT};
    for (size_t i = 0; i < sizeof statuses / sizeof statuses[0]; i++)
        require_status("call of stm", seen.stm, statuses[i]);
    for (int status = CLEAN; status <= REFUSED; status++)
        require_status("stm refute", seen.proofs, status);
    for (int status = NOT_ACCEPTED; status <= REFUSED; status++)
        require_status("stm decode", seen.models, status);
    require_status("stm decode", seen.models, VIOLATED);
    if (seen.flags_refused == 0)
        fault("no model was refused by 18");
    require_tables_seen();
    if (seen.explained == 0)
        fault("no run was explained");
    if (!seen.wrong_options || !seen.right_options)
        fault("no wrong options were given to stm, or no right ones");
    if (!seen.huge_texts || !seen.inputs)
        fault("stm read no text of some MB, or no standard input");
    if (!seen.texts_read || !seen.texts_refused)
        fault("the readers took no text, or refused none");
}

static void require_all_seen(const char *list)
{
    if (calls < MANY_CALLS)
        return;
    require_entries_seen(list);
    if (strstr(list, "stm"))
        require_stm_seen();
    if (strstr(list, "owners"))
        require_owners_seen();
}

static void report_owners(void)
{
    fprintf(report, "owners clean %" PRIu64 ", violated %" PRIu64 ", spent %" PRIu64, seen.owners_found[0], seen.owners_found[1],
            seen.owners_found[2]);
    fprintf(report, ", refused by 8 %" PRIu64 ", by 14 %" PRIu64 ", by 16 %" PRIu64 "; wrong counts of owners %" PRIu64 "\n",
            seen.owners_refused[8], seen.owners_refused[14], seen.owners_refused[16], seen.wrong_counts);
}

/* Exit statuses that came, and how often. */
static void report_statuses(const char *what, const uint64_t by_status[EXIT_STATUSES])
{
    const char *before = " ";
    fprintf(report, "%s by exit status:", what);
    for (int status = 0; status < EXIT_STATUSES; status++) {
        if (by_status[status] == 0)
            continue;
        fprintf(report, "%s%d %" PRIu64, before, status, by_status[status]);
        before = ", ";
    }
    fprintf(report, "; ");
}

static void report_stm(void)
{
    report_statuses("stm", seen.stm);
    report_statuses("proofs", seen.proofs);
    report_statuses("models", seen.models);
    fprintf(report, "refused by 18 %" PRIu64 "; explained %" PRIu64 "; ", seen.flags_refused, seen.explained);
    report_statuses("tables", seen.tables);
    fprintf(report, "options right %" PRIu64 ", wrong %" PRIu64 "; ", seen.right_options, seen.wrong_options);
    fprintf(report, "from standard input %" PRIu64 "; of some MB %" PRIu64 "; ", seen.inputs, seen.huge_texts);
    fprintf(report, "to the readers: taken %" PRIu64 ", refused %" PRIu64 "\n", seen.texts_read, seen.texts_refused);
}

void close_report(const char *list)
{
    for (const struct tally *t = tallies; t->name; t++)
        fprintf(report, "%s %" PRIu64 ", refused %" PRIu64 "; ", t->name, t->calls, t->refused);
    fprintf(report, "\n");
    require_all_seen(list);
    fprintf(report, "%" PRIu64 " calls, no fault; %" PRIu64 " refused by 19; events read %" PRIu64 ", guards read %" PRIu64 "; ",
            calls, seen.too_many_variables, seen.events_read, seen.guards_read);
    fprintf(report, "%" PRIu64 " pieces, %" PRIu64 " bad ones; ", seen.pieces_taken + seen.pieces_refused, seen.pieces_refused);
    fprintf(report, "marks set %" PRIu64 ", refused %" PRIu64 "\n", seen.marks_set, seen.marks_refused);
    fprintf(report, "refutations accepted %" PRIu64 ", with a clause that does not follow %" PRIu64 ", ended %" PRIu64 "\n",
            seen.refutations_found[0], seen.refutations_found[1], seen.refutations_found[2]);
    report_stm();
    report_owners();
    fclose(report);
}
