#define _POSIX_C_SOURCE 200809L
#include "stopping.h"

#include "verdict.h"

#include <signal.h>
#include <unistd.h>

/* What is told, written before each call: a handler may only write it. */
struct standing {
    char *answer; /* for standard output, where the time is up; NULL where there was no memory for it */
    size_t answer_len;
    char told[160]; /* for standard error */
};

/* Two, so that one is whole at any time. */
static struct standing standings[2];
static volatile sig_atomic_t current;
static char time_told[64];

static const int ending[] = {SIGINT, SIGTERM, SIGALRM};
enum { ENDING = sizeof ending / sizeof ending[0] };
static struct sigaction before[ENDING];
static int taken[ENDING]; /* which of them are handled here */

static int put(int to, const char *text, size_t len)
{
    while (len > 0) {
        ssize_t written = write(to, text, len);
        if (written < 0)
            return MISUSED;
        text += written;
        len -= (size_t)written;
    }
    return 0;
}

static void stop(int number)
{
    const struct standing *s = &standings[current];
    if (number == SIGALRM) {
        static const char unwritten[] = "stm: cannot write the answer\n";
        int failed = !s->answer || put(STDOUT_FILENO, s->answer, s->answer_len);
        put(STDERR_FILENO, time_told, strlen(time_told));
        if (failed)
            put(STDERR_FILENO, unwritten, strlen(unwritten));
        _exit(failed ? MISUSED : SPENT);
    }
    put(STDERR_FILENO, s->told, strlen(s->told));
    signal(number, SIG_DFL);
    raise(number);
    /* a handler has its own signal blocked: it comes when this returns */
}

/* A job without a time has its caller's alarm. */
static void take_signals(const struct job *j)
{
    struct sigaction action = {.sa_handler = stop};
    sigfillset(&action.sa_mask);
    for (size_t i = 0; i < ENDING; i++) {
        sigaction(ending[i], NULL, &before[i]);
        taken[i] = ending[i] == SIGALRM ? j->seconds > 0 : before[i].sa_handler != SIG_IGN;
        if (taken[i])
            sigaction(ending[i], &action, NULL);
    }
}

/* The caller may have blocked the signal. */
static void start_time(uint64_t seconds)
{
    sigset_t time_up;
    sigemptyset(&time_up);
    sigaddset(&time_up, SIGALRM);
    sigprocmask(SIG_UNBLOCK, &time_up, NULL);
    alarm((unsigned)seconds);
}

void start_stopping(const struct job *j)
{
    stands_at(j, 0, 0);
    snprintf(time_told, sizeof time_told, "stm: stopped after %" PRIu64 " s\n", j->seconds);
    fflush(stdout);
    take_signals(j);
    if (j->seconds > 0)
        start_time(j->seconds);
}

void is_answered(const struct job *j)
{
    if (j->seconds > 0)
        alarm(0);
}

void end_stopping(void)
{
    for (size_t i = 0; i < ENDING; i++) {
        if (taken[i] && ending[i] == SIGALRM)
            alarm(0);
        if (taken[i])
            sigaction(ending[i], &before[i], NULL);
    }
    for (size_t i = 0; i < 2; i++) {
        free(standings[i].answer);
        standings[i] = (struct standing){.answer = NULL};
    }
}

void stands_at(const struct job *j, uint64_t bound, uint64_t tries)
{
    const uint64_t answer[ANSWER_LEN] = {ANSWER_SPENT, bound, tries};
    sig_atomic_t next = !current;
    struct standing *s = &standings[next];
    free(s->answer);
    s->answer = NULL;
    s->answer_len = 0;
    FILE *out = open_memstream(&s->answer, &s->answer_len);
    if (out) {
        print_spent(out, j, answer, "time");
        int cut = ferror(out);
        if (fclose(out) || cut) {
            free(s->answer);
            s->answer = NULL;
        }
    }
    int len = snprintf(s->told, sizeof s->told, "stm: stopped at bound %" PRIu64 " after %" PRIu64 " tries", bound, tries);
    if (bound > 0)
        snprintf(s->told + len, sizeof s->told - (size_t)len, "; no run of up to %" PRIu64 " choices breaks the property\n", bound - 1);
    else
        snprintf(s->told + len, sizeof s->told - (size_t)len, "\n");
    current = next;
}
