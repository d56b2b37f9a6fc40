/* stm owners FILE BOUND PIECEFILE[:BUDGET].. */
#include "commands.h"
#include "formula.h"
#include "text.h"

/* The parts of an owner's answer: the refusal's number and place, and from OWNER_VERDICT on what VERDICT answers. */
enum { OWNER_NUMBER, OWNER_PLACE, OWNER_VERDICT, OWNER_LEN = 5 };

/* The owners' places. The count may be higher than there are places; the call refuses that. */
struct owners {
    uint64_t count;
    size_t used;
    const char *names[STM_OWNERS];
    uint8_t bytes[STM_OWNERS][MAX_READ];
    uint8_t written[STM_OWNERS][MAX_CHOICES];
    struct stm_piece pieces[STM_OWNERS];
    uint64_t budgets[STM_OWNERS];
    struct stm_choices choices[STM_OWNERS];
    uint64_t answers[STM_OWNERS][OWNER_LEN];
};

/* PIECEFILE or PIECEFILE:BUDGET: what follows the last colon is a budget where it is digits alone. No file is no piece. */
static int read_owner(struct job *j, char *text, struct owners *o, size_t i)
{
    char *colon = strrchr(text, ':');
    o->budgets[i] = UINT64_MAX;
    if (colon && colon[1] && strspn(colon + 1, "0123456789") == strlen(colon + 1)) {
        int failed = read_number(colon + 1, UINT64_MAX, &o->budgets[i]);
        if (failed)
            return failed;
        *colon = '\0';
    }
    o->names[i] = text;
    return *text ? read_bytes(j, text, o->bytes[i], &o->pieces[i].len) : 0;
}

/* Every place has memory, also where it has no owner. Where the call refuses the count no piece is read. */
static int read_owners(struct job *j, int count, char **texts, struct owners *o)
{
    o->count = (uint64_t)count;
    o->used = count <= STM_OWNERS ? (size_t)count : 0;
    for (size_t i = 0; i < STM_OWNERS; i++) {
        o->pieces[i] = (struct stm_piece){.bytes = o->bytes[i], .len = 0};
        o->choices[i] = (struct stm_choices){.choices = o->written[i], .len = MAX_CHOICES};
    }
    for (size_t i = 0; i < o->used; i++) {
        int failed = read_owner(j, texts[i], o, i);
        if (failed)
            return failed;
    }
    return 0;
}

/* What the largest formula needs, of the owners that SIZE does not refuse. */
static void largest(const struct job *j, const struct owners *o, uint64_t *words, uint64_t *n)
{
    *words = *n = 0;
    for (size_t i = 0; i < o->used; i++) {
        uint64_t sizes[SIZE_LEN] = {0};
        if (stm_size(j->design, j->len, o->pieces[i].bytes, o->pieces[i].len, INVARIANT, j->bound, sizes))
            continue;
        *words = sizes[SIZE_WORDS] > *words ? sizes[SIZE_WORDS] : *words;
        *n = sizes[SIZE_VARIABLES] > *n ? sizes[SIZE_VARIABLES] : *n;
    }
}

/* What `stm verdict` says of the owner's piece, after the owner's number and piece. An owner's refusal is a part of the answer, so it
 * stands with the others' verdicts. */
static int print_owner(struct job *j, const struct owners *o, size_t i)
{
    const uint64_t *answer = o->answers[i];
    printf("owner %zu (", i + 1);
    print_shown(stdout, *o->names[i] ? o->names[i] : "the invariant");
    printf("): ");
    if (answer[OWNER_NUMBER]) {
        uint64_t code = answer[OWNER_NUMBER] | answer[OWNER_PLACE] << 8;
        print_refusal(stdout, code);
        printf("%s\n", meaning(code));
        return REFUSED;
    }
    memcpy(j->piece, o->bytes[i], o->pieces[i].len);
    j->piece_len = o->pieces[i].len;
    memcpy(j->choices, o->written[i], MAX_CHOICES);
    return print_verdict(j, answer + OWNER_VERDICT);
}

/* The graver of two exit statuses. */
static int graver(int a, int b)
{
    static const int order[] = {VIOLATED, REFUSED, SPENT};
    for (size_t i = 0; i < sizeof order / sizeof order[0]; i++)
        if (a == order[i] || b == order[i])
            return order[i];
    return CLEAN;
}

static int print_owners(struct job *j, const struct owners *o)
{
    int status = CLEAN;
    for (size_t i = 0; i < o->used; i++) {
        int found = print_owner(j, o, i);
        /* no memory for a trace */
        if (found == MISUSED)
            return MISUSED;
        status = graver(status, found);
    }
    return status;
}

static int ask_owners(struct job *j, struct owners *o)
{
    uint64_t words, n;
    struct memory m;
    largest(j, o, &words, &n);
    int status = take(&m, words, n);
    if (!status) {
        uint64_t code = stm_owners(j->design, j->len, j->bound, o->count, o->pieces, o->budgets, m.clauses, (size_t)words, m.values,
                                   (size_t)n, m.trail, (size_t)n, o->choices, o->answers);
        status = code ? refuse(j, code) : print_owners(j, o);
    }
    give_back(&m);
    return status;
}

int run_owners(struct job *j, int count, char **words)
{
    static struct owners o;
    int failed = read_bound(j, words[1]);
    if (!failed)
        failed = read_owners(j, count - 2, words + 2, &o);
    j->property = INVARIANT;
    return failed ? failed : ask_owners(j, &o);
}
