/* stm cnf FILE PROPERTY BOUND */
#include "commands.h"
#include "formula.h"
#include "text.h"

/* A path in a comment, which would end at a line feed. */
static void print_path(const char *key, const char *path)
{
    printf("c %s ", key);
    print_shown(stdout, path);
    printf("\n");
}

/* Where the flags stand, in words and as the variables that a counter of models is to look at: the choices give everything else. */
static void print_flags(const struct job *j, const uint64_t sizes[SIZE_LEN])
{
    if (j->bound > 0)
        printf("c the flag of mover i in frame j is variable %" PRIu64 " + %" PRIu64 " j + i, for i from 0 to %" PRIu64
               " and j from 0 to %" PRIu64 "\n",
               flags_of(sizes, 0), frame_of(sizes), sizes[SIZE_MOVERS] - 1, j->bound - 1);
    else
        printf("c there are no flags at bound 0\n");
    printf("c p show");
    for (uint64_t frame = 0; frame < j->bound; frame++)
        for (uint64_t i = 0; i < sizes[SIZE_MOVERS]; i++)
            printf(" %" PRIu64, flags_of(sizes, frame) + i);
    printf(" 0\n");
}

static void print_head(const struct job *j, const uint64_t sizes[SIZE_LEN])
{
    printf("c stm %s\n", STM_VERSION);
    print_path("design", j->path);
    if (piece_read(j))
        print_path("piece", piece_read(j));
    printf("c property %" PRIu64 ", bound %" PRIu64 "\n", j->property, j->bound);
    printf("c S %" PRIu64 ", P %" PRIu64 ", w %" PRIu64 ", G %" PRIu64 ", F %" PRIu64 "\n", sizes[SIZE_STATE], sizes[SIZE_PROPERTY],
           sizes[SIZE_MOVERS], sizes[SIZE_STEP], frame_of(sizes));
    print_flags(j, sizes);
    printf("p cnf %" PRIu64 " %" PRIu64 "\n", sizes[SIZE_VARIABLES], sizes[SIZE_CLAUSES]);
}

/* A part's words, a clause a line. */
static void print_clauses(const int32_t *words, uint64_t count)
{
    for (uint64_t i = 0; i < count; i++)
        printf("%" PRId32 "%c", words[i], words[i] == 0 ? '\n' : ' ');
}

/* Every part in order, through memory for the longest; what cannot be written any more is not asked for. */
static int print_parts(const struct job *j, int32_t *words, uint64_t len)
{
    for (uint64_t part = 0; part <= j->bound + 2 && !ferror(stdout); part++) {
        uint64_t count[1] = {0};
        uint64_t code =
            stm_encode(j->design, j->len, j->piece, j->piece_len, j->property, j->bound, part, words, (size_t)len, count);
        if (code)
            return refuse(j, code);
        print_clauses(words, count[0]);
    }
    return CLEAN;
}

/* The formula in DIMACS form. All full frames are of one length, so no part is longer than the whole formula of bound 1, but
 * for the last part, of bound + 2 words. */
static int print_formula(const struct job *j)
{
    uint64_t sizes[SIZE_LEN], one_frame[SIZE_LEN];
    uint64_t code = sizes_for(j, j->bound, sizes);
    if (!code)
        code = sizes_for(j, j->bound > 0, one_frame);
    if (code)
        return refuse(j, code);
    uint64_t last = j->bound + 2;
    uint64_t len = one_frame[SIZE_WORDS] > last ? one_frame[SIZE_WORDS] : last;
    int32_t *words = lend(len, sizeof *words);
    if (!words)
        return too_large();
    print_head(j, sizes);
    int status = print_parts(j, words, len);
    free(words);
    return status;
}

int run_cnf(struct job *j, int count, char **words)
{
    (void)count;
    int failed = read_property_bound(j, words);
    return failed ? failed : print_formula(j);
}
