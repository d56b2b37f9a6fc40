/* stm verdict FILE PROPERTY BOUND [BUDGET] */
#include "bounds.h"
#include "commands.h"
#include "formula.h"
#include "json.h"
#include "trace.h"
#include "verdict.h"

const char *const verdicts[ANSWER_VERDICTS] = {[ANSWER_CLEAN] = "CLEAN", [ANSWER_VIOLATED] = "VIOLATED", [ANSWER_SPENT] = "SPENT"};

static void print_object(FILE *out, const struct job *j, const uint64_t answer[ANSWER_LEN], const char *stopped)
{
    json_open(out, "verdict");
    json_text(out, "design", j->path);
    json_text(out, "piece", piece_read(j));
    json_number(out, "property", j->property);
    json_number(out, "bound", j->bound);
    if (j->budget == UINT64_MAX)
        json_null(out, "budget");
    else
        json_number(out, "budget", j->budget);
    json_text(out, "verdict", verdicts[answer[ANSWER_VERDICT]]);
    if (answer[ANSWER_VERDICT] == ANSWER_CLEAN)
        json_null(out, "at");
    else
        json_number(out, "at", answer[ANSWER_AT]);
    json_number(out, "tries", answer[ANSWER_TRIES]);
    if (answer[ANSWER_VERDICT] == ANSWER_VIOLATED)
        json_bytes(out, "choices", j->choices, j->choices_len);
    else
        json_null(out, "choices");
    json_text(out, "stopped", stopped);
    json_close(out);
}

void print_spent(FILE *out, const struct job *j, const uint64_t answer[ANSWER_LEN], const char *stopped)
{
    if (j->json)
        print_object(out, j, answer, stopped);
    else
        fprintf(out, "SPENT at bound %" PRIu64 ", %" PRIu64 " tries\n", answer[ANSWER_AT], answer[ANSWER_TRIES]);
}

static int print_violated(struct job *j, const uint64_t answer[ANSWER_LEN])
{
    j->choices_len = (size_t)answer[ANSWER_AT];
    if (j->json) {
        print_object(stdout, j, answer, NULL);
        return VIOLATED;
    }
    printf("VIOLATED at step %" PRIu64 ", %" PRIu64 " tries\nchoices ", answer[ANSWER_AT], answer[ANSWER_TRIES]);
    print_choices(stdout, j->choices, j->choices_len);
    printf("\n");
    int failed = walk(j, answer[ANSWER_AT], print_moment);
    return failed ? failed : VIOLATED;
}

int print_verdict(struct job *j, const uint64_t answer[ANSWER_LEN])
{
    switch (answer[ANSWER_VERDICT]) {
    case ANSWER_CLEAN:
        if (j->json)
            print_object(stdout, j, answer, NULL);
        else
            printf("CLEAN up to bound %" PRIu64 ", %" PRIu64 " tries\n", j->bound, answer[ANSWER_TRIES]);
        return CLEAN;
    case ANSWER_VIOLATED:
        return print_violated(j, answer);
    default:
        print_spent(stdout, j, answer, NULL);
        return SPENT;
    }
}

static int verdict(struct job *j)
{
    struct search s = {.j = j};
    uint64_t answer[ANSWER_LEN] = {0};
    uint64_t code = sizes_for(j, j->bound, s.sizes);
    if (code)
        return refuse(j, code);
    int status = take(&s.memory, s.sizes[SIZE_WORDS], s.sizes[SIZE_VARIABLES]);
    if (!status) {
        code = search_bounds(&s, answer);
        status = code ? refuse(j, code) : print_verdict(j, answer);
    }
    give_back(&s.memory);
    return status;
}

int run_verdict(struct job *j, int count, char **words)
{
    int failed = read_property_bound(j, words);
    if (!failed && count == 4)
        failed = read_number(words[3], UINT64_MAX, &j->budget);
    return failed ? failed : verdict(j);
}
