/* stm replay FILE PROPERTY CHOICES */
#include "commands.h"
#include "trace.h"

int run_replay(struct job *j, int count, char **words)
{
    (void)count;
    uint64_t answer[REPLAY_LEN] = {0};
    int failed = read_property(j, words[1]);
    if (!failed)
        failed = read_choices(words[2], j);
    if (failed)
        return failed;
    uint64_t code = replay_of(j, answer);
    return code ? refuse(j, code) : print_run(j, answer);
}
