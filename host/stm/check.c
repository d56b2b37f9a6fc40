/* stm check FILE */
#include "commands.h"
#include "json.h"

int run_check(struct job *j, int count, char **words)
{
    (void)count, (void)words;
    uint64_t code = stm_check(j->design, j->len);
    if (code)
        return refuse(j, code);
    if (j->json) {
        json_open(stdout, "check");
        json_text(stdout, "design", j->path);
        json_flag(stdout, "accepted", 1);
        json_close(stdout);
    } else {
        printf("accepted\n");
    }
    return CLEAN;
}
