/* Our own rows: what is known of a design, a piece and a property. */
#ifndef STM_TABLES_H
#define STM_TABLES_H

#include "common.h"
#include "digests.h"

/* The first breaking step is not below `clean`, and it is `step`, which is UNKNOWN_STEP where no row tells it. So a bound below `clean` is
 * CLEAN and one from `step` on VIOLATED; of those between nothing is known. */
struct known {
    uint64_t clean, step;
};
static const uint64_t UNKNOWN_STEP = UINT64_MAX;

struct source;
struct fact;

struct tables {
    const char *folder;
    struct digests digests; /* of the files that rows are about */
    struct source *sources; /* the designs and pieces that rows are about */
    size_t sources_len, sources_room;
    struct fact *facts; /* what is known of them */
    size_t facts_len, facts_room;
};

/* Reads all tables of the folder, where there is at least one; 0 where they can be read, do not contradict each other, and are about the
 * files that are there. The job's design is overwritten. `free_tables` frees in any case. */
int read_tables(struct job *j, const char *folder, struct tables *t);
void free_tables(const struct tables *t);

/* What our rows tell of the job's design, piece and property, which are known by their bytes. */
struct known known_of(const struct tables *t, const struct job *j);

#endif
