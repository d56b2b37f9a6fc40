/* Where designs, pieces and tables are. */
#ifndef STM_FILES_H
#define STM_FILES_H

#include "common.h"

/* The folder of the designs and of our rows: --designs, else STM_DESIGNS of the environment, else `designs` in the current folder where
 * it has rows, else that of the installed program. */
const char *designs_folder(const struct job *j);

/* Whether there is such a file, or one that cannot be looked for: opening it then tells why. */
int is_there(const char *path);

/* Somebody else's table may name what has no end, such as a device: 0 where it is a file, or where opening it tells why not. */
int want_file(const char *path);

/* The path of a file in a folder; an absolute path stays as it is. In memory of its own; NULL, which is told, where there is none. */
char *path_in(const char *folder, size_t folder_len, const char *file, size_t len);

/* DESIGN or DESIGN+PIECE, where PIECE ends in .piece: the length of DESIGN, which is all where there is no piece. */
size_t design_part(const char *file, size_t len);

#endif
