#define _POSIX_C_SOURCE 200809L
#include "files.h"

#include <errno.h>
#include <sys/stat.h>
#include <unistd.h>

/* Where the program is installed; the build may say otherwise. */
#ifndef STM_PREFIX
#define STM_PREFIX "/usr/local"
#endif

int is_there(const char *path)
{
    return access(path, F_OK) == 0 || (errno != ENOENT && errno != ENOTDIR);
}

const char *designs_folder(const struct job *j)
{
    const char *named = getenv("STM_DESIGNS");
    if (j->designs)
        return j->designs;
    if (named && *named)
        return named;
    return is_there("designs/rows.txt") ? "designs" : STM_PREFIX "/share/stm/designs";
}

int want_file(const char *path)
{
    struct stat s;
    if (stat(path, &s) || S_ISREG(s.st_mode) || S_ISDIR(s.st_mode))
        return 0;
    return misuse("%s is no file", path);
}

char *path_in(const char *folder, size_t folder_len, const char *file, size_t len)
{
    size_t before = len && file[0] == '/' ? 0 : folder_len + 1;
    char *path = lend(before + len, sizeof *path);
    if (!path) {
        misuse("not enough memory for a path");
        return NULL;
    }
    if (before) {
        memcpy(path, folder, folder_len);
        path[folder_len] = '/';
    }
    memcpy(path + before, file, len);
    path[before + len] = '\0';
    return path;
}

size_t design_part(const char *file, size_t len)
{
    static const char ending[] = ".piece";
    size_t end = sizeof ending - 1, plus = len;
    if (len < end || memcmp(file + len - end, ending, end) != 0)
        return len;
    while (plus > 0 && file[plus - 1] != '+')
        plus--;
    return plus ? plus - 1 : len;
}
