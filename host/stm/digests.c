#define _POSIX_C_SOURCE 200809L
#include "digests.h"

#include "files.h"
#include "sha256.h"

struct listed {
    char *name;
    char digest[SHA256_TEXT];
};

static int keep_listed(struct digests *d, const struct text *t, const struct listed *file)
{
    if (d->len == d->room) {
        struct listed *files = doubled(d->files, &d->room, sizeof *files);
        if (!files)
            return no_memory(t);
        d->files = files;
    }
    d->files[d->len++] = *file;
    return 0;
}

/* A digest and a name, which has a * before it where sha256sum read it as bytes. */
static int take_line(struct digests *d, const struct text *t)
{
    struct listed file = {.name = NULL};
    const char *at = t->bytes;
    size_t len, name_len;
    const char *digest = next_word(&at, &len), *name = next_word(&at, &name_len);
    if (has_nul(t) || len != SHA256_TEXT - 1 || strspn(digest, "0123456789abcdef") != len || name_len == 0 || at[strspn(at, " \t")])
        return line_fault(t, "no digest and name");
    memcpy(file.digest, digest, len);
    file.name = *name == '*' ? strndup(name + 1, name_len - 1) : strndup(name, name_len);
    int failed = file.name ? keep_listed(d, t, &file) : no_memory(t);
    if (failed)
        free(file.name);
    return failed;
}

static int read_lines(struct job *j, const char *path, struct digests *d)
{
    struct text t;
    int more = 1;
    int failed = open_text(j, path, "a list", &t);
    while (!failed) {
        failed = next_line(&t, &more);
        if (failed || !more)
            break;
        failed = take_line(d, &t);
    }
    close_text(&t);
    return failed;
}

int read_digests(struct job *j, const char *folder, struct digests *d)
{
    static const char name[] = "rows-files.txt";
    *d = (struct digests){.len = 0};
    char *path = path_in(folder, strlen(folder), name, strlen(name));
    if (!path)
        return MISUSED;
    int failed = is_there(path) ? read_lines(j, path, d) : 0;
    free(path);
    return failed;
}

void free_digests(const struct digests *d)
{
    for (size_t i = 0; i < d->len; i++)
        free(d->files[i].name);
    free(d->files);
}

int test_digest(const struct digests *d, const struct text *row, const char *name, size_t len, const uint8_t *bytes, size_t bytes_len)
{
    char digest[SHA256_TEXT];
    size_t i = 0;
    while (i < d->len && !is_word(name, len, d->files[i].name))
        i++;
    if (i == d->len)
        return word_fault(row, "rows-files.txt has no digest of this file", name, len);
    sha256_text(bytes, bytes_len, digest);
    return strcmp(digest, d->files[i].digest) == 0 ? 0 : word_fault(row, "the rows are about other bytes, by rows-files.txt", name, len);
}
