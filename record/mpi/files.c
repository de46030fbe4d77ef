/* Files that MPI opens or deletes by their names. */
#define _GNU_SOURCE
#include "mpi/files.h"

#include <ctype.h>
#include <sys/stat.h>

/* Answers the name without the kind of file system that may stand before it, as in `ufs:file`. */
static const char *skip_kind(const char *name)
{
    const char *it = name;
    while (isalnum((unsigned char)*it))
        it++;
    return it > name && *it == ':' ? it + 1 : name;
}

struct timespec find_change(const char *name)
{
    struct stat found;
    struct timespec now = {.tv_sec = 0};
    if (!stat(name, &found) || !stat(skip_kind(name), &found))
        return found.st_ctim;
    clock_gettime(CLOCK_REALTIME, &now);
    return now;
}

void note_file(const char *how, const char *name, struct timespec changed)
{
    struct text what;
    wire_up_text_open(&what);
    wire_up_text_add(&what, "file %s ", how);
    wire_up_text_add_word(&what, name);
    wire_up_text_add(&what, " %lld.%06ld", (long long)changed.tv_sec, changed.tv_nsec / 1000);
    write_plain(&what);
}
