/* Whose code an object has, by the path of its file. */
#define _GNU_SOURCE
#include "core/owners.h"
#include "core/objects.h"
#include "core/text.h"

#include <string.h>

/* --- folders --- */

bool is_of_system(const char *path)
{
    static const char *const folders[] = {"/lib/", "/lib64/", "/usr/lib/", "/usr/lib64/"};
    bool is_there = false;
    for (size_t n = 0; !is_there && n < sizeof folders / sizeof *folders; n++)
        is_there = begins_with(path, folders[n]);
    return is_there;
}

/* Answers how long the path of a folder is in which a file stands, with its last slash. */
static size_t measure_folder(const char *path)
{
    const char *slash = strrchr(path, '/');
    return slash ? (size_t)(slash - path) + 1 : 0;
}

bool is_beside(const char *path, const char *other)
{
    size_t length = measure_folder(other);
    return measure_folder(path) == length && !strncmp(path, other, length);
}

/* Whether a file stands in the folder of another, or in a folder there. */
static bool is_below(const char *path, const char *other)
{
    size_t length = measure_folder(other);
    if (strncmp(path, other, length) != 0)
        return false;
    const char *slash = strchr(path + length, '/');
    return !slash || !strchr(slash + 1, '/');
}

static int take_beside(struct dl_phdr_info *object, size_t size, void *with)
{
    static const char *const libraries[] = {"libmpi.so", "libpmix.so", "libopen-pal.so"};
    const char *path = object->dlpi_name, *name = path + measure_folder(path);
    bool is_library = false;
    (void)size;
    for (size_t n = 0; n < sizeof libraries / sizeof *libraries; n++)
        is_library |= begins_with(name, libraries[n]);
    return is_library && is_below(with, path);
}

bool is_beside_mpi(const char *path)
{
    return list_objects(take_beside, (void *)(uintptr_t)path) != 0;
}

/* --- owners --- */

/* The objects that aren't the program's, by how their file names begin. */
static const struct {
    const char *start;
    enum owner owner;
} objects[] = {
    {"libpmix.", OF_PMIX},         {"pmix_mca_", OF_PMIX},
    {"libmpi_", OF_BINDINGS},      {"libmpi.", OF_MPI},
    {"libmpich.", OF_MPI},         {"libopen-rte.", OF_MPI},
    {"libopen-pal.", OF_MPI},      {"libopen_mpi", OF_MPI},
    {"libc.", OF_SYSTEM},          {"libc-", OF_SYSTEM},
    {"libpthread", OF_SYSTEM},     {"ld-linux", OF_SYSTEM},
    {"libevent-", OF_SYSTEM},      {"libevent.", OF_SYSTEM},
    {"libevent_core", OF_SYSTEM},  {"libevent_pthreads", OF_SYSTEM},
    {"record.so", OF_RECORDER},    {"record-mpi.so", OF_RECORDER},
};

/* How the libraries begin that components of MPI share, beside MPI or where the system has its. */
#define COMMON "libmca_common_"

/* Whether a file is a component: a library in a folder whose name is this, with a version or
 * without. */
static bool is_component(const char *path, const char *folder)
{
    const char *slash = strrchr(path, '/'), *end = strrchr(path, '.'), *start = slash;
    if (!slash || !begins_with(slash, "/mca_") || !end || strcmp(end, ".so"))
        return false;
    while (start > path && start[-1] != '/')
        start--;
    size_t size = strlen(folder);
    return begins_with(start, folder) && start + size + strspn(start + size, "0123456789.") == slash;
}

enum owner find_object_owner(const char *path)
{
    const char *name = path + measure_folder(path);
    if (is_component(path, "pmix"))
        return OF_PMIX;
    if (is_component(path, "openmpi"))
        return OF_MPI;
    if (begins_with(name, COMMON) && (is_of_system(path) || is_beside_mpi(path)))
        return OF_MPI;
    for (size_t n = 0; n < sizeof objects / sizeof *objects; n++)
        if (begins_with(name, objects[n].start))
            return objects[n].owner;
    return OF_PROGRAM;
}
