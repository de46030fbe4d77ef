/* Functions that the program looks up by their names: where the recorder has a function of such a
 * name, the program gets that, as if it were linked to it. */
#define _GNU_SOURCE
#include "core/symbols.h"
#include "core/objects.h"
#include "core/places.h"
#include "core/text.h"
#include "core/uses.h"

#include <dlfcn.h>
#include <stdio.h>

/* A sanitizer looks functions up before what it checks with is there. */
#define UNCHECKED __attribute__((no_sanitize_address, no_sanitize_undefined))

static wire_up_find_symbol *system_dlsym;

UNCHECKED wire_up_find_symbol *wire_up_dlsym(void)
{
    static const char *const versions[] = {"GLIBC_2.34", "GLIBC_2.2.5", "GLIBC_2.17"};
    wire_up_find_symbol *found = __atomic_load_n(&system_dlsym, __ATOMIC_RELAXED);
    for (size_t n = 0; !found && n < sizeof versions / sizeof *versions; n++)
        found = (wire_up_find_symbol *)dlvsym(RTLD_NEXT, "dlsym", versions[n]);
    __atomic_store_n(&system_dlsym, found, __ATOMIC_RELAXED);
    return found;
}

/* Finds it before the program can have asked for anything in vain. */
__attribute__((constructor)) static void find_dlsym(void) { wire_up_dlsym(); }

bool has_recorded_name(const char *name)
{
    return begins_with(name, "MPI_") || begins_with(name, "PMPI_") || begins_with(name, "PMIx_");
}

/* Whether a lookup may be the program's, which gets functions of the recorder: libraries get their
 * own. */
static bool is_of_program(const void *caller) { return find_owner(caller) <= OF_TOOL; }

/* Finds the recorder's function that calls on to one of a library. For MPI it is that with the second
 * name: from there no call comes back to a tool, which may be what looks the function up. PMIx'
 * functions have one name, so there is none where a tool stands before the library. */
static void *find_before(wire_up_find_symbol *find, const char *name)
{
    char second[128];
    if (!begins_with(name, "MPI_")) {
        bool is_next = find_owner(find(RTLD_NEXT, name)) != OF_PROGRAM;
        return is_next || begins_with(name, "PMPI_") ? find_own(name) : NULL;
    }
    int length = snprintf(second, sizeof second, "P%s", name);
    return length < (int)sizeof second ? find_own(second) : NULL;
}

static bool is_of_library(const void *function)
{
    enum owner owner = function ? find_owner(function) : OF_PROGRAM;
    return owner == OF_MPI || owner == OF_PMIX;
}

/* Finds the recorder's function for a lookup in an object, or behind that of a caller; null where the
 * system's is to be found. */
__attribute__((noinline)) static void *find_for_lookup(wire_up_find_symbol *find, void *object,
                                                       const char *name, void *caller)
{
    void *found = object == RTLD_NEXT ? find_behind(name, caller) : find(object, name);
    if (!found && object == RTLD_NEXT)
        found = find_for_caller(name, caller);
    void *own = is_of_library(found) ? find_before(find, name) : NULL;
    dlerror(); /* the program's own lookup didn't fail */
    return own;
}

static int take_library(struct dl_phdr_info *object, size_t size, void *with)
{
    (void)size;
    return find_object_owner(get_path(object)) == *(const enum owner *)with;
}

/* Whether the process has a library of MPI or PMIx that may have a function of a name. */
static bool has_library(const char *name)
{
    enum owner wanted = begins_with(name, "PMIx_") ? OF_PMIX : OF_MPI;
    return list_objects(take_library, &wanted) != 0;
}

/* Answers where to look: not where a lookup finds a function that the recorder alone has, as whoever
 * asks for it is to be told that there is none. */
__attribute__((noinline)) static void *choose_object(wire_up_find_symbol *find, void *object,
                                                     const char *name)
{
    const void *found = object == RTLD_NEXT ? NULL : find(object, name);
    bool is_own = found && find_owner(found) == OF_RECORDER;
    bool is_alone = is_own && !find_behind(name, found) && !has_library(name);
    return is_alone ? dlopen("libc.so.6", RTLD_LAZY | RTLD_NOLOAD) : object;
}

/* A lookup in one object, or behind one, finds its functions past those that are preloaded. What the
 * recorder doesn't answer is looked up by a jump, as the optimizer writes such a call: what is found can
 * depend on where the lookup is made. */
__attribute__((optimize("O2"))) UNCHECKED EXPORTED void *dlsym(void *restrict object,
                                                               const char *restrict name)
{
    wire_up_find_symbol *find = wire_up_dlsym();
    void *caller = __builtin_return_address(0), *own = NULL;
    if (has_recorded_name(name) && is_of_program(caller)) {
        take_lookup(name);
        if (object != RTLD_DEFAULT)
            own = find_for_lookup(find, object, name, caller);
        if (!own)
            object = choose_object(find, object, name);
    }
    return own ? own : find(object, name);
}
