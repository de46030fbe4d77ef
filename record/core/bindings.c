/* Objects of the process that call functions of MPI or PMIx past the recorder: linked so that they
 * find the library's own first. */
#define _GNU_SOURCE
#include "core/objects.h"
#include "core/places.h"
#include "core/symbols.h"

#include <dlfcn.h>
#include <limits.h>
#include <link.h>
#include <stdint.h>
#include <stdlib.h>
#include <string.h>

/* --- one object --- */

/* What is noted of an object: the kind of its functions that aren't seen. */
static const char of_mpi[] = "object", of_pmix[] = "pmix";

/* Whether the constants of an object have a text. */
static bool has_text(const struct dl_phdr_info *object, const char *text)
{
    bool is_there = false;
    for (size_t n = 0; !is_there && n < object->dlpi_phnum; n++) {
        const ElfW(Phdr) *it = &object->dlpi_phdr[n];
        if (it->p_type == PT_LOAD && (it->p_flags & (PF_R | PF_W)) == PF_R)
            is_there = memmem((const void *)(object->dlpi_addr + it->p_vaddr), it->p_memsz, text,
                              strlen(text)) != NULL;
    }
    return is_there;
}

/* Finds which functions an object may look up by the system's own dlsym; null where it names none. */
static const char *find_kind_of_names(const struct dl_phdr_info *object)
{
    if (has_text(object, "MPI_"))
        return of_mpi;
    return has_text(object, "PMIx_") ? of_pmix : NULL;
}

/* Finds whether a relocation has bound a function that the recorder has to the library's own, and
 * of which kind it is; null where it hasn't. */
static const char *find_kind(const struct tables *of, const ElfW(Rela) *it)
{
    const char *name = of->names + of->symbols[ELF64_R_SYM(it->r_info)].st_name;
    bool is_lookup = !strcmp(name, "dlsym");
    if (!is_lookup && !has_recorded_name(name))
        return NULL;
    enum owner owner = read_owner(*(const void *const *)(of->base + it->r_offset));
    if (is_lookup)
        return owner == OF_SYSTEM ? find_kind_of_names(of->object) : NULL;
    if ((owner != OF_MPI && owner != OF_PMIX) || !find_own(name))
        return NULL;
    return owner == OF_MPI ? of_mpi : of_pmix;
}

static const char *find_kind_of_any(const struct tables *of, const ElfW(Rela) *list, size_t size)
{
    const char *found = NULL;
    for (size_t n = 0; !found && list && n < size / sizeof *list; n++)
        found = find_kind(of, &list[n]);
    return found;
}

/* --- all of them --- */

/* The objects that are noted, by their dynamic sections. */
#define MOST_PAST 64
static const void *noted[MOST_PAST];

static bool is_known(const void *dynamic)
{
    bool is_there = false;
    for (size_t n = 0; !is_there && n < MOST_PAST; n++)
        is_there = __atomic_load_n(&noted[n], __ATOMIC_RELAXED) == dynamic;
    return is_there;
}

/* Adds one, and answers whether no other thread just did, and there was room. */
static bool add_known(const void *dynamic)
{
    for (size_t n = 0; n < MOST_PAST; n++) {
        const void *found = NULL;
        if (__atomic_compare_exchange_n(&noted[n], &found, dynamic, false, __ATOMIC_RELAXED,
                                        __ATOMIC_RELAXED))
            return true;
        if (found == dynamic)
            return false;
    }
    return false;
}

/* An object of the program that has such a relocation. */
struct past {
    const void *dynamic;
    const char *kind;
    char path[PATH_MAX];
};

/* Takes the first that isn't known yet. */
static int take_past(struct dl_phdr_info *object, size_t size, void *to)
{
    struct past *found = to;
    struct tables of;
    const char *path = get_path(object);
    (void)size;
    if (find_object_owner(path) > OF_TOOL || !read_tables(object, &of) || is_known(of.dynamic))
        return 0;
    found->kind = find_kind_of_any(&of, of.data, of.data_size);
    if (!found->kind)
        found->kind = find_kind_of_any(&of, of.calls, of.calls_size);
    if (!found->kind)
        return 0;
    found->dynamic = of.dynamic;
    *found->path = 0;
    strncat(found->path, path, sizeof found->path - 1);
    return 1;
}

static void note(const struct past *it)
{
    char *whole = realpath(it->path, NULL);
    if (add_known(it->dynamic))
        wire_up_note_unseen(it->kind, whole ? whole : it->path);
    free(whole);
}

#if __GLIBC_PREREQ(2, 35)
/* Notes the first library of MPI or PMIx in a namespace. */
static void note_library(const struct link_map *it)
{
    struct place *place = NULL;
    for (; it && !place; it = it->l_next) {
        enum owner owner = find_owner(it->l_ld);
        place = owner == OF_MPI || owner == OF_PMIX ? wire_up_place(it->l_ld) : NULL;
    }
    if (place && !__atomic_exchange_n(&place->is_past, true, __ATOMIC_RELAXED))
        wire_up_note_unseen("namespace", place->module);
}

/* Looks at all namespaces but the first. */
static void look_at_namespaces(void)
{
    const struct r_debug_extended *it = (const struct r_debug_extended *)&_r_debug;
    while (it->base.r_version > 1 && (it = it->r_next))
        note_library(it->base.r_map);
}
#else
static void look_at_namespaces(void) {}
#endif

void wire_up_note_past(void)
{
    struct past found;
    if (!wire_up_is_recording() || is_in_list())
        return;
    for (size_t n = 0; n < MOST_PAST && list_objects(take_past, &found); n++)
        note(&found);
    look_at_namespaces();
}

/* Takes how many objects were loaded so far. */
static int take_loaded(struct dl_phdr_info *object, size_t size, void *with)
{
    (void)size;
    *(unsigned long long *)with = object->dlpi_adds;
    return 1;
}

void note_past_if_loaded(void)
{
    static unsigned long long looked_at;
    unsigned long long loaded = 0;
    if (is_in_list())
        return;
    list_objects(take_loaded, &loaded);
    if (__atomic_exchange_n(&looked_at, loaded, __ATOMIC_RELAXED) != loaded)
        wire_up_note_past();
}

/* What is closed can't be looked at when the program ends. */
EXPORTED int dlclose(void *object)
{
    static void *known;
    void *found = __atomic_load_n(&known, __ATOMIC_RELAXED);
    if (!found)
        found = wire_up_dlsym()(RTLD_NEXT, "dlclose");
    __atomic_store_n(&known, found, __ATOMIC_RELAXED);
    if (find_owner(__builtin_return_address(0)) == OF_PROGRAM)
        wire_up_note_past();
    return ((int (*)(void *))found)(object);
}
