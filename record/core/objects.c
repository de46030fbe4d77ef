#define _GNU_SOURCE
#include "core/objects.h"
#include "core/places.h"

#include <dlfcn.h>
#include <errno.h>
#include <pthread.h>
#include <stdint.h>
#include <string.h>
#include <time.h>
#include <unistd.h>

/* --- the list of all --- */

/* The system has a lock while it goes through its list. A fork waits for the end of that, as else
 * no thread of the child could ever take the lock. The handler of a signal may come in between. */
static bool is_listing;
static __thread volatile unsigned listings;

static void begin_listing(void)
{
    if (listings++ == 0)
        wire_up_lock(&is_listing);
}

static void end_listing(void)
{
    if (listings == 1)
        wire_up_unlock(&is_listing);
    listings--;
}

bool is_in_list(void) { return listings > 0; }

/* What is done with each object of the list, and whether it has begun: then the lock is taken. */
struct listing {
    take_object *take;
    void *with;
};
static bool has_list;

static int take_one(struct dl_phdr_info *object, size_t size, void *with)
{
    const struct listing *it = with;
    __atomic_store_n(&has_list, true, __ATOMIC_RELAXED);
    return it->take(object, size, it->with);
}

int list_objects(take_object *take, void *with)
{
    begin_listing();
    int answer = dl_iterate_phdr(take_one, &(struct listing){take, with});
    if (listings == 1)
        __atomic_store_n(&has_list, false, __ATOMIC_RELAXED);
    end_listing();
    return answer;
}

/* Whether this thread forks without the lock. */
static __thread bool forks_alone;

/* Waits before a fork for the thread that goes through the list. Where that doesn't have it soon,
 * it waits for the system's lock, which another thread has: that may wait for one that the fork
 * has, such as the program's for its memory. */
#define TURNS_BEFORE_FORK 1000
static void begin_fork(void)
{
    bool is_held = listings++ == 0;
    for (int turn = 0; is_held && __atomic_exchange_n(&is_listing, true, __ATOMIC_ACQUIRE);
         turn++) {
        is_held = turn < TURNS_BEFORE_FORK || __atomic_load_n(&has_list, __ATOMIC_RELAXED);
        nanosleep(&(struct timespec){.tv_nsec = 1000}, NULL);
    }
    forks_alone = listings == 1 && !is_held;
}

static void end_fork(void)
{
    if (!forks_alone)
        end_listing();
    else
        listings--;
}

static void end_fork_in_child(void)
{
    __atomic_store_n(&has_list, false, __ATOMIC_RELAXED);
    end_listing();
}

__attribute__((constructor)) static void keep_from_forks(void)
{
    pthread_atfork(begin_fork, end_fork, end_fork_in_child);
}

const char *get_path(const struct dl_phdr_info *object)
{
    return *object->dlpi_name ? object->dlpi_name : program_invocation_name;
}

/* Whether a part of an object that is loaded has an address. */
static bool has_address(const struct dl_phdr_info *object, const void *address)
{
    bool is_there = false;
    for (size_t n = 0; !is_there && n < object->dlpi_phnum; n++) {
        const ElfW(Phdr) *it = &object->dlpi_phdr[n];
        uintptr_t start = object->dlpi_addr + it->p_vaddr;
        is_there = it->p_type == PT_LOAD && (uintptr_t)address - start < it->p_memsz;
    }
    return is_there;
}

#if __GLIBC_PREREQ(2, 35)
bool find_object(const void *address, struct object *found)
{
    struct dl_find_object it;
    if (_dl_find_object((void *)(uintptr_t)address, &it) != 0)
        return false;
    const char *path = it.dlfo_link_map->l_name;
    *found = (struct object){it.dlfo_map_start, *path ? path : program_invocation_name};
    return true;
}
#else
/* An address, and the object that has it. */
struct located {
    const void *address;
    struct object *found;
};

static int take_with_address(struct dl_phdr_info *object, size_t size, void *with)
{
    const struct located *it = with;
    size_t n = 0;
    (void)size;
    if (!has_address(object, it->address))
        return 0;
    while (object->dlpi_phdr[n].p_type != PT_LOAD)
        n++;
    uintptr_t start = object->dlpi_addr + object->dlpi_phdr[n].p_vaddr;
    start -= start % (uintptr_t)sysconf(_SC_PAGESIZE);
    *it->found = (struct object){(const void *)start, get_path(object)};
    return 1;
}

bool find_object(const void *address, struct object *found)
{
    return list_objects(take_with_address, &(struct located){address, found}) != 0;
}
#endif

/* --- the symbols of one --- */

/* Answers where a table is: an address, or, where the system leaves it so, an offset. */
static const void *point(const struct tables *of, const ElfW(Dyn) *it)
{
    uintptr_t at = it->d_un.d_ptr;
    return (const void *)(at < of->base ? of->base + at : at);
}

static void read_dynamic(struct tables *to)
{
    for (const ElfW(Dyn) *it = to->dynamic; it->d_tag != DT_NULL; it++)
        switch (it->d_tag) {
        case DT_STRTAB: to->names = point(to, it); break;
        case DT_SYMTAB: to->symbols = point(to, it); break;
        case DT_VERSYM: to->versions = point(to, it); break;
        case DT_GNU_HASH: to->hashes = point(to, it); break;
        case DT_RELA: to->data = point(to, it); break;
        case DT_RELASZ: to->data_size = it->d_un.d_val; break;
        case DT_JMPREL: to->calls = point(to, it); break;
        case DT_PLTRELSZ: to->calls_size = it->d_un.d_val; break;
        default: break;
        }
}

bool read_tables(const struct dl_phdr_info *object, struct tables *to)
{
    *to = (struct tables){.object = object, .base = object->dlpi_addr};
    for (size_t n = 0; n < object->dlpi_phnum; n++)
        if (object->dlpi_phdr[n].p_type == PT_DYNAMIC)
            to->dynamic = (const void *)(to->base + object->dlpi_phdr[n].p_vaddr);
    if (to->dynamic)
        read_dynamic(to);
    return to->names && to->symbols;
}

static uint32_t hash_name(const char *name)
{
    uint32_t hash = 5381;
    for (; *name; name++)
        hash = hash * 33 + (unsigned char)*name;
    return hash;
}

/* Whether a symbol is one of a name that another object may use. */
#define OLD_VERSION 0x8000
static bool is_symbol(const struct tables *of, uint32_t number, const char *name)
{
    const ElfW(Sym) *it = &of->symbols[number];
    unsigned type = ELF64_ST_TYPE(it->st_info);
    return (type == STT_FUNC || type == STT_OBJECT) && it->st_shndx != SHN_UNDEF &&
           !(of->versions && of->versions[number] & OLD_VERSION) &&
           !strcmp(of->names + it->st_name, name);
}

/* Finds what an object has by a name, in the table that GNU's linker makes. Its head has the number
 * of buckets, the number of the first symbol in them, and how many words a filter has. That comes
 * next, then the first symbol of each bucket, and the hash of each symbol, whose last bit ends the
 * bucket. */
static void *find_symbol(const struct tables *of, const char *name)
{
    const uint32_t hash = hash_name(name), *head = of->hashes;
    if (!head || !head[0])
        return NULL;
    const uint32_t *buckets = head + 4 + head[2] * (sizeof(ElfW(Addr)) / sizeof *head);
    const uint32_t *hashes = buckets + head[0] - head[1];
    uint32_t n = buckets[hash % head[0]];
    bool is_last = n < head[1];
    for (; !is_last; n++) {
        if ((hashes[n] | 1) == (hash | 1) && is_symbol(of, n, name))
            return (void *)(of->base + of->symbols[n].st_value);
        is_last = hashes[n] & 1;
    }
    return NULL;
}

/* --- the symbols of several --- */

/* What is looked for, in so many objects at most. */
struct search {
    const char *name;
    const void *behind;
    bool is_behind;
    size_t left;
    void *found;
};

static int take_behind(struct dl_phdr_info *object, size_t size, void *with)
{
    struct search *it = with;
    struct tables of;
    (void)size;
    if (!it->is_behind)
        it->is_behind = has_address(object, it->behind);
    else if (read_tables(object, &of))
        it->found = find_symbol(&of, it->name);
    it->left--;
    return it->found || !it->left;
}

void *find_behind(const char *name, const void *address)
{
    struct search it = {.name = name, .behind = address, .left = SIZE_MAX};
    list_objects(take_behind, &it);
    return it.found;
}

/* How many objects the program was loaded with: they come first in the list, and stay. */
static size_t loaded_first;

static int count_object(struct dl_phdr_info *object, size_t size, void *with)
{
    (void)object;
    (void)size;
    ++*(size_t *)with;
    return 0;
}

__attribute__((constructor)) static void count_first(void)
{
    list_objects(count_object, &loaded_first);
}

void *wire_up_find_first(const char *name, const void *behind)
{
    struct search it = {
        .name = name, .behind = behind, .is_behind = !behind, .left = loaded_first
    };
    if (it.left)
        list_objects(take_behind, &it);
    return it.found;
}

static int take_own(struct dl_phdr_info *object, size_t size, void *with)
{
    struct search *it = with;
    struct tables of;
    (void)size;
    if (find_object_owner(get_path(object)) == OF_RECORDER && read_tables(object, &of))
        it->found = find_symbol(&of, it->name);
    return it->found != NULL;
}

void *find_own(const char *name)
{
    struct search it = {.name = name};
    list_objects(take_own, &it);
    return it.found;
}
