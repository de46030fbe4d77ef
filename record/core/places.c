/* Places in the code of a process: whose code it is, and which call of it. */
#define _GNU_SOURCE
#include "core/places.h"
#include "core/objects.h"
#include "core/text.h"

#include <elf.h>
#include <link.h>
#include <stdint.h>
#include <stdlib.h>
#include <string.h>

/* No lock is held while a place is added: the system's own, that of dlopen, may be waited for then,
 * and whoever has that may wait for a place. Nor does the child of a fork find one held. */
#define BUCKETS 1024
static struct place *places[BUCKETS];
static unsigned places_known;

unsigned number_place(void) { return __atomic_add_fetch(&places_known, 1, __ATOMIC_RELAXED); }

/* The tools, by where their objects begin. */
#define MOST_TOOLS 8
static const void *tools[MOST_TOOLS];

static bool is_tool(const void *base)
{
    for (size_t n = 0; n < MOST_TOOLS; n++)
        if (__atomic_load_n(&tools[n], __ATOMIC_RELAXED) == base)
            return true;
    return false;
}

void wire_up_add_tool(const void *function)
{
    const void *base = wire_up_base(function);
    for (size_t n = 0; n < MOST_TOOLS; n++) {
        const void *found = NULL;
        if (__atomic_compare_exchange_n(&tools[n], &found, base, false, __ATOMIC_RELAXED,
                                        __ATOMIC_RELAXED) ||
            found == base)
            return;
    }
}

enum owner read_owner(const void *address)
{
    struct object object;
    if (!find_object(address, &object))
        return OF_PROGRAM;
    return is_tool(object.base) ? OF_TOOL : find_object_owner(object.path);
}

/* Says which object a place is in, and how far from its beginning. */
static void locate(struct place *it, const struct object *object)
{
    const ElfW(Ehdr) *head = object->base;
    it->is_mpi4py = strstr(object->path, "/mpi4py/") != NULL;
    it->owner = is_tool(object->base) ? OF_TOOL : find_object_owner(object->path);
    it->module = realpath(object->path, NULL);
    if (!it->module)
        it->module = strdup(object->path);
    if (head->e_type != ET_EXEC)
        it->offset -= (uintptr_t)object->base;
}

static const char unknown[] = "unknown";

static struct place *make_place(const void *address, struct place *outer)
{
    struct object object;
    struct place *made = calloc(1, sizeof *made);
    if (!made)
        return NULL;
    made->address = address;
    made->outer = outer;
    made->number = number_place();
    made->offset = (uintptr_t)address - 1;
    if (find_object(address, &object))
        locate(made, &object);
    if (!made->module)
        made->module = unknown;
    return made;
}

static void free_place(struct place *it)
{
    if (it->module != unknown)
        free((void *)(uintptr_t)it->module);
    free(it);
}

static struct place *find_in_list(struct place *first, const void *address,
                                  const struct place *outer)
{
    struct place *it = first;
    while (it && (it->address != address || it->outer != outer))
        it = it->next;
    return it;
}

/* Adds a place to a list, unless another thread just did. */
static struct place *add_place(struct place **list, const void *address, struct place *outer)
{
    struct place *made = make_place(address, outer);
    struct place *first = __atomic_load_n(list, __ATOMIC_ACQUIRE);
    while (made) {
        struct place *it = find_in_list(first, address, outer);
        if (it) {
            free_place(made);
            return it;
        }
        made->next = first;
        if (__atomic_compare_exchange_n(list, &first, made, false, __ATOMIC_ACQ_REL,
                                        __ATOMIC_ACQUIRE))
            break;
    }
    return made;
}

/* Finds or makes the place of an address in a function that was called at another place. */
static struct place *find_within(const void *address, struct place *outer)
{
    uintptr_t bits = (uintptr_t)address;
    struct place **list = &places[(bits >> 2 ^ bits >> 12) % BUCKETS];
    struct place *it = find_in_list(__atomic_load_n(list, __ATOMIC_ACQUIRE), address, outer);
    return it ? it : add_place(list, address, outer);
}

struct place *wire_up_place(const void *address) { return find_within(address, NULL); }

enum owner find_owner(const void *address)
{
    const struct place *it = wire_up_place(address);
    return it ? it->owner : OF_PROGRAM;
}

/* How many frames are looked at for a signal. */
#define MOST_SEEN 64

_Unwind_Reason_Code keep_frame(struct _Unwind_Context *frame, void *to)
{
    struct frames *found = to;
    int is_interrupted = 0;
    const void *address = (const void *)_Unwind_GetIPInfo(frame, &is_interrupted);
    found->is_in_handler = is_interrupted != 0;
    if (found->is_in_handler || ++found->seen > MOST_SEEN)
        return _URC_END_OF_STACK;
    struct place *it = found->is_over ? NULL : wire_up_place(address);
    if (!it || it->owner != OF_PROGRAM) {
        found->is_of_mpi |= it && found->count > 0 && it->owner == OF_MPI;
        found->is_over = found->count > 0;
        return _URC_NO_REASON;
    }
    found->at[found->count++] = it;
    found->is_over = found->count == MOST_FRAMES;
    return it->is_mpi4py ? _URC_END_OF_STACK : _URC_NO_REASON;
}

struct place *join_frames(const struct frames *found)
{
    struct place *it = NULL;
    for (size_t n = found->count; n > 0; n--)
        it = find_within(found->at[n - 1]->address, it);
    return it;
}

/* Whether a call leads to where an offset says within the object, or to where its table says. A
 * pointer to a function is called in other words. Elsewhere than on x86-64 each call counts as one
 * by name. */
static bool is_by_name(const unsigned char *after)
{
#ifdef __x86_64__
    int32_t offset;
    if (after[-6] == 0xff && after[-5] == 0x15)
        return true;
    memcpy(&offset, after - 4, sizeof offset);
    return after[-5] == 0xe8 && wire_up_base(after + offset) == wire_up_base(after);
#else
    (void)after;
    return true;
#endif
}

bool wire_up_is_call_by_name(struct place *place)
{
    if (__atomic_load_n(&place->call, __ATOMIC_RELAXED) == UNREAD)
        __atomic_store_n(&place->call, is_by_name(place->address) ? NAMED : POINTED,
                         __ATOMIC_RELAXED);
    return __atomic_load_n(&place->call, __ATOMIC_RELAXED) == NAMED;
}
