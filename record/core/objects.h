/* The objects of the process, read without the system's functions that look up or open: these run
 * constructors of what is being opened, wait for the lock of dlopen, and change what dlerror says.
 */
#ifndef WIRE_UP_OBJECTS_H
#define WIRE_UP_OBJECTS_H

#include "record.h"

#include <link.h>

/* An object that is loaded: where it begins, and the path of its file. */
struct object {
    const void *base;
    const char *path;
};

/* Finds the object that has an address. */
bool find_object(const void *address, struct object *found);

/* Answers the path of an object in the list: the program's own has none there. */
const char *get_path(const struct dl_phdr_info *object);

/* Where the tables of an object are. */
struct tables {
    const struct dl_phdr_info *object;
    const ElfW(Dyn) *dynamic;
    uintptr_t base;
    const char *names;
    const ElfW(Sym) *symbols;
    const ElfW(Half) *versions;
    const uint32_t *hashes;
    const ElfW(Rela) *data, *calls;
    size_t data_size, calls_size;
};

/* Finds the tables of an object in the list; false where it has no symbols. */
bool read_tables(const struct dl_phdr_info *object, struct tables *to);

/* Goes through the list of objects, until `take` answers other than 0, and answers that. `take` has
 * the lock of the list: none is unloaded meanwhile, and it neither takes memory nor calls the
 * system's functions that look up or open, as who has their locks may wait for that of the list. */
typedef int take_object(struct dl_phdr_info *object, size_t size, void *with);
int list_objects(take_object *take, void *with);

/* Whether this thread goes through the list: a handler of a signal has interrupted it then. */
bool is_in_list(void);

/* Finds the recorder's own function of a name; null where it has none. */
void *find_own(const char *name);

/* Finds the first function of a name behind the object that has an address, in the order in which
 * objects were loaded. */
void *find_behind(const char *name, const void *address);

#endif
