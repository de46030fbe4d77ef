/* The library's own functions, behind those of the recorder. */
#define _GNU_SOURCE
#include "core/objects.h"
#include "core/places.h"
#include "core/symbols.h"

#include <dlfcn.h>

const void *wire_up_base(const void *address)
{
    struct object it;
    return address && find_object(address, &it) ? it.base : NULL;
}

/* Finds a function in an object that is loaded already. */
static void *find_in(const char *object, const char *name)
{
    void *loaded = dlopen(object, RTLD_LAZY | RTLD_NOLOAD);
    return loaded ? wire_up_dlsym()(loaded, name) : NULL;
}

void *find_for_caller(const char *name, void *caller)
{
    Dl_info it;
    if (!dladdr(caller, &it) || !it.dli_fname)
        return NULL;
    void *object = dlopen(it.dli_fname, RTLD_LAZY | RTLD_NOLOAD);
    void *found = object ? wire_up_dlsym()(object, name) : NULL;
    if (object)
        dlclose(object);
    return found;
}

void *wire_up_find(const char *name, void *caller, const void *not_this)
{
    /* A program may have a stub of its own for a function whose address it takes. */
    if (find_owner(not_this) != OF_RECORDER)
        not_this = (const void *)&find_in;
    const void *own = wire_up_base(not_this);
    void *found = wire_up_find_first(name, not_this);
    if (!found)
        found = wire_up_dlsym()(RTLD_NEXT, name);
    if (!found || wire_up_base(found) == own)
        found = find_for_caller(name, caller);
    if (found && wire_up_base(found) == own)
        found = NULL;
    if (!found)
        found = find_in("libpmix.so.2", name);
    return found ? found : find_in("libpmix.so", name);
}
