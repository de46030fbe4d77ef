/* What the wrappers of PMIx' functions call, which wrappers.py and others.py write. */
#ifndef WIRE_UP_PMIX_WRAPPER_H
#define WIRE_UP_PMIX_WRAPPER_H

#include "core/places.h"
#include "pmix/callbacks.h"
#include "pmix/calls.h"
#include "pmix/session.h"

#include <errno.h>
#include <pmix_tool.h>
#include <string.h>

/* Whether a call is to be noted: what PMIx' own code calls isn't, on any thread. */
static inline bool is_noted(const void *caller)
{
    return wire_up_takes_calls() && !wire_up_is_own(wire_up_place(caller), OF_PMIX);
}

/* The same for a call that isn't made by a library of MPI. */
static inline bool is_of_program(const void *caller)
{
    return is_noted(caller) && !wire_up_is_own(wire_up_place(caller), OF_MPI);
}

/* Whether a lookup found a name at least. Where it found some of several, OpenPMIx 5 answers with a
 * status of queries, which older headers don't have. */
static inline bool has_found(pmix_status_t status)
{
    const pmix_status_t partial_query = -104;
    return status == PMIX_SUCCESS || status == PMIX_ERR_PARTIAL_SUCCESS || status == partial_query;
}

/* How a caller learns that a call ended that doesn't block. */
static inline const char *find_form(const void *caller)
{
    return wire_up_is_own(wire_up_place(caller), OF_MPI) ? CALLS_LIBRARY : CALLS_PROGRAM;
}

/* Finds PMIx' own function of a name, once: `known` keeps it. `wrapper` stands before it. */
static inline void *find_function(void **known, const char *name, const void *wrapper, void *caller)
{
    void *found = __atomic_load_n(known, __ATOMIC_RELAXED);
    if (!found) {
        int error = errno;
        found = wire_up_find(name, caller, wrapper);
        errno = error;
        __atomic_store_n(known, found, __ATOMIC_RELAXED);
    }
    return found;
}

#endif
