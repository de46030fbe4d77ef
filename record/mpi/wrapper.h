/* What the wrappers of MPI's functions call, which wrappers.py and others.py write. No message is
 * added, and each call is made as the program made it; where the program ignores the status of a
 * receive, the recorder takes it.
 *
 * A wrapper has both names of its function, since bindings of other languages and tools call the
 * second, PMPI_X. It calls on to the library's PMPI_X; but what the program calls by the plain name
 * goes to the tool that has one, if there is one behind the recorder. */
#ifndef WIRE_UP_MPI_WRAPPER_H
#define WIRE_UP_MPI_WRAPPER_H

#include "mpi/buffers.h"
#include "mpi/collectives.h"
#include "mpi/completions.h"
#include "mpi/epochs.h"
#include "mpi/files.h"

#include <errno.h>

/* Finds MPI's own function of a name, once, to call it: `known` keeps it. `wrapper` stands before
 * it. */
static inline void *find_function(void **known, const char *name, const void *wrapper, void *caller)
{
    calls_made++;
    void *found = __atomic_load_n(known, __ATOMIC_RELAXED);
    return found ? found : look_up_function(known, name, wrapper, caller);
}

/* Finds the tool's function that comes before MPI's own of a name, once; null where none does. */
static inline void *find_tool(void **known, const char *name, const void *wrapper, void *caller)
{
    void *found = __atomic_load_n(known, __ATOMIC_RELAXED);
    if (!found)
        found = look_up_tool(known, name, wrapper, caller);
    return found == &no_tool ? NULL : found;
}

#endif
