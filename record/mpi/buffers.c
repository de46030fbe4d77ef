/* The buffer of MPI_Bsend. */
#include "mpi/buffers.h"

#include <limits.h>

/* How many bytes it has, and how many the messages needed that it was given. */
static long long room, needed;

/* Whether MPI makes room itself. */
static bool is_automatic(const void *buffer)
{
#ifdef MPI_BUFFER_AUTOMATIC
    return buffer == MPI_BUFFER_AUTOMATIC;
#else
    (void)buffer;
    return false;
#endif
}

void take_buffer(const void *buffer, long long size)
{
    __atomic_store_n(&room, is_automatic(buffer) ? LLONG_MAX : size, __ATOMIC_RELAXED);
    __atomic_store_n(&needed, 0, __ATOMIC_RELAXED);
}

/* Whether the program goes on after an error in a communicator. */
static bool returns_errors(MPI_Comm comm)
{
    MPI_Errhandler found;
    if (mpi.comm_get_errhandler(comm, &found) != MPI_SUCCESS)
        return true;
    bool is_end = found == mpi.errors_are_fatal || found == mpi.errors_abort;
    mpi.errhandler_free(&found);
    return !is_end;
}

void count_buffered(struct counter *of, MPI_Comm comm, long long bytes)
{
    long long all = __atomic_add_fetch(&needed, bytes + MPI_BSEND_OVERHEAD, __ATOMIC_RELAXED);
    if (all > __atomic_load_n(&room, __ATOMIC_RELAXED) && returns_errors(comm))
        wire_up_count_alone(of);
}
