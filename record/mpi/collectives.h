/* Collectives: they are noted when they begin, and when they end with whose data the process waited
 * for. */
#ifndef WIRE_UP_COLLECTIVES_H
#define WIRE_UP_COLLECTIVES_H

#include "mpi/communicators.h"

/* A collective that has begun: its number, 0 where it isn't noted, and its communicator. */
struct collective {
    unsigned long number;
    struct communicator comm;
};

/* Notes that a collective of a kind begins in the communicator or window of a handle. */
struct collective begin_collective(const struct call *call, const char *kind, uintptr_t handle);

/* Whether the arguments of a collective may be asked whose data it waited for. Those of one that
 * failed aren't: they may be why. */
static inline bool is_told(const struct collective *it, int result)
{
    return it->number && result == MPI_SUCCESS;
}

/* Notes that it ended. */
void end_collective(const struct collective *it, int result, const char *sources);

/* Keeps one that doesn't block with its request, whose end is the collective's. */
void keep_begun(const struct collective *it, int result, const MPI_Request *request,
                const char *sources);

/* --- whose data a process waits for, as a record says it. `room` is open, and holds ranks. The
 * count and the type of what the process gets are used only where it gets something. --- */

/* A count for each rank, of one or the other width. */
struct counts {
    const int *plain;
    const MPI_Count *large;
};

static inline struct counts take_plain(const int *them)
{
    return (struct counts){.plain = them};
}

static inline struct counts take_large(const MPI_Count *them)
{
    return (struct counts){.large = them};
}

#define COUNTS(them) \
    _Generic((them), const int *: take_plain, const MPI_Count *: take_large)(them)

/* That of all, if there is any. */
const char *name_all(MPI_Count count, MPI_Datatype type);

/* That of all ranks below it. */
const char *name_below(MPI_Count count, MPI_Datatype type);

/* That of the root, if the process isn't the root. */
const char *name_root(struct text *room, const struct collective *it, int root, int count,
                      MPI_Datatype type);

/* That of all, if the process is the root. */
const char *name_all_at_root(const struct collective *it, int root, MPI_Count count, MPI_Datatype type);

/* That of the ranks whose counts aren't zero, in a type that isn't empty. */
const char *name_counted(struct text *room, const struct collective *it, struct counts counts,
                         MPI_Datatype type);

/* The same, if the process is the root. */
const char *name_counted_at_root(struct text *room, const struct collective *it, int root,
                                 struct counts counts, MPI_Datatype type);

/* The same with a type for each rank. */
const char *name_counted_of_types(struct text *room, const struct collective *it,
                                  struct counts counts, const MPI_Datatype types[]);

/* That of all, if the process' own count isn't zero. */
const char *name_all_by_own(const struct collective *it, struct counts counts, MPI_Datatype type);

#endif
