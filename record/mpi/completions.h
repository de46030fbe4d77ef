/* Calls that complete one request of several, or more. */
#ifndef WIRE_UP_COMPLETIONS_H
#define WIRE_UP_COMPLETIONS_H

#include "mpi/requests.h"

/* The requests of a call that completes some of them, as they are before it. It isn't watched where
 * no receive or collective is among them, or where memory is refused. */
struct watch {
    bool is_on;
    int count, active; /* how many requests of a noted call are active: one alone is waited for */
    uintptr_t mixed;   /* a number for them all */
    MPI_Request *requests;
    MPI_Status *own; /* statuses, where the program takes none */
    MPI_Request few[FEW_REQUESTS];
    MPI_Status few_own[FEW_REQUESTS];
};

/* Begins to watch a call, if it is to be noted. */
void watch_requests(struct watch *watch, const struct call *call, int count,
                    const MPI_Request requests[]);

/* Answers the statuses to hand to MPI: the watch's own where the program ignores them. */
MPI_Status *provide_statuses(struct watch *watch, MPI_Status statuses[]);

/* Notes that all requests are complete; they are as they are after the call. */
void note_all_complete(const struct watch *watch, int result, const MPI_Request requests[],
                       const MPI_Status statuses[], const char *how);

/* Notes that some requests are, as their indices say, and answers how many; `*ended` is MPI's
 * count. */
int note_some_complete(const struct watch *watch, int result, const int *ended, const int indices[],
                       const MPI_Status statuses[], const char *how);

/* Notes that the one of an index is. */
void note_one_complete(const struct watch *watch, int result, const MPI_Request requests[],
                       const int *index, const MPI_Status *status, const char *how);

/* Whether a call has completed a send, as the indices of what it completed say: not a receive or a
 * collective. It is asked before these are noted. */
bool has_send(const struct watch *watch, int some, const int indices[]);

/* The same of a call that completes all, or none. */
bool are_sends(const struct watch *watch);

/* Says how a wait for any of the requests ends. */
const char *name_wait(const struct watch *watch);

/* Says how a poll of any of the requests ends that finds one. */
const char *name_poll(const struct watch *watch);

/* Ends the watch, and answers the result for the program: where it has no statuses of its own, MPI may
 * tell it of the first error of so many requests itself, and not that it stands in a status. */
int end_watch(struct watch *watch, int result, int count);

#endif
