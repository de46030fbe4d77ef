/* The requests that a process has open, by their handles. */
#ifndef WIRE_UP_REQUESTS_H
#define WIRE_UP_REQUESTS_H

#include "mpi/communicators.h"
#include "mpi/messages.h"

/* Keeps the request of a receive that was posted under a number; forgets its handle where that
 * is 0. */
void keep_receive(MPI_Request request, unsigned long number);

/* Keeps the request of a collective that began under a number, and whose data it waits for. */
void keep_collective(MPI_Request request, unsigned long number, const char *sources);

/* Keeps the request of a send under a number that is over only when its receive has begun. */
void keep_synchronous_send(MPI_Request request, unsigned long number);

/* Keep requests that are started again and again. */
void keep_persistent_send(MPI_Request request, struct envelope to, long long bytes,
                          bool is_synchronous);
void keep_persistent_receive(MPI_Request request, struct envelope from);

/* Keeps a persistent request of which the starts are only counted: that of a collective, or of a
 * partitioned message. None of the messages that are noted is matched with it. */
void keep_counted(MPI_Request request);

/* Keeps the request of a communicator that is made of a parent: it is there when that is over. Its
 * handle is known at once, and may stand where only the call finds it, as in Fortran. */
void keep_duplicate(MPI_Request request, const struct communicator *parent, MPI_Comm made);

/* Forgets what had a handle that is new. */
void forget_request(MPI_Request request);

/* Notes that a request is freed: the end of a receive isn't seen. */
void note_freed(MPI_Request request);

/* Notes that a request is to be cancelled: whether a receive gets a message all the same is left to
 * luck. */
void note_cancel(MPI_Request request);

/* Notes that requests which were made to be started again are about to be. */
void note_starts(const struct call *call, int count, const MPI_Request requests[]);

/* Copies of handles. Memory is asked for only where there are more than a few: a handler of a
 * signal that forks meanwhile would wait for ever. */
#define FEW_REQUESTS 16
struct handles {
    int count;
    MPI_Request *at, few[FEW_REQUESTS];
};
void copy_handles(struct handles *to, int count, const MPI_Request requests[]);

/* Keeps requests by other handles, where a start changed these: MPI may start another request in
 * place of one whose last message isn't gone. The copies are freed. */
void move_changed(struct handles *before, const MPI_Request requests[]);

/* Whether a request has something open whose end is noted: not another send than a synchronous
 * one. */
bool is_open(MPI_Request request);

/* Whether a request that was active is that of a send, as far as is known, or of what orders nothing
 * either: a communicator that is made. */
bool is_active_send(MPI_Request request);

/* Whether a request has something open, as far as is known. */
bool is_active(MPI_Request request);

/* Whether a call that was to complete a request may have done so, by its result, and the handle
 * before and now. It hasn't where it failed and the handle stays, unless it is that of a persistent
 * request, and what failed isn't the call for its arguments. */
bool is_over(int result, MPI_Request before, const MPI_Request *now);

/* Notes that a request is complete: it is its handle before. */
void note_complete(MPI_Request request, int result, const MPI_Status *status, const char *how);

/* Notes how a collective ended: whose data the process waited for, and how it waited. */
void note_collected(unsigned long number, int result, const char *sources, const char *how);

#endif
