/* Messages: sends are noted when they are called, receives when they are posted and when they are
 * complete. */
#ifndef WIRE_UP_MESSAGES_H
#define WIRE_UP_MESSAGES_H

#include "mpi/calls.h"
#include "mpi/library.h"

/* What a message is matched by: the rank is that of its other side. */
struct envelope {
    MPI_Comm comm;
    int rank, tag;
};

/* Adds something to a number that stands for all that was added, and for nothing else: two numbers
 * are alike once in 2^64. */
static inline uint64_t mix_in(uint64_t number, uint64_t more)
{
    number = (number ^ more) * 0xbf58476d1ce4e5b9u;
    number = (number ^ number >> 31) * 0x94d049bb133111ebu;
    return number ^ number >> 29;
}

/* Answers a number for a message that is asked for. */
static inline uint64_t mix_envelope(struct envelope it)
{
    return mix_in((uintptr_t)it.comm, (uint64_t)(unsigned)it.rank << 32 | (unsigned)it.tag);
}

/* How a request ended: the process waited for it, it asked whether it was over, or it waited for
 * any of several. */
#define WAITED "wait"
#define POLLED "poll"
#define ONE_OF_SOME "some"

/* Note that a message is sent, that a receive is posted, and that a probe begins. They answer the
 * number of the call; 0 where it can't be matched. */
unsigned long note_send(const struct call *call, struct envelope to, long long bytes);
unsigned long note_receive(const struct call *call, struct envelope from);
unsigned long note_probe(const struct call *call, struct envelope from);

/* Notes that a send ended, for one that ends only when its receive has begun, and how that was
 * found. */
void note_sent(unsigned long number, int result, const char *how);

/* Notes that a send failed. Nothing where its number is 0. */
void note_unsent(unsigned long number);

/* Whether a call was refused for what it was given. */
bool is_refused(int result);

/* Whether a receive that is over got no message, since it was cancelled in time. */
bool is_cancelled(int result, const MPI_Status *status);

/* Notes how a receive or a probe ended. Nothing where its number is 0. One whose buffer is too small
 * for its message has got that. */
void note_received(unsigned long number, int result, const MPI_Status *status, const char *how);

/* Answers the status to hand to MPI: the recorder's own where one is needed, and the program
 * ignores it. */
static inline MPI_Status *choose_status(bool is_needed, MPI_Status *status, MPI_Status *own)
{
    return is_needed && status == MPI_STATUS_IGNORE ? own : status;
}

#endif
