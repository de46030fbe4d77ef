/* Epochs of windows among some processes: what an origin did before it completes one comes before
 * what a target does once it has waited for it. That is noted as messages in the window. */
#ifndef WIRE_UP_EPOCHS_H
#define WIRE_UP_EPOCHS_H

#include "mpi/messages.h"

/* The side of an epoch: its origins call MPI_Win_start, and its targets MPI_Win_post. */
enum side { ORIGIN, TARGET };

/* Keeps whom an epoch of a window is with that this process begins. */
void keep_epoch(const struct call *call, enum side side, int result, MPI_Group group,
                MPI_Win window);

/* Notes that an origin completes its epoch: just before it does. */
void note_completion(const struct call *call, MPI_Win window);

/* Notes that a target has waited for all origins of its epoch, or has found that all are over. */
void note_awaited(const struct call *call, int result, MPI_Win window, const char *how);

#endif
