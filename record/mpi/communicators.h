/* The communicators that a process has, by their handles. A window counts as one: its fences are
 * collectives of their own. */
#ifndef WIRE_UP_COMMUNICATORS_H
#define WIRE_UP_COMMUNICATORS_H

#include "mpi/calls.h"
#include "mpi/library.h"

#include <stdint.h>

/* A communicator: its number in the recording, and how many were made of it. */
struct communicator {
    uintptr_t handle;
    unsigned number, made;
    int size, rank; /* of the processes that its collectives and messages are with: on an
                       intercommunicator the remote ones, and no rank */
    bool is_inter;
    bool has_epoch; /* a window: a fence of it may have begun one */
    struct communicator *next;
};

/* Answers a copy of what is known of a communicator; its number is 0 where nothing is. */
struct communicator find_communicator(uintptr_t handle);

/* Answers its number alone, 0 where nothing is known: mostly without a lock. */
unsigned number_of_communicator(uintptr_t handle);

/* Forgets what had a handle that is free or new, or, where it was freed, what had that and a number:
 * another thread may have made what has it now. A forked child does nothing: it may find the lock
 * held by a thread that it hasn't. */
void forget_communicator(uintptr_t handle);
void forget_freed(uintptr_t handle, unsigned number);

/* Notes the world the first time that MPI is there; and lets go of it, before MPI_Finalize: sessions
 * may come later. */
void note_world(void);
void leave_world(void);

/* Answers the parent of a communicator that is to be made, where the call is noted, with which one
 * of its children that will be. Its number is 0 where nothing is known of it. */
struct communicator begin_child(const struct call *call, MPI_Comm parent);

/* Counts a child that is made: every process of the parent counts the same. */
void count_child(const struct communicator *parent);

/* Notes what was made of a parent, and counts it. */
void note_child(const struct communicator *parent, int result, const MPI_Comm *made);

/* Notes what some processes of a parent made by themselves: the others don't count it. */
void note_child_of_group(const struct communicator *parent, int result, const MPI_Comm *made,
                         int tag);

/* Notes that a session is there, with the group of all processes of the world, which is kept until
 * the last session is left. MPI_COMM_WORLD need not be there. */
void note_session(MPI_Group world);
void leave_session(void);

/* Notes a communicator that the processes of a group made with a tag, and without a parent. */
void note_of_session(const struct call *call, int result, const MPI_Comm *made, const char *tag);

/* Notes a communicator that was made of a parent, and has the same processes. */
void note_duplicate(const struct communicator *parent, MPI_Comm made);

/* Takes a fence of a window, with what the program asserts of it, and answers whether it may end an
 * epoch. */
bool take_fence(uintptr_t window, int how);

/* Notes a window that was made over the processes of a communicator, and counts it. */
void note_window(const struct communicator *parent, int result, MPI_Comm comm, const MPI_Win *made);

#endif
