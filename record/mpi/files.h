/* Files that MPI opens or deletes by their names. */
#ifndef WIRE_UP_FILES_H
#define WIRE_UP_FILES_H

#include "mpi/calls.h"

/* Answers when the file of a name last changed; now, where there is none. */
struct timespec find_change(const char *name);

/* Notes that a call succeeded that needed a file of this name to be there, or would make it, as a
 * word says; and when the file had last changed before it. */
void note_file(const char *how, const char *name, struct timespec changed);

#endif
