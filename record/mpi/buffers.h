/* The buffer of MPI_Bsend. Which messages are still in it depends on which were received by then. */
#ifndef WIRE_UP_BUFFERS_H
#define WIRE_UP_BUFFERS_H

#include "mpi/library.h"

/* More bytes than any buffer has room for, as of a message that may be sent again and again. */
#define ANY_BYTES (1LL << 40)

/* Notes that there is a buffer of so many bytes, and nothing in it; or none, which has 0. */
void take_buffer(const void *buffer, long long size);

/* Counts a message of so many bytes, if the buffer may have been full and the program goes on then:
 * if all messages since it was there don't fit in at once, and errors in the communicator, which is
 * known, don't end the program. */
void count_buffered(struct counter *of, MPI_Comm comm, long long bytes);

#endif
