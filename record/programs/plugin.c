/* A library for `unseen`: it sends and receives. */
#include <mpi.h>

int plugin_send(const void *from, int count, MPI_Datatype type, int to, int tag, MPI_Comm comm);
int plugin_receive(void *to, int count, MPI_Datatype type, int from, int tag, MPI_Comm comm,
                   MPI_Status *status);

int plugin_send(const void *from, int count, MPI_Datatype type, int to, int tag, MPI_Comm comm)
{
    return MPI_Send(from, count, type, to, tag, comm);
}

int plugin_receive(void *to, int count, MPI_Datatype type, int from, int tag, MPI_Comm comm,
                   MPI_Status *status)
{
    return MPI_Recv(to, count, type, from, tag, comm, status);
}
