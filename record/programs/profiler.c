/* A tool between a program and MPI, as profilers are: it counts messages, and makes two calls of each receive. */
#include <mpi.h>
#include <stdio.h>

static int sends;

int MPI_Send(const void *from, int count, MPI_Datatype type, int to, int tag, MPI_Comm comm)
{
    sends++;
    return PMPI_Send(from, count, type, to, tag, comm);
}

int MPI_Recv(void *to, int count, MPI_Datatype type, int from, int tag, MPI_Comm comm,
             MPI_Status *status)
{
    MPI_Request request;
    int error = PMPI_Irecv(to, count, type, from, tag, comm, &request);
    return error == MPI_SUCCESS ? PMPI_Wait(&request, status) : error;
}

int MPI_Finalize(void)
{
    printf("profiler: %d sends\n", sends);
    return PMPI_Finalize();
}
