/* A program of two processes with a collective that is started, and a message between a name that is published and one that is looked up: no
 * race. Where MPI has no such collectives it ends with status 77. */
#include <mpi.h>
#include <stdio.h>

#if MPI_VERSION >= 4 || (defined(OMPI_MAJOR_VERSION) && OMPI_MAJOR_VERSION >= 5)
int main(int count, char **words)
{
    int rank, x = 0;
    char port[MPI_MAX_PORT_NAME] = "";
    MPI_Request request;
    MPI_Init(&count, &words);
    MPI_Comm_rank(MPI_COMM_WORLD, &rank);
    MPI_Barrier_init(MPI_COMM_WORLD, MPI_INFO_NULL, &request);
    MPI_Start(&request);
    MPI_Wait(&request, MPI_STATUS_IGNORE);
    MPI_Request_free(&request);
    if (rank == 0) {
        MPI_Publish_name("port", MPI_INFO_NULL, "port");
        MPI_Send(&x, 1, MPI_INT, 1, 0, MPI_COMM_WORLD);
    }
    if (rank == 1) {
        MPI_Recv(&x, 1, MPI_INT, 0, 0, MPI_COMM_WORLD, MPI_STATUS_IGNORE);
        MPI_Lookup_name("port", MPI_INFO_NULL, port);
    }
    if (rank == 0)
        printf("persistent done\n");
    MPI_Finalize();
    return 0;
}
#else
int main(void)
{
    return 77;
}
#endif
