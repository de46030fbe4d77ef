/* Rank 1 looks a port up that rank 0 publishes. Rank 0 tells it by a message when the port is there. */
#include <mpi.h>
#include <stdio.h>

int main(int count, char **words)
{
    char port[MPI_MAX_PORT_NAME] = "";
    int rank;
    MPI_Init(&count, &words);
    MPI_Comm_rank(MPI_COMM_WORLD, &rank);
    if (rank == 0) {
        MPI_Open_port(MPI_INFO_NULL, port);
        MPI_Publish_name("solver", MPI_INFO_NULL, port);
        MPI_Send(NULL, 0, MPI_INT, 1, 0, MPI_COMM_WORLD);
    }
    if (rank == 1) {
        MPI_Recv(NULL, 0, MPI_INT, 0, 0, MPI_COMM_WORLD, MPI_STATUS_IGNORE);
        MPI_Lookup_name("solver", MPI_INFO_NULL, port);
    }
    printf("rank %d %s a port\n", rank, *port ? "has" : "needs no");
    MPI_Finalize();
    return 0;
}
