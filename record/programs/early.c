/* Rank 1 looks a port up that rank 0 publishes. It only waits for a while: mostly that is enough. */
#include <mpi.h>
#include <stdio.h>
#include <unistd.h>

int main(int count, char **words)
{
    char port[MPI_MAX_PORT_NAME] = "";
    int rank;
    MPI_Init(&count, &words);
    MPI_Comm_rank(MPI_COMM_WORLD, &rank);
    if (rank == 0) {
        MPI_Open_port(MPI_INFO_NULL, port);
        MPI_Publish_name("solver", MPI_INFO_NULL, port);
    }
    if (rank == 1) {
        usleep(300000);
        MPI_Lookup_name("solver", MPI_INFO_NULL, port);
    }
    printf("rank %d %s a port\n", rank, *port ? "has" : "needs no");
    MPI_Finalize();
    return 0;
}
