/* A program of two processes whose functions take counts of more bits: names that are published before a message and a collective, and looked up
 * after them. Where MPI has no such functions it ends with status 77. */
#include <mpi.h>
#include <stdio.h>

#if MPI_VERSION >= 4
static int rank;

static void look_up(const char *name)
{
    char port[MPI_MAX_PORT_NAME] = "";
    MPI_Comm_set_errhandler(MPI_COMM_WORLD, MPI_ERRORS_RETURN);
    MPI_Lookup_name(name, MPI_INFO_NULL, port);
}

static void exchange(void)
{
    char bytes[8] = "";
    if (rank == 0) {
        MPI_Publish_name("sent", MPI_INFO_NULL, "port");
        MPI_Send_c(bytes, 3, MPI_CHAR, 1, 0, MPI_COMM_WORLD);
    }
    if (rank == 1) {
        MPI_Recv_c(bytes, 8, MPI_CHAR, 0, 0, MPI_COMM_WORLD, MPI_STATUS_IGNORE);
        look_up("sent");
    }
}

static void gather(void)
{
    char two[2] = "", all[4];
    MPI_Count counts[2] = {1, 2};
    MPI_Aint places[2] = {0, 1};
    if (rank == 1)
        MPI_Publish_name("gathered", MPI_INFO_NULL, "port");
    MPI_Allgatherv_c(two, rank + 1, MPI_CHAR, all, counts, places, MPI_CHAR, MPI_COMM_WORLD);
    if (rank == 0)
        look_up("gathered");
}

int main(int count, char **words)
{
    MPI_Init(&count, &words);
    MPI_Comm_rank(MPI_COMM_WORLD, &rank);
    exchange();
    gather();
    if (rank == 0)
        printf("large done\n");
    MPI_Finalize();
    return 0;
}
#else
int main(void)
{
    return 77;
}
#endif
