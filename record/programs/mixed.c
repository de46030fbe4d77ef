/* A program in C with parts in Fortran. It has a race on the name `port`: who sees only what C calls takes the second message or barrier for the
 * first, and misses it. The first word is `message` or `barrier`. */
#include <mpi.h>
#include <stdio.h>
#include <string.h>
#include <unistd.h>

void fortran_send(void);
void fortran_receive(void);
void fortran_barrier(void);

static int rank, x;

static void look_up(void)
{
    char port[MPI_MAX_PORT_NAME] = "";
    MPI_Comm_set_errhandler(MPI_COMM_WORLD, MPI_ERRORS_RETURN);
    usleep(300000);
    MPI_Lookup_name("port", MPI_INFO_NULL, port);
}

static void exchange(void)
{
    if (rank == 0) {
        fortran_send();
        MPI_Publish_name("port", MPI_INFO_NULL, "port");
        MPI_Send(&x, 1, MPI_INT, 1, 3, MPI_COMM_WORLD);
    }
    if (rank == 1) {
        MPI_Recv(&x, 1, MPI_INT, 0, 3, MPI_COMM_WORLD, MPI_STATUS_IGNORE);
        look_up();
        fortran_receive();
    }
}

static void meet(void)
{
    if (rank == 0) {
        fortran_barrier();
        MPI_Publish_name("port", MPI_INFO_NULL, "port");
        MPI_Barrier(MPI_COMM_WORLD);
    } else {
        MPI_Barrier(MPI_COMM_WORLD);
        if (rank == 1)
            look_up();
        fortran_barrier();
    }
}

int main(int count, char **words)
{
    const char *which = count > 1 ? words[1] : "";
    MPI_Init(&count, &words);
    MPI_Comm_rank(MPI_COMM_WORLD, &rank);
    if (!strcmp(which, "message"))
        exchange();
    else if (!strcmp(which, "barrier"))
        meet();
    if (rank == 0)
        printf("%s done\n", which);
    MPI_Finalize();
    return 0;
}
