/* Sends and receives by helpers, each of which other functions call in turn, from where the stack is the same. */
#include <mpi.h>

#define TIMES 3

static int rank, x;

static void hand(void)
{
    if (rank == 0)
        MPI_Send(&x, 1, MPI_INT, 1, 0, MPI_COMM_WORLD);
    else
        MPI_Recv(&x, 1, MPI_INT, 0, 0, MPI_COMM_WORLD, MPI_STATUS_IGNORE);
}

static void first(void)
{
    hand();
}

static void second(void)
{
    hand();
}

/* Needs as much room on the stack as it is told. */
static void with_room(int count)
{
    char room[count];
    for (int n = 0; n < count; n++)
        room[n] = 0;
    x = room[count - 1];
    hand();
}

int main(int count, char **words)
{
    MPI_Init(&count, &words);
    MPI_Comm_rank(MPI_COMM_WORLD, &rank);
    for (int n = 1; n <= TIMES; n++) {
        first();
        second();
        with_room(100 * n);
    }
    if (rank == 0)
        MPI_Publish_name("port", MPI_INFO_NULL, "port");
    MPI_Barrier(MPI_COMM_WORLD);
    MPI_Finalize();
    return 0;
}
