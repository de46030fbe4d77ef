/* Requests of which one gets a message that is too large, in each call that completes some or all, with statuses and without. Process 0 says what
 * each call answers. */
#include <mpi.h>
#include <stdio.h>

enum { COUNT = 3, WAYS = 4 };

static MPI_Request requests[COUNT];
static MPI_Status statuses[COUNT];

static int complete(int way, MPI_Status *told)
{
    int result = MPI_SUCCESS, some = 0, is_over = 0, which[COUNT];
    if (way == 0)
        return MPI_Waitall(COUNT, requests, told);
    if (way == 1)
        return MPI_Waitsome(COUNT, requests, &some, which, told);
    while (way == 2 && result == MPI_SUCCESS && !is_over)
        result = MPI_Testall(COUNT, requests, &is_over, told);
    while (way == 3 && result == MPI_SUCCESS && some == 0)
        result = MPI_Testsome(COUNT, requests, &some, which, told);
    return result;
}

/* The messages are there before any call: all requests are over at once. */
static void exchange(int rank, int way, MPI_Status *told)
{
    int values[2] = {0}, got[COUNT];
    for (int n = 0; rank == 0 && n < COUNT; n++)
        MPI_Irecv(&got[n], 1, MPI_INT, 1, n, MPI_COMM_WORLD, &requests[n]);
    for (int n = 0; rank == 1 && n < COUNT; n++)
        MPI_Send(values, n == 1 ? 2 : 1, MPI_INT, 0, n, MPI_COMM_WORLD);
    MPI_Barrier(MPI_COMM_WORLD);
    if (rank == 0) {
        printf("%d with%s statuses: %d\n", way, told == statuses ? "" : "out", complete(way, told));
        MPI_Waitall(COUNT, requests, MPI_STATUSES_IGNORE);
    }
}

static int errors;

static void count_error(MPI_Comm *comm, int *error, ...)
{
    (void)comm;
    (void)error;
    errors++;
}

/* What is wrong in a call is told to its own communicator alone. */
static void send_nothing(int rank)
{
    MPI_Comm own;
    MPI_Errhandler handler;
    MPI_Comm_dup(MPI_COMM_WORLD, &own);
    MPI_Comm_set_errhandler(own, MPI_ERRORS_RETURN);
    MPI_Comm_create_errhandler(count_error, &handler);
    MPI_Comm_set_errhandler(MPI_COMM_WORLD, handler);
    MPI_Comm_set_errhandler(MPI_COMM_SELF, handler);
    int result = MPI_Send(&rank, 1, MPI_DATATYPE_NULL, 0, 0, own);
    if (rank == 0)
        printf("a send of no type: %d, told to others: %d\n", result != MPI_SUCCESS, errors);
}

int main(int count, char **words)
{
    int rank;
    MPI_Init(&count, &words);
    MPI_Comm_rank(MPI_COMM_WORLD, &rank);
    MPI_Comm_set_errhandler(MPI_COMM_WORLD, MPI_ERRORS_RETURN);
    for (int way = 0; way < WAYS; way++) {
        exchange(rank, way, statuses);
        exchange(rank, way, MPI_STATUSES_IGNORE);
    }
    send_nothing(rank);
    MPI_Finalize();
    return 0;
}
