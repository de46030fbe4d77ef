/* Tells the processor time of calls: gets of PMIx, and messages of MPI. It is the mean of all processes. */
#include <mpi.h>
#include <pmix.h>
#include <stdio.h>
#include <time.h>

#define TIMES 10000

static double mean(clock_t ticks)
{
    double mine = (double)ticks / CLOCKS_PER_SEC, all;
    int size;
    MPI_Comm_size(MPI_COMM_WORLD, &size);
    MPI_Allreduce(&mine, &all, 1, MPI_DOUBLE, MPI_SUM, MPI_COMM_WORLD);
    return all / size / TIMES * 1e6;
}

int main(int count, char **words)
{
    int rank, size, x = 0;
    pmix_proc_t me;
    pmix_value_t *value, mine = {.type = PMIX_STRING, .data.string = "v"};
    MPI_Init(&count, &words);
    PMIx_Init(&me, NULL, 0);
    MPI_Comm_rank(MPI_COMM_WORLD, &rank);
    MPI_Comm_size(MPI_COMM_WORLD, &size);
    PMIx_Put(PMIX_GLOBAL, "k", &mine);
    PMIx_Commit();
    MPI_Barrier(MPI_COMM_WORLD);
    clock_t began = clock();
    for (int n = 0; n < TIMES; n++) {
        PMIx_Get(&me, "k", NULL, 0, &value);
        PMIX_VALUE_RELEASE(value);
    }
    double get = mean(clock() - began);
    began = clock();
    for (int n = 0; n < TIMES; n += 100) {
        for (int k = 0; k < 100; k++)
            MPI_Send(&x, 1, MPI_INT, rank ^ 1, 0, MPI_COMM_WORLD);
        for (int k = 0; k < 100; k++)
            MPI_Recv(&x, 1, MPI_INT, rank ^ 1, 0, MPI_COMM_WORLD, MPI_STATUS_IGNORE);
    }
    double message = mean(clock() - began);
    if (rank == 0)
        printf("%d processes, microseconds a call: get %.2f, send and receive %.2f\n", size, get, message);
    PMIx_Finalize(NULL, 0);
    MPI_Finalize();
    return 0;
}
