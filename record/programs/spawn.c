/* Two jobs: the parents start two children, and all of them meet. */
#include <mpi.h>
#include <stdio.h>

int main(int count, char **words)
{
    MPI_Comm parents, others, all;
    int rank, size, sum;
    MPI_Init(&count, &words);
    MPI_Comm_get_parent(&parents);
    if (parents == MPI_COMM_NULL)
        MPI_Comm_spawn(words[0], MPI_ARGV_NULL, 2, MPI_INFO_NULL, 0, MPI_COMM_WORLD, &others, MPI_ERRCODES_IGNORE);
    else
        others = parents;
    MPI_Intercomm_merge(others, parents != MPI_COMM_NULL, &all);
    MPI_Comm_rank(all, &rank);
    MPI_Comm_size(all, &size);
    MPI_Allreduce(&rank, &sum, 1, MPI_INT, MPI_SUM, all);
    printf("rank %d of %d sum %d%s\n", rank, size, sum, parents == MPI_COMM_NULL ? "" : ", a child");
    MPI_Comm_free(&all);
    MPI_Comm_disconnect(&others);
    MPI_Finalize();
    return 0;
}
