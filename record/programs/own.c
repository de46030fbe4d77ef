/* Process 0 takes messages of any source, and nothing that it calls of PMIx depends on them. The words by which it is compiled say to what its
 * own code refers besides, though it never calls that:
 *
 *   -DBY_LIBRARY     a function of a library of its own, which is this file with -DLIBRARY, and looks up a name of MPI, or with -DBY_OPENING too
 *   -DBY_SYSTEM      the system's call by which another program takes its place
 *   -DBY_OPENING     the function that opens a library
 *   -DBY_FUNCTION    the function of PMIx that looks up a name
 *   -DBY_SCRIPT      the function that starts an interpreter of Python, here of a library which is this file with -DINTERPRETER
 */
#include <dlfcn.h>
#include <mpi.h>
#include <stdio.h>
#include <sys/syscall.h>
#include <unistd.h>

int PMIx_Lookup(void *, size_t, const void *, size_t);
void Py_Initialize(void);
void ask(void);

#ifdef INTERPRETER
void Py_Initialize(void)
{
}
#elif defined LIBRARY
void ask(void)
{
#ifdef BY_OPENING
    dlopen("libask.so", RTLD_NOW);
#else
    char port[MPI_MAX_PORT_NAME];
    MPI_Lookup_name("port", MPI_INFO_NULL, port);
#endif
}
#else
#ifndef BY_LIBRARY
void ask(void)
{
#ifdef BY_SYSTEM
    syscall(SYS_execve, "/bin/true", NULL, NULL);
#elif defined BY_OPENING
    dlopen("libask.so", RTLD_NOW);
#elif defined BY_FUNCTION
    PMIx_Lookup(NULL, 0, NULL, 0);
#elif defined BY_SCRIPT
    Py_Initialize();
#endif
}
#endif

int main(int count, char **words)
{
    int rank, size, x = 0, sum = 0;
    MPI_Init(&count, &words);
    MPI_Comm_rank(MPI_COMM_WORLD, &rank);
    MPI_Comm_size(MPI_COMM_WORLD, &size);
    for (int n = 0; rank == 0 && n < 2 * (size - 1); n++) {
        MPI_Status status;
        MPI_Recv(&x, 1, MPI_INT, MPI_ANY_SOURCE, 0, MPI_COMM_WORLD, &status);
        MPI_Send(&x, 1, MPI_INT, status.MPI_SOURCE, 0, MPI_COMM_WORLD);
        sum += x;
    }
    for (int n = 0; rank > 0 && n < 2; n++) {
        MPI_Send(&rank, 1, MPI_INT, 0, 0, MPI_COMM_WORLD);
        MPI_Recv(&x, 1, MPI_INT, 0, 0, MPI_COMM_WORLD, MPI_STATUS_IGNORE);
    }
    if (sum < 0)
        ask();
    MPI_Finalize();
    if (rank == 0)
        printf("own done\n");
    return 0;
}
#endif
