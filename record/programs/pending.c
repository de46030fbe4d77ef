/* A program that can't open a library, and asks why after its first calls of two functions of MPI.
 */
#include <dlfcn.h>
#include <mpi.h>
#include <stdio.h>

int main(int count, char **words)
{
    MPI_Init(&count, &words);
    int is_open = dlopen("libnotthere.so", RTLD_NOW) != NULL, are_open, is_there;
    MPI_Iprobe(0, 0, MPI_COMM_SELF, &is_there, MPI_STATUS_IGNORE);
    MPI_Allreduce(&is_open, &are_open, 1, MPI_INT, MPI_LAND, MPI_COMM_WORLD);
    const char *why = dlerror();
    printf("%s\n", why ? why : "nothing is said");
    MPI_Finalize();
    return 0;
}
