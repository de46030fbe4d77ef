/* A program that opens a library, whose path is the first word. That is this file with -DFIRST: it
 * needs the one with -DSECOND, which needs the one with -DTHIRD. The constructor of the third calls
 * MPI before it says that it is ready, and that of the second must find that. */
#include <dlfcn.h>
#include <mpi.h>
#include <stdio.h>

extern int is_third_ready, was_third_ready;
int tell(void);

#if defined(THIRD)

int is_third_ready;

__attribute__((constructor)) static void begin(void)
{
    int is_there;
    MPI_Iprobe(0, 0, MPI_COMM_SELF, &is_there, MPI_STATUS_IGNORE);
    is_third_ready = 1;
}

#elif defined(SECOND)

int was_third_ready;

__attribute__((constructor)) static void begin(void) { was_third_ready = is_third_ready; }

#elif defined(FIRST)

int tell(void) { return was_third_ready; }

#else

int main(int count, char **words)
{
    int (*tells)(void) = NULL;
    MPI_Init(&count, &words);
    void *library = count > 1 ? dlopen(words[1], RTLD_NOW) : NULL;
    if (library)
        *(void **)&tells = dlsym(library, "tell");
    printf("the third was %s\n", tells && tells() ? "ready" : "not ready");
    MPI_Finalize();
    return 0;
}

#endif
