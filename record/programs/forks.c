/* Programs of two processes that must end as without the recorder. Process 0 publishes the name
 * `port` before it sends a message, and process 1 looks it up after that: no race. Before,
 * process 0 does what the first word says:
 *
 *   child    forks children that open and close a library, while other threads make their calls
 *            from places in the code that are new
 *   opening  opens the library that the second word names, while other threads make such calls: its
 *            constructor makes some too. With -DLIBRARY this file is that library
 *   ending   polls in a thread, and where that ends, once more for other messages */
#define _GNU_SOURCE
#include <dlfcn.h>
#include <mpi.h>
#include <pthread.h>
#include <stdio.h>
#include <stdlib.h>
#include <string.h>
#include <sys/wait.h>
#include <unistd.h>

/* Each is a place in the code. */
#define PLACE(n) \
    if (from <= n && n < to) \
        MPI_Iprobe(0, n, MPI_COMM_SELF, &is_there, MPI_STATUS_IGNORE);
#define PLACES4(n) PLACE(n) PLACE(n + 1) PLACE(n + 2) PLACE(n + 3)
#define PLACES16(n) PLACES4(n) PLACES4(n + 4) PLACES4(n + 8) PLACES4(n + 12)
#define PLACES64(n) PLACES16(n) PLACES16(n + 16) PLACES16(n + 32) PLACES16(n + 48)
#define PLACES256(n) PLACES64(n) PLACES64(n + 64) PLACES64(n + 128) PLACES64(n + 192)
#define PLACES1024(n) PLACES256(n) PLACES256(n + 256) PLACES256(n + 512) PLACES256(n + 768)
#define ALL_PLACES 2048

static void call_from(int from, int to)
{
    int is_there;
    PLACES1024(0)
    PLACES1024(1024)
}

#ifdef LIBRARY

__attribute__((constructor)) static void call_while_opened(void)
{
    call_from(0, ALL_PLACES);
}

#else

#define THREADS 2
#define CHILDREN 100

#define POLLS 8

static int rank, x, next_place;
static pthread_key_t key;

static void *call_from_new_places(void *data)
{
    int place;
    while ((place = __atomic_fetch_add(&next_place, 1, __ATOMIC_RELAXED)) < ALL_PLACES)
        call_from(place, place + 1);
    return data;
}

static void open_and_close(const char *path)
{
    void *library = dlopen(path, RTLD_NOW);
    if (library)
        dlclose(library);
    else
        printf("%s\n", dlerror());
}

static void fork_children(const char *path)
{
    for (int n = 0; n < CHILDREN; n++) {
        pid_t child = fork();
        if (child == 0) {
            open_and_close(path);
            exit(0);
        }
        if (child > 0)
            waitpid(child, NULL, 0);
    }
}

static void call_meanwhile(void act(const char *), const char *path)
{
    pthread_t threads[THREADS];
    for (int n = 0; n < THREADS; n++)
        pthread_create(&threads[n], NULL, call_from_new_places, NULL);
    act(path);
    for (int n = 0; n < THREADS; n++)
        pthread_join(threads[n], NULL);
}

/* Each asks for a message of its own. */
static void poll_for(int from, int to)
{
    int is_there;
    for (int tag = from; tag < to; tag++)
        MPI_Iprobe(0, tag, MPI_COMM_SELF, &is_there, MPI_STATUS_IGNORE);
}

static void poll_at_end(void *data)
{
    (void)data;
    poll_for(POLLS, 10 * POLLS);
}

static void *poll_and_end(void *data)
{
    pthread_setspecific(key, &key);
    poll_for(0, POLLS);
    return data;
}

static void end_thread(void)
{
    pthread_t thread;
    pthread_key_create(&key, poll_at_end);
    pthread_create(&thread, NULL, poll_and_end, NULL);
    pthread_join(thread, NULL);
}

static void tell(void)
{
    char port[MPI_MAX_PORT_NAME] = "";
    if (rank == 0)
        MPI_Send(&x, 1, MPI_INT, 1, 0, MPI_COMM_WORLD);
    if (rank == 1) {
        MPI_Recv(&x, 1, MPI_INT, 0, 0, MPI_COMM_WORLD, MPI_STATUS_IGNORE);
        MPI_Lookup_name("port", MPI_INFO_NULL, port);
    }
}

int main(int count, char **words)
{
    const char *which = count > 1 ? words[1] : "", *path = count > 2 ? words[2] : "";
    int given;
    MPI_Init_thread(&count, &words, MPI_THREAD_MULTIPLE, &given);
    MPI_Comm_rank(MPI_COMM_WORLD, &rank);
    if (rank == 0) {
        MPI_Publish_name("port", MPI_INFO_NULL, "port");
        if (!strcmp(which, "child"))
            call_meanwhile(fork_children, "libm.so.6");
        else if (!strcmp(which, "opening"))
            call_meanwhile(open_and_close, path);
        else if (!strcmp(which, "ending"))
            end_thread();
        printf("%s done\n", which);
        fflush(stdout);
    }
    tell();
    MPI_Finalize();
    return 0;
}

#endif
