/* A program that takes its memory itself. It holds the lock for that while it forks, and meanwhile
 * two threads call MPI from places in the code that are new, and open and close a library. */
#include <dlfcn.h>
#include <mpi.h>
#include <pthread.h>
#include <stdio.h>
#include <stdlib.h>
#include <sys/wait.h>
#include <unistd.h>

#define THREADS 2
#define CHILDREN 300
#define PLACES 32
#define DEPTHS 20

void *__libc_malloc(size_t);
void *__libc_calloc(size_t, size_t);
void *__libc_realloc(void *, size_t);
void __libc_free(void *);

static pthread_mutex_t memory = PTHREAD_MUTEX_INITIALIZER;

static void take(void) { pthread_mutex_lock(&memory); }

static void give(void) { pthread_mutex_unlock(&memory); }

static void *given(void *it)
{
    give();
    return it;
}

void *malloc(size_t size)
{
    take();
    return given(__libc_malloc(size));
}

void *calloc(size_t count, size_t size)
{
    take();
    return given(__libc_calloc(count, size));
}

void *realloc(void *it, size_t size)
{
    take();
    return given(__libc_realloc(it, size));
}

void free(void *it)
{
    take();
    __libc_free(it);
    give();
}

static volatile int is_over;

#define CALL(n) \
    if (place == n) \
        MPI_Iprobe(0, n, MPI_COMM_SELF, &is_there, MPI_STATUS_IGNORE);
#define CALL4(n) CALL(n) CALL(n + 1) CALL(n + 2) CALL(n + 3)
#define CALL16(n) CALL4(n) CALL4(n + 4) CALL4(n + 8) CALL4(n + 12)

static void call(int place, int depth)
{
    int is_there;
    if (depth) {
        call(place, depth - 1);
        __asm__ volatile("");
        return;
    }
    CALL16(0)
    CALL16(16)
}

static void *call_and_open(void *data)
{
    for (int n = 0; !is_over; n++) {
        call(n % PLACES, n / PLACES % DEPTHS);
        void *library = dlopen("libBrokenLocale.so.1", RTLD_NOW);
        if (library)
            dlclose(library);
    }
    return data;
}

int main(int count, char **words)
{
    pthread_t threads[THREADS];
    int level;
    MPI_Init_thread(&count, &words, MPI_THREAD_MULTIPLE, &level);
    pthread_atfork(take, give, give);
    for (int n = 0; n < THREADS; n++)
        pthread_create(&threads[n], NULL, call_and_open, NULL);
    for (int n = 0; n < CHILDREN; n++) {
        pid_t child = fork();
        if (child == 0)
            _exit(0);
        if (child > 0)
            waitpid(child, NULL, 0);
    }
    is_over = 1;
    for (int n = 0; n < THREADS; n++)
        pthread_join(threads[n], NULL);
    printf("done\n");
    MPI_Finalize();
    return 0;
}
