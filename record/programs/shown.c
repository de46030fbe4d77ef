/* Small programs with a race on the name `port` or another one, which a held call shows. Without a hold the plain order comes nearly always: a process
 * waits a little. The first word says which:
 *
 *   branch      without the name process 1 publishes one of its own, and dies of a null pointer; abort: it aborts with status 7
 *   hang        without the name process 1 sends no message, and process 0 waits for it for ever
 *   bigsend     process 1 has begun a large send before it looks up, and process 0 publishes once that has come
 *   file        no race, but only a file says so: process 1 waits for it, which process 0 makes after it has published
 *   third       two processes publish the name: a lookup is early only if both are late
 *   unpublished the name goes away after a barrier, where another process looks it up and a third publishes it
 *   value       two publish the name with other values, and a third looks it up later
 *   stop        a lookup that fails leaves a publish out, and so the lookup of a third process fails
 *   random      as third, but one takes the name away that another published with another value in each run: both orders do the same
 *   alarm       process 0 may take a second to publish, and process 1 looks up after two
 *   children    each process starts another, which looks the name up while it is published; heirs: once it is, which is no race
 *   input       writes what it has read, and is `branch` without the death
 */
#include <mpi.h>
#include <stdio.h>
#include <string.h>
#include <sys/stat.h>
#include <time.h>
#include <unistd.h>

#define MILLISECONDS 1000
static int rank, x;

static void publish(const char *name, const char *value)
{
    MPI_Publish_name(name, MPI_INFO_NULL, value);
}

/* Answers whether the name is there. */
static int look_up(const char *name)
{
    char port[MPI_MAX_PORT_NAME] = "";
    return MPI_Lookup_name(name, MPI_INFO_NULL, port) == MPI_SUCCESS;
}

static void be_on_own(const char *word)
{
    if (rank == 0)
        publish("port", "value");
    if (rank != 1)
        return;
    usleep(200 * MILLISECONDS);
    if (look_up("port")) {
        printf("joined\n");
        return;
    }
    if (!strcmp(word, "abort"))
        MPI_Abort(MPI_COMM_WORLD, 7);
    publish("own", "value");
    printf("alone\n");
    fflush(stdout);
    if (!strcmp(word, "branch"))
        *(volatile int *)0 = 1;
}

static void hang(void)
{
    if (rank == 0) {
        publish("port", "value");
        MPI_Recv(&x, 1, MPI_INT, 1, 1, MPI_COMM_WORLD, MPI_STATUS_IGNORE);
    }
    if (rank == 1) {
        usleep(200 * MILLISECONDS);
        if (look_up("port"))
            MPI_Send(&x, 1, MPI_INT, 0, 1, MPI_COMM_WORLD);
    }
}

static void send_much(void)
{
    static char much[1 << 24];
    MPI_Request request;
    if (rank == 0) {
        MPI_Recv(much, sizeof much, MPI_CHAR, 1, 1, MPI_COMM_WORLD, MPI_STATUS_IGNORE);
        publish("port", "value");
    }
    if (rank == 1) {
        MPI_Isend(much, sizeof much, MPI_CHAR, 0, 1, MPI_COMM_WORLD, &request);
        look_up("port");
        MPI_Wait(&request, MPI_STATUS_IGNORE);
    }
}

static void wait_for_file(const char *path)
{
    struct stat it;
    if (rank == 0)
        unlink(path);
    MPI_Barrier(MPI_COMM_WORLD);
    if (rank == 0) {
        publish("port", "value");
        fclose(fopen(path, "w"));
    }
    if (rank == 1) {
        while (stat(path, &it))
            usleep(MILLISECONDS);
        look_up("port");
    }
}

static void third(void)
{
    usleep((unsigned)(rank == 0 ? 100 : rank == 2 ? 200 : 300) * MILLISECONDS);
    if (rank == 1)
        look_up("port");
    else
        publish("port", "value");
}

static void unpublish(void)
{
    if (rank == 0)
        publish("port", "value");
    MPI_Barrier(MPI_COMM_WORLD);
    if (rank == 1)
        look_up("port");
    usleep((unsigned)(300 * rank) * MILLISECONDS);
    if (rank == 0) {
        usleep(300 * MILLISECONDS);
        MPI_Unpublish_name("port", MPI_INFO_NULL, "value");
    }
    if (rank == 2)
        publish("port", "value");
}

static void differ(void)
{
    usleep((unsigned)(100 * rank) * MILLISECONDS);
    if (rank < 2)
        publish("port", rank ? "one" : "zero");
    MPI_Barrier(MPI_COMM_WORLD);
    if (rank == 2)
        look_up("port");
}

static void stop(void)
{
    usleep((unsigned)(150 * rank) * MILLISECONDS);
    if (rank == 0)
        publish("port", "value");
    if (rank == 1 && look_up("port"))
        publish("second", "value");
    if (rank == 2)
        look_up("second");
}

static void change(void)
{
    struct timespec now;
    char value[32];
    clock_gettime(CLOCK_REALTIME, &now);
    snprintf(value, sizeof value, "v%ld", now.tv_nsec / 1000 % 100000);
    usleep((unsigned)(150 * rank) * MILLISECONDS);
    if (rank == 0)
        publish("port", value);
    if (rank == 1)
        MPI_Unpublish_name("port", MPI_INFO_NULL, "value");
    MPI_Barrier(MPI_COMM_WORLD);
    if (rank == 2)
        look_up("port");
}

static void be_in_time(void)
{
    if (rank == 0) {
        alarm(1);
        publish("port", "value");
        alarm(0);
    }
    if (rank == 1) {
        sleep(2);
        look_up("port");
    }
}

/* A process that was started looks up; answers whether this is one. */
static int is_child(void)
{
    MPI_Comm parents;
    MPI_Comm_get_parent(&parents);
    if (parents == MPI_COMM_NULL)
        return 0;
    usleep(300 * MILLISECONDS);
    printf("child: %d\n", look_up("port"));
    MPI_Comm_disconnect(&parents);
    return 1;
}

static void start_child(const char *program, int is_early)
{
    MPI_Comm child;
    if (is_early)
        publish("port", "value");
    MPI_Comm_spawn(program, MPI_ARGV_NULL, 1, MPI_INFO_NULL, 0, MPI_COMM_WORLD, &child, MPI_ERRCODES_IGNORE);
    if (!is_early)
        publish("port", "value");
    MPI_Comm_disconnect(&child);
}

static void read_all(void)
{
    char line[256];
    while (rank == 0 && fgets(line, sizeof line, stdin))
        printf("read %s", line);
}

int main(int count, char **words)
{
    MPI_Init(&count, &words);
    MPI_Comm_rank(MPI_COMM_WORLD, &rank);
    MPI_Comm_set_errhandler(MPI_COMM_WORLD, MPI_ERRORS_RETURN);
    const char *word = count > 1 ? words[1] : "";
    int is_started = is_child();
    if (!is_started && (!strcmp(word, "children") || !strcmp(word, "heirs")))
        start_child(words[0], word[0] == 'h');
    if (!strcmp(word, "input"))
        read_all();
    if (!strcmp(word, "branch") || !strcmp(word, "abort") || !strcmp(word, "input"))
        be_on_own(word);
    if (!strcmp(word, "hang"))
        hang();
    if (!strcmp(word, "bigsend"))
        send_much();
    if (!strcmp(word, "file") && count > 2)
        wait_for_file(words[2]);
    if (!strcmp(word, "third"))
        third();
    if (!strcmp(word, "unpublished"))
        unpublish();
    if (!strcmp(word, "value"))
        differ();
    if (!strcmp(word, "stop"))
        stop();
    if (!strcmp(word, "random"))
        change();
    if (!strcmp(word, "alarm"))
        be_in_time();
    MPI_Finalize();
    return 0;
}
