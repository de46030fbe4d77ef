/* Small programs in each of which one process publishes a name and another looks it up. The first word says which:
 *
 *   wild1, wild2      a receive from any source, of which 1 or 2 is the slower sender: a race, whoever sleeps
 *   poll              a poll that succeeds, for luck: a race that only --strict shows
 *   probe, matched, later, split, window, duplicate, epoch, inter, merged, jump, begun, unsent
 *                     no race: ordered by a probe, a matched probe, a collective that doesn't block, a communicator or a window that is made,
 *                     an epoch, a message after a jump out of MPI or failed calls, a synchronous send; tags: each has its own; failed: a race, in part
 *   limit             the recording gets no more room than it has when the first message is sent; scattered: nothing is, and nobody waits: a race
 *   sleep             takes six seconds; many and toomany: each process publishes 100 names, or 5000, and takes each away at once
 */
#include <mpi.h>
#include <setjmp.h>
#include <stdio.h>
#include <string.h>
#include <sys/resource.h>
#include <unistd.h>

static int rank, size, x;
static jmp_buf back;

static void publish(const char *name)
{
    MPI_Publish_name(name, MPI_INFO_NULL, "port");
}

static void look_up(const char *name)
{
    char port[MPI_MAX_PORT_NAME] = "";
    MPI_Comm_set_errhandler(MPI_COMM_WORLD, MPI_ERRORS_RETURN);
    MPI_Lookup_name(name, MPI_INFO_NULL, port);
}

static void wild(int slower)
{
    if (rank == 1 || rank == 2) {
        if (rank == slower)
            usleep(200000);
        publish(rank == 1 ? "first" : "second");
        MPI_Send(&rank, 1, MPI_INT, 0, 0, MPI_COMM_WORLD);
    }
    if (rank == 0) {
        MPI_Recv(&x, 1, MPI_INT, MPI_ANY_SOURCE, 0, MPI_COMM_WORLD, MPI_STATUS_IGNORE);
        look_up("first"); /* it isn't there for sure if the message of 2 came first */
        MPI_Recv(&x, 1, MPI_INT, MPI_ANY_SOURCE, 0, MPI_COMM_WORLD, MPI_STATUS_IGNORE);
        look_up("second");
    }
}

static void poll(void)
{
    MPI_Request request;
    int is_there = 0;
    if (rank == 1) {
        publish("port");
        MPI_Send(&rank, 1, MPI_INT, 0, 0, MPI_COMM_WORLD);
    }
    if (rank == 0) {
        MPI_Irecv(&x, 1, MPI_INT, 1, 0, MPI_COMM_WORLD, &request);
        usleep(300000);
        MPI_Test(&request, &is_there, MPI_STATUS_IGNORE);
        look_up("port");
        if (!is_there)
            MPI_Wait(&request, MPI_STATUS_IGNORE);
    }
}

static void probe(int is_matched)
{
    MPI_Status status;
    MPI_Message message;
    if (rank == 1) {
        publish("port");
        MPI_Send(&rank, 1, MPI_INT, 0, 0, MPI_COMM_WORLD);
    }
    if (rank == 0 && is_matched) {
        MPI_Mprobe(MPI_ANY_SOURCE, 0, MPI_COMM_WORLD, &message, &status);
        MPI_Mrecv(&x, 1, MPI_INT, &message, MPI_STATUS_IGNORE);
        look_up("port");
    } else if (rank == 0) {
        MPI_Probe(MPI_ANY_SOURCE, 0, MPI_COMM_WORLD, &status);
        look_up("port");
        MPI_Recv(&x, 1, MPI_INT, status.MPI_SOURCE, 0, MPI_COMM_WORLD, MPI_STATUS_IGNORE);
    }
}

static void later(void)
{
    MPI_Request request;
    if (rank == 0)
        publish("port");
    MPI_Ibarrier(MPI_COMM_WORLD, &request);
    MPI_Wait(&request, MPI_STATUS_IGNORE);
    if (rank == 1)
        look_up("port");
}

static void split(void)
{
    MPI_Comm made;
    if (rank == 0)
        publish("port");
    MPI_Comm_split(MPI_COMM_WORLD, 0, rank, &made);
    if (rank == 1)
        look_up("port");
    MPI_Comm_free(&made);
}

static void window(void)
{
    int *there;
    MPI_Win made;
    if (rank == 0)
        publish("made");
    MPI_Win_allocate_shared(sizeof(int), sizeof(int), MPI_INFO_NULL, MPI_COMM_WORLD, &there, &made);
    if (rank == 1) {
        look_up("made");
        publish("fenced");
    }
    MPI_Win_fence(MPI_MODE_NOPRECEDE, made);
    MPI_Win_fence(0, made);
    if (rank == 0)
        look_up("fenced");
    MPI_Win_free(&made);
}

static void duplicate(void)
{
    MPI_Comm made;
    MPI_Request request;
    MPI_Comm_idup(MPI_COMM_WORLD, &made, &request);
    MPI_Wait(&request, MPI_STATUS_IGNORE);
    if (rank == 0)
        publish("port");
    MPI_Barrier(made);
    if (rank == 1)
        look_up("port");
    MPI_Comm_free(&made);
}

static void epoch(void)
{
    int *there, is_over = 0;
    MPI_Win made;
    MPI_Group all, other;
    int others[] = {1 - rank};
    MPI_Comm_group(MPI_COMM_WORLD, &all);
    MPI_Group_incl(all, 1, others, &other);
    MPI_Win_allocate(sizeof(int), sizeof(int), MPI_INFO_NULL, MPI_COMM_WORLD, &there, &made);
    if (rank == 0) {
        publish("waited");
        MPI_Win_start(other, 0, made);
        MPI_Put(&x, 1, MPI_INT, 1, 0, 1, MPI_INT, made);
        MPI_Win_complete(made);
        MPI_Win_post(other, 0, made);
        while (!is_over)
            MPI_Win_test(made, &is_over);
    }
    if (rank == 1) {
        MPI_Win_post(other, 0, made);
        MPI_Win_wait(made);
        look_up("waited");
        MPI_Win_start(other, 0, made);
        MPI_Win_complete(made);
    }
    MPI_Win_free(&made);
    MPI_Group_free(&other);
    MPI_Group_free(&all);
}

static void tags(void)
{
    for (int tag = 0; tag < 50; tag++)
        if (rank)
            MPI_Send(&x, 1, MPI_INT, 0, tag, MPI_COMM_WORLD);
        else
            MPI_Recv(&x, 1, MPI_INT, MPI_ANY_SOURCE, tag, MPI_COMM_WORLD, MPI_STATUS_IGNORE);
}

static void inter(int is_merged)
{
    MPI_Comm half, both, all;
    MPI_Comm_split(MPI_COMM_WORLD, rank < size / 2, rank, &half);
    MPI_Intercomm_create(half, 0, MPI_COMM_WORLD, rank < size / 2 ? size / 2 : 0, 99, &both);
    if (is_merged)
        MPI_Intercomm_merge(both, rank < size / 2, &all);
    if (rank == 0)
        publish("port");
    MPI_Barrier(is_merged ? all : both);
    if (rank == size - 1)
        look_up("port");
}

static void jump_back(MPI_Comm *comm, int *error, ...)
{
    (void)comm;
    (void)error;
    longjmp(back, 1);
}

static void jump(void)
{
    MPI_Errhandler handler;
    MPI_Comm_create_errhandler(jump_back, &handler);
    MPI_Comm_set_errhandler(MPI_COMM_WORLD, handler);
    if (!setjmp(back))
        MPI_Send(&x, 1, MPI_INT, 999, 0, MPI_COMM_WORLD);
    if (rank == 0) {
        publish("port");
        MPI_Send(&x, 1, MPI_INT, 1, 0, MPI_COMM_WORLD);
    }
    if (rank == 1) {
        MPI_Recv(&x, 1, MPI_INT, 0, 0, MPI_COMM_WORLD, MPI_STATUS_IGNORE);
        look_up("port");
    }
}

static void limit(void)
{
    struct rlimit most = {16384, 16384};
    setrlimit(RLIMIT_FSIZE, &most);
    for (int n = 0; n < 4000; n++) {
        if (rank == 0)
            MPI_Send(&x, 1, MPI_INT, 1, 0, MPI_COMM_WORLD);
        if (rank == 1)
            MPI_Recv(&x, 1, MPI_INT, 0, 0, MPI_COMM_WORLD, MPI_STATUS_IGNORE);
    }
}

static void many(int count)
{
    char name[MPI_MAX_PORT_NAME];
    for (int n = 0; n < count; n++) {
        snprintf(name, sizeof name, "many.%d.%d", rank, n);
        publish(name);
        MPI_Unpublish_name(name, MPI_INFO_NULL, "port");
    }
}

static void begun(void)
{
    MPI_Request request;
    if (rank == 1) {
        publish("port");
        MPI_Recv(&x, 1, MPI_INT, 0, 0, MPI_COMM_WORLD, MPI_STATUS_IGNORE);
    }
    if (rank == 0) {
        MPI_Issend(&x, 1, MPI_INT, 1, 0, MPI_COMM_WORLD, &request);
        MPI_Wait(&request, MPI_STATUS_IGNORE);
        look_up("port");
    }
}

/* The first of process 0 meets the second of process 1. */
static void failed(void)
{
    int y;
    MPI_Comm_set_errhandler(MPI_COMM_WORLD, MPI_ERRORS_RETURN);
    if (rank == 1)
        MPI_Allreduce(&x, &y, -1, MPI_INT, MPI_SUM, MPI_COMM_WORLD);
    MPI_Allreduce(&x, &y, 1, MPI_INT, MPI_SUM, MPI_COMM_WORLD);
    if (rank == 0) {
        publish("port");
        MPI_Allreduce(&x, &y, -1, MPI_INT, MPI_SUM, MPI_COMM_WORLD);
    } else {
        usleep(300000);
        look_up("port");
    }
}

static void unsent(void)
{
    int two[2] = {0, 0};
    MPI_Comm_set_errhandler(MPI_COMM_WORLD, MPI_ERRORS_RETURN);
    if (rank == 0) {
        MPI_Send(two, -1, MPI_INT, 1, 0, MPI_COMM_WORLD);
        MPI_Send(two, 2, MPI_INT, 1, 0, MPI_COMM_WORLD);
        MPI_Sendrecv(two, 2, MPI_INT, 1, 0, &x, 1, MPI_INT, 1, -5, MPI_COMM_WORLD, MPI_STATUS_IGNORE);
        publish("port");
        MPI_Send(two, 2, MPI_INT, 1, 0, MPI_COMM_WORLD);
    }
    if (rank == 1) {
        MPI_Recv(two, 1, MPI_INT, 0, 0, MPI_COMM_WORLD, MPI_STATUS_IGNORE);
        MPI_Recv(two, 2, MPI_INT, 0, 0, MPI_COMM_WORLD, MPI_STATUS_IGNORE);
        look_up("port");
    }
}

static void scattered(void)
{
    const int counts[] = {0};
    MPI_Comm both;
    MPI_Intercomm_create(MPI_COMM_SELF, 0, MPI_COMM_WORLD, 1 - rank, 99, &both);
    if (rank == 0)
        publish("port");
    MPI_Reduce_scatter(&rank, &x, counts, MPI_INT, MPI_SUM, both);
    if (rank == 1)
        look_up("port");
}

int main(int count, char **words)
{
    const char *which = count > 1 ? words[1] : "";
    MPI_Init(&count, &words);
    MPI_Comm_rank(MPI_COMM_WORLD, &rank);
    MPI_Comm_size(MPI_COMM_WORLD, &size);
    if (!strncmp(which, "wild", 4))
        wild(which[4] - '0');
    else if (!strcmp(which, "poll"))
        poll();
    else if (!strcmp(which, "probe") || !strcmp(which, "matched"))
        probe(*which == 'm');
    else if (!strcmp(which, "later"))
        later();
    else if (!strcmp(which, "split"))
        split();
    else if (!strcmp(which, "window"))
        window();
    else if (!strcmp(which, "inter") || !strcmp(which, "merged"))
        inter(*which == 'm');
    else if (!strcmp(which, "duplicate"))
        duplicate();
    else if (!strcmp(which, "epoch"))
        epoch();
    else if (!strcmp(which, "tags"))
        tags();
    else if (!strcmp(which, "jump"))
        jump();
    else if (!strcmp(which, "begun"))
        begun();
    else if (!strcmp(which, "failed"))
        failed();
    else if (!strcmp(which, "limit"))
        limit();
    else if (!strcmp(which, "many") || !strcmp(which, "toomany"))
        many(*which == 'm' ? 100 : 5000);
    else if (!strcmp(which, "unsent"))
        unsent();
    else if (!strcmp(which, "scattered"))
        scattered();
    else if (!strcmp(which, "sleep"))
        sleep(6);
    if (rank == 0)
        printf("%s done\n", which);
    MPI_Finalize();
    return 0;
}
