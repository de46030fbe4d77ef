/* Small programs of two processes with requests whose handles aren't what one expects. Process 0 publishes a name, and process 1 looks it up.
 * The first word says which:
 *
 *   restarted  a buffered send that is started again before its message is fetched, for which MPI may take another handle: a race
 *   refused    a test that MPI refuses for its arguments, so that the receive stays open: no race
 *   freed      a communicator that is a duplicate of one which is freed before it is taken: no race
 *   kept       a communicator that can't be freed: no race
 *   ended      a communicator in which a message is sent while it is freed, by a function of one of its attributes: no race
 */
#include <mpi.h>
#include <stdio.h>
#include <string.h>
#include <unistd.h>

#define SIZE 200000
#define TIMES 3

static int rank;
static char bytes[SIZE], room[(TIMES + 1) * (SIZE + MPI_BSEND_OVERHEAD)];

static void look_up(void)
{
    char port[MPI_MAX_PORT_NAME] = "";
    MPI_Lookup_name("port", MPI_INFO_NULL, port);
}

/* The last receive is freed, so that its end isn't seen. */
static void restarted(void)
{
    MPI_Request request;
    void *at;
    int size;
    if (rank == 0) {
        MPI_Buffer_attach(room, sizeof room);
        MPI_Bsend_init(bytes, SIZE, MPI_CHAR, 1, 0, MPI_COMM_WORLD, &request);
        for (int n = 0; n < TIMES; n++) {
            MPI_Start(&request);
            MPI_Wait(&request, MPI_STATUS_IGNORE);
        }
        MPI_Publish_name("port", MPI_INFO_NULL, "port");
        MPI_Send(bytes, SIZE, MPI_CHAR, 1, 0, MPI_COMM_WORLD);
        MPI_Request_free(&request);
        MPI_Buffer_detach(&at, &size);
    }
    if (rank == 1) {
        usleep(300000);
        for (int n = 0; n < TIMES; n++)
            MPI_Recv(bytes, SIZE, MPI_CHAR, 0, 0, MPI_COMM_WORLD, MPI_STATUS_IGNORE);
        look_up();
        MPI_Irecv(bytes, SIZE, MPI_CHAR, 0, 0, MPI_COMM_WORLD, &request);
        MPI_Request_free(&request);
    }
}

static void refused(void)
{
    MPI_Request request;
    if (rank == 0) {
        usleep(300000);
        MPI_Publish_name("port", MPI_INFO_NULL, "port");
        MPI_Send(bytes, 1, MPI_CHAR, 1, 0, MPI_COMM_WORLD);
    }
    if (rank == 1) {
        MPI_Irecv(bytes, 1, MPI_CHAR, 0, 0, MPI_COMM_WORLD, &request);
        MPI_Test(&request, NULL, MPI_STATUS_IGNORE);
        MPI_Wait(&request, MPI_STATUS_IGNORE);
        look_up();
    }
}

/* The barriers let the duplicate be made. */
static void freed(void)
{
    MPI_Comm parent, made;
    MPI_Request request;
    MPI_Comm_dup(MPI_COMM_WORLD, &parent);
    MPI_Comm_idup(parent, &made, &request);
    for (int n = 0; n < 50; n++)
        MPI_Barrier(MPI_COMM_WORLD);
    MPI_Comm_free(&parent);
    MPI_Wait(&request, MPI_STATUS_IGNORE);
    if (rank == 0)
        MPI_Publish_name("port", MPI_INFO_NULL, "port");
    MPI_Barrier(made);
    if (rank == 1)
        look_up();
    MPI_Comm_free(&made);
}

/* A message by which process 1 knows that the name is there. */
static void tell(MPI_Comm comm)
{
    if (rank == 0) {
        MPI_Publish_name("port", MPI_INFO_NULL, "port");
        MPI_Send(bytes, 1, MPI_CHAR, 1, 0, comm);
    }
    if (rank == 1) {
        MPI_Recv(bytes, 1, MPI_CHAR, 0, 0, comm, MPI_STATUS_IGNORE);
        look_up();
    }
}

static void kept(void)
{
    MPI_Comm copy = MPI_COMM_WORLD;
    MPI_Comm_free(&copy);
    tell(MPI_COMM_WORLD);
}

static int send_last(MPI_Comm comm, int key, void *value, void *more)
{
    (void)key, (void)value, (void)more;
    if (rank == 0)
        MPI_Send(bytes, 1, MPI_CHAR, 1, 0, comm);
    if (rank == 1)
        MPI_Recv(bytes, 1, MPI_CHAR, 0, 0, comm, MPI_STATUS_IGNORE);
    return MPI_SUCCESS;
}

static void ended(void)
{
    MPI_Comm made;
    int key;
    MPI_Comm_dup(MPI_COMM_WORLD, &made);
    MPI_Comm_create_keyval(MPI_COMM_NULL_COPY_FN, send_last, &key, NULL);
    MPI_Comm_set_attr(made, key, NULL);
    if (rank == 0)
        MPI_Publish_name("port", MPI_INFO_NULL, "port");
    MPI_Comm_free(&made);
    if (rank == 1)
        look_up();
}

int main(int count, char **words)
{
    const char *which = count > 1 ? words[1] : "";
    MPI_Init(&count, &words);
    MPI_Comm_set_errhandler(MPI_COMM_WORLD, MPI_ERRORS_RETURN);
    MPI_Comm_rank(MPI_COMM_WORLD, &rank);
    if (!strcmp(which, "restarted"))
        restarted();
    if (!strcmp(which, "refused"))
        refused();
    if (!strcmp(which, "freed"))
        freed();
    if (!strcmp(which, "kept"))
        kept();
    if (!strcmp(which, "ended"))
        ended();
    if (rank == 0)
        printf("%s done\n", which);
    MPI_Finalize();
    return 0;
}
