/* Small programs in each of which one process publishes the name `port` and another looks it up, in an order that is luck. The first word says
 * which:
 *
 *   cancelled        a receive that is cancelled too late: a race that only --strict shows
 *   header, answer   a receive from whom a message came, or a send there: the same, since another's may come first
 *   several          a receive from whom one of several requests was the first: the same
 *   asked, taken     a request that the program asks about before it waits for it, and synchronous sends that it polls one by one: the same
 *   nothing, turn    a poll that finds nothing, or not yet (as in helped, alike): another run may publish no name, and the head tells of that
 *   elsewhere        a poll that finds nothing, and then a wait for another request: another run need not wait for it, and the head tells of that
 *   either           two receives that are polled in turn: another run may find the other first, and the head tells of that
 *   sent, beside     a poll that finds a send complete (patient: later), and a send that is over before a receive (among: a poll finds that):
 *                    another run may publish the name elsewhere, and the head tells of that
 *   once, brief      a name that goes away when it is read, and a wait for ten seconds at most: races that the plan doesn't have, and that its
 *                    head tells of
 */
#include <mpi.h>
#include <pmix.h>
#include <stdio.h>
#include <string.h>
#include <unistd.h>

static int rank, x;

static void publish(void)
{
    MPI_Publish_name("port", MPI_INFO_NULL, "port");
}

static void look_up(void)
{
    char port[MPI_MAX_PORT_NAME] = "";
    MPI_Comm_set_errhandler(MPI_COMM_WORLD, MPI_ERRORS_RETURN);
    MPI_Lookup_name("port", MPI_INFO_NULL, port);
}

static void cancelled(void)
{
    MPI_Request request;
    int is_there = 0;
    if (rank == 1) {
        publish();
        MPI_Send(&rank, 1, MPI_INT, 0, 0, MPI_COMM_WORLD);
    }
    if (rank == 0) {
        MPI_Irecv(&x, 1, MPI_INT, 1, 0, MPI_COMM_WORLD, &request);
        for (int n = 0; n < 300; n++, usleep(1000))
            MPI_Iprobe(1, 1, MPI_COMM_WORLD, &is_there, MPI_STATUS_IGNORE);
        MPI_Cancel(&request);
        MPI_Wait(&request, MPI_STATUS_IGNORE);
        look_up();
    }
}

/* Process 1 is the slower one. */
static void header(void)
{
    MPI_Status first;
    for (int n = 0; rank == 0 && n < 2; n++) {
        MPI_Recv(&x, 1, MPI_INT, MPI_ANY_SOURCE, 1, MPI_COMM_WORLD, &first);
        MPI_Recv(&x, 1, MPI_INT, first.MPI_SOURCE, 2, MPI_COMM_WORLD, MPI_STATUS_IGNORE);
        if (n == 0)
            look_up();
    }
    if (rank == 1)
        usleep(300000);
    if (rank == 2)
        publish();
    for (int tag = 1; rank > 0 && tag <= 2; tag++)
        MPI_Send(&x, 1, MPI_INT, 0, tag, MPI_COMM_WORLD);
}

static void answer(void)
{
    MPI_Status asked;
    for (int n = 0; rank == 0 && n < 2; n++) {
        MPI_Recv(&x, 1, MPI_INT, MPI_ANY_SOURCE, 0, MPI_COMM_WORLD, &asked);
        if (n == 1)
            publish();
        MPI_Send(&x, 1, MPI_INT, asked.MPI_SOURCE, 1, MPI_COMM_WORLD);
    }
    if (rank == 1)
        usleep(300000);
    if (rank > 0) {
        MPI_Send(&x, 1, MPI_INT, 0, 0, MPI_COMM_WORLD);
        MPI_Recv(&x, 1, MPI_INT, 0, 1, MPI_COMM_WORLD, MPI_STATUS_IGNORE);
    }
    if (rank == 1)
        look_up();
}

/* Process 1 is the slower one. */
static void several(void)
{
    MPI_Request requests[2];
    int first, second;
    if (rank == 0) {
        for (int n = 0; n < 2; n++)
            MPI_Irecv(&x, 1, MPI_INT, n + 1, 1, MPI_COMM_WORLD, &requests[n]);
        MPI_Waitany(2, requests, &first, MPI_STATUS_IGNORE);
        MPI_Recv(&x, 1, MPI_INT, first + 1, 2, MPI_COMM_WORLD, MPI_STATUS_IGNORE);
        look_up();
        MPI_Waitany(2, requests, &second, MPI_STATUS_IGNORE);
        MPI_Recv(&x, 1, MPI_INT, second + 1, 2, MPI_COMM_WORLD, MPI_STATUS_IGNORE);
    }
    if (rank == 1)
        usleep(300000);
    if (rank == 2)
        publish();
    for (int tag = 1; rank > 0 && tag <= 2; tag++)
        MPI_Send(&x, 1, MPI_INT, 0, tag, MPI_COMM_WORLD);
}

static void asked(void)
{
    MPI_Request request;
    int is_there = 0;
    if (rank == 1) {
        publish();
        MPI_Send(&rank, 1, MPI_INT, 0, 0, MPI_COMM_WORLD);
    }
    if (rank == 0) {
        MPI_Irecv(&x, 1, MPI_INT, 1, 0, MPI_COMM_WORLD, &request);
        while (!is_there)
            MPI_Request_get_status(request, &is_there, MPI_STATUS_IGNORE);
        look_up();
        MPI_Wait(&request, MPI_STATUS_IGNORE);
    }
}

static void nothing(void)
{
    int is_there = 0;
    if (rank == 0) {
        MPI_Iprobe(1, 0, MPI_COMM_WORLD, &is_there, MPI_STATUS_IGNORE);
        if (!is_there)
            publish();
        while (!is_there)
            MPI_Iprobe(1, 0, MPI_COMM_WORLD, &is_there, MPI_STATUS_IGNORE);
        MPI_Recv(&x, 1, MPI_INT, 1, 0, MPI_COMM_WORLD, MPI_STATUS_IGNORE);
    }
    if (rank == 1) {
        usleep(300000);
        MPI_Send(&rank, 1, MPI_INT, 0, 0, MPI_COMM_WORLD);
    }
    MPI_Barrier(MPI_COMM_WORLD);
    if (rank == 1)
        look_up();
}

static void sent(void)
{
    MPI_Request request;
    int is_over = 0;
    if (rank == 0) {
        MPI_Isend(&x, 1, MPI_INT, 1, 0, MPI_COMM_WORLD, &request);
        MPI_Test(&request, &is_over, MPI_STATUS_IGNORE);
        if (is_over)
            publish();
        else
            MPI_Wait(&request, MPI_STATUS_IGNORE);
    }
    if (rank == 1)
        MPI_Recv(&x, 1, MPI_INT, 0, 0, MPI_COMM_WORLD, MPI_STATUS_IGNORE);
    MPI_Barrier(MPI_COMM_WORLD);
    if (rank == 1)
        look_up();
}

/* Process 1 is the slower one. */
static void beside(void)
{
    MPI_Request requests[2];
    int which;
    if (rank == 0) {
        MPI_Irecv(&x, 1, MPI_INT, 1, 0, MPI_COMM_WORLD, &requests[0]);
        MPI_Isend(&x, 1, MPI_INT, 1, 0, MPI_COMM_WORLD, &requests[1]);
        MPI_Waitany(2, requests, &which, MPI_STATUS_IGNORE);
        if (which == 1)
            publish();
        MPI_Waitany(2, requests, &which, MPI_STATUS_IGNORE);
    }
    if (rank == 1) {
        usleep(300000);
        MPI_Recv(&x, 1, MPI_INT, 0, 0, MPI_COMM_WORLD, MPI_STATUS_IGNORE);
        MPI_Send(&x, 1, MPI_INT, 0, 0, MPI_COMM_WORLD);
    }
    MPI_Barrier(MPI_COMM_WORLD);
    if (rank == 1)
        look_up();
}

/* Publishes the name so that the first lookup takes it away. */
static void publish_once(void)
{
    pmix_info_t info[2];
    pmix_persistence_t how = PMIX_PERSIST_FIRST_READ;
    PMIX_INFO_LOAD(&info[0], "port", "text", PMIX_STRING);
    PMIX_INFO_LOAD(&info[1], PMIX_PERSISTENCE, &how, PMIX_PERSIST);
    PMIx_Publish(info, 2);
}

static void once(void)
{
    if (rank == 0)
        publish_once();
    MPI_Barrier(MPI_COMM_WORLD);
    if (rank == 0)
        usleep(300000);
    look_up();
}

static void brief(void)
{
    pmix_info_t info, waits[2];
    pmix_pdata_t found;
    int seconds = 10;
    if (rank == 0) {
        PMIX_INFO_LOAD(&info, "port", "text", PMIX_STRING);
        PMIx_Publish(&info, 1);
    } else {
        PMIX_INFO_LOAD(&waits[0], PMIX_WAIT, NULL, PMIX_BOOL);
        PMIX_INFO_LOAD(&waits[1], PMIX_TIMEOUT, &seconds, PMIX_INT);
        PMIX_PDATA_CONSTRUCT(&found);
        strncpy(found.key, "port", PMIX_MAX_KEYLEN);
        PMIx_Lookup(&found, 1, waits, 2);
    }
}

/* The message with the tag 0 is the slower one. */
static void turn(void)
{
    int is_there = 0, tag = 1;
    while (rank == 0 && !is_there)
        MPI_Iprobe(1, tag = 1 - tag, MPI_COMM_WORLD, &is_there, MPI_STATUS_IGNORE);
    if (rank == 0 && tag == 1)
        publish();
    for (int n = 1; n >= 0; n--) {
        if (rank == 0)
            MPI_Recv(&x, 1, MPI_INT, 1, n, MPI_COMM_WORLD, MPI_STATUS_IGNORE);
        if (rank == 1) {
            usleep(n == 0 ? 300000 : 0);
            MPI_Send(&rank, 1, MPI_INT, 0, n, MPI_COMM_WORLD);
        }
    }
    MPI_Barrier(MPI_COMM_WORLD);
    if (rank == 1)
        look_up();
}

/* Process 1 receives before it sends. */
static void among(void)
{
    MPI_Request requests[2];
    int which, is_over = 0;
    if (rank == 0) {
        MPI_Irecv(&x, 1, MPI_INT, 1, 0, MPI_COMM_WORLD, &requests[0]);
        MPI_Issend(&rank, 1, MPI_INT, 1, 0, MPI_COMM_WORLD, &requests[1]);
        while (!is_over)
            MPI_Testany(2, requests, &which, &is_over, MPI_STATUS_IGNORE);
        if (which == 1)
            publish();
        MPI_Waitall(2, requests, MPI_STATUSES_IGNORE);
    }
    if (rank == 1) {
        usleep(300000);
        MPI_Recv(&x, 1, MPI_INT, 0, 0, MPI_COMM_WORLD, MPI_STATUS_IGNORE);
        usleep(300000);
        MPI_Send(&x, 1, MPI_INT, 0, 0, MPI_COMM_WORLD);
    }
    MPI_Barrier(MPI_COMM_WORLD);
    if (rank == 1)
        look_up();
}

#define TAKEN 20

/* Process 1 is the slower one. */
static void taken(void)
{
    MPI_Request requests[TAKEN];
    int left = TAKEN, is_over;
    for (int n = 0; rank == 0 && n < TAKEN; n++)
        MPI_Issend(&x, 1, MPI_INT, 1, n, MPI_COMM_WORLD, &requests[n]);
    for (int n = 0; rank == 0 && left > 0; n = (n + 1) % TAKEN)
        if (requests[n] != MPI_REQUEST_NULL) {
            MPI_Test(&requests[n], &is_over, MPI_STATUS_IGNORE);
            left -= is_over;
        }
    if (rank == 0)
        look_up();
    if (rank == 1) {
        publish();
        usleep(300000);
    }
    for (int n = 0; rank == 1 && n < TAKEN; n++)
        MPI_Recv(&x, 1, MPI_INT, 0, n, MPI_COMM_WORLD, MPI_STATUS_IGNORE);
}

/* Process 1 is the slower one. */
static void elsewhere(void)
{
    MPI_Request requests[2];
    int is_there = 0;
    for (int n = 0; rank == 0 && n < 2; n++)
        MPI_Irecv(&x, 1, MPI_INT, n + 1, 0, MPI_COMM_WORLD, &requests[n]);
    while (rank == 0 && !is_there) {
        MPI_Test(&requests[0], &is_there, MPI_STATUS_IGNORE);
        if (!is_there)
            MPI_Wait(&requests[1], MPI_STATUS_IGNORE);
    }
    if (rank == 0) {
        look_up();
        MPI_Wait(&requests[1], MPI_STATUS_IGNORE);
    }
    if (rank == 1)
        usleep(300000);
    if (rank == 2)
        publish();
    if (rank > 0)
        MPI_Send(&rank, 1, MPI_INT, 0, 0, MPI_COMM_WORLD);
}

/* The message with the tag 0 is the slower one. */
static void either(void)
{
    MPI_Request requests[2];
    int first = -1, left = 2, is_there;
    for (int n = 0; rank == 0 && n < 2; n++)
        MPI_Irecv(&x, 1, MPI_INT, 1, n, MPI_COMM_WORLD, &requests[n]);
    for (int n = 0; rank == 0 && left > 0; n = 1 - n)
        if (requests[n] != MPI_REQUEST_NULL) {
            MPI_Test(&requests[n], &is_there, MPI_STATUS_IGNORE);
            left -= is_there;
            if (is_there && first < 0)
                first = n;
        }
    if (rank == 0 && first == 1)
        publish();
    for (int n = 1; rank == 1 && n >= 0; n--) {
        usleep(300000);
        MPI_Send(&rank, 1, MPI_INT, 0, n, MPI_COMM_WORLD);
    }
    MPI_Barrier(MPI_COMM_WORLD);
    if (rank == 1)
        look_up();
}

/* Asks whether a message of process 1 is there, once or until it is. */
static int ask_for(int tag, int is_patient)
{
    int is_there = 0;
    do
        MPI_Iprobe(1, tag, MPI_COMM_WORLD, &is_there, MPI_STATUS_IGNORE);
    while (is_patient && !is_there);
    return is_there;
}

/* The code that asks is the same; the lines aren't that call it. */
static void helped(void)
{
    if (rank == 0) {
        int is_early = !ask_for(0, 0);
        ask_for(0, 1);
        if (is_early)
            publish();
        MPI_Recv(&x, 1, MPI_INT, 1, 0, MPI_COMM_WORLD, MPI_STATUS_IGNORE);
    }
    if (rank == 1) {
        usleep(300000);
        MPI_Send(&rank, 1, MPI_INT, 0, 0, MPI_COMM_WORLD);
    }
    MPI_Barrier(MPI_COMM_WORLD);
    if (rank == 1)
        look_up();
}

/* Process 1 is the slower one. What the polls ask for isn't the same, nor is it like each other. */
static void alike(void)
{
    const int tags[] = {31, 0};
    int are_there[] = {0, 0};
    for (int n = 0; rank == 0 && n < 2; n++)
        do
            MPI_Iprobe(n + 1, tags[n], MPI_COMM_WORLD, &are_there[n], MPI_STATUS_IGNORE);
        while (n == 1 && !are_there[n]);
    if (rank == 0 && !are_there[0])
        publish();
    for (int n = 0; rank == 0 && n < 2; n++)
        MPI_Recv(&x, 1, MPI_INT, n + 1, tags[n], MPI_COMM_WORLD, MPI_STATUS_IGNORE);
    if (rank > 0) {
        usleep(rank == 1 ? 300000 : 0);
        MPI_Send(&rank, 1, MPI_INT, 0, tags[rank - 1], MPI_COMM_WORLD);
    }
    MPI_Barrier(MPI_COMM_WORLD);
    if (rank == 1)
        look_up();
}

/* Process 1 is the slower one. */
static void patient(void)
{
    static char large[1 << 22];
    MPI_Request request;
    int is_over = 0;
    if (rank == 0) {
        MPI_Isend(large, sizeof large, MPI_CHAR, 1, 0, MPI_COMM_WORLD, &request);
        for (int n = 0; n < 100 && !is_over; n++, usleep(50000))
            MPI_Test(&request, &is_over, MPI_STATUS_IGNORE);
        if (is_over)
            publish();
        MPI_Wait(&request, MPI_STATUS_IGNORE);
    }
    if (rank == 1) {
        usleep(300000);
        MPI_Recv(large, sizeof large, MPI_CHAR, 0, 0, MPI_COMM_WORLD, MPI_STATUS_IGNORE);
    }
    MPI_Barrier(MPI_COMM_WORLD);
    if (rank == 1)
        look_up();
}

static const struct {
    const char *name;
    void (*run)(void);
} programs[] = {
    {"cancelled", cancelled}, {"header", header}, {"answer", answer}, {"several", several},
    {"asked", asked}, {"nothing", nothing}, {"helped", helped}, {"alike", alike},
    {"turn", turn}, {"sent", sent}, {"patient", patient}, {"beside", beside}, {"among", among},
    {"taken", taken}, {"elsewhere", elsewhere}, {"either", either}, {"once", once},
    {"brief", brief},
};

int main(int count, char **words)
{
    const char *which = count > 1 ? words[1] : "";
    MPI_Init(&count, &words);
    MPI_Comm_rank(MPI_COMM_WORLD, &rank);
    for (size_t n = 0; n < sizeof programs / sizeof *programs; n++)
        if (!strcmp(which, programs[n].name))
            programs[n].run();
    if (rank == 0)
        printf("%s done\n", which);
    MPI_Finalize();
    return 0;
}
