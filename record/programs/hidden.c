/* Small programs of two processes. Process 0 publishes the name `port`, and process 1 looks it up. Each calls in a way that the recorder sees
 * with other means than a wrapper, or that its plan tells of. The first word says which:
 *
 *   behind      process 0 sends a message before it publishes, and one behind that, as in unseen.c; one goes through functions that a library
 *               finds behind itself (RTLD_NEXT): a race
 *   opened      the same through functions that a library looks up which was opened so that it finds the system's dlsym before the recorder's;
 *               the second word is its path: a race that the plan doesn't have
 *   namespace, child, handler, thread, event
 *               process 0 publishes before it sends a message: no race; besides, each opens MPI in a namespace of its own, calls MPI in a
 *               forked child, publishes in a handler of a signal (jumping-, deep- and late-handler: in one that is hard to notice; sum: in a
 *               function of MPI_Op), waits for a send in another thread, or has a handler of events
 */
#define _GNU_SOURCE
#include <dlfcn.h>
#include <mpi.h>
#include <pmix.h>
#include <pthread.h>
#include <signal.h>
#include <stdio.h>
#include <string.h>
#include <sys/wait.h>
#include <unistd.h>

typedef int send_function(const void *, int, MPI_Datatype, int, int, MPI_Comm);
typedef int receive_function(void *, int, MPI_Datatype, int, int, MPI_Comm, MPI_Status *);
typedef void *find_function(void);

/* Those of the library that the program is linked with. */
extern void *find_send_behind(void);
extern void *find_receive_behind(void);

static int rank, x;

static void publish(void)
{
    MPI_Publish_name("port", MPI_INFO_NULL, "port");
}

static void look_up(void)
{
    char port[MPI_MAX_PORT_NAME] = "";
    MPI_Comm_set_errhandler(MPI_COMM_WORLD, MPI_ERRORS_RETURN);
    usleep(300000);
    MPI_Lookup_name("port", MPI_INFO_NULL, port);
}

static void exchange(send_function *send, receive_function *receive)
{
    if (rank == 0) {
        send(&x, 1, MPI_INT, 1, 0, MPI_COMM_WORLD);
        publish();
        MPI_Send(&x, 1, MPI_INT, 1, 0, MPI_COMM_WORLD);
    }
    if (rank == 1) {
        MPI_Recv(&x, 1, MPI_INT, 0, 0, MPI_COMM_WORLD, MPI_STATUS_IGNORE);
        look_up();
        receive(&x, 1, MPI_INT, 0, 0, MPI_COMM_WORLD, MPI_STATUS_IGNORE);
    }
}

static void exchange_by(void *library)
{
    find_function *send = library ? (find_function *)dlsym(library, "find_send") : NULL;
    find_function *receive = library ? (find_function *)dlsym(library, "find_receive") : NULL;
    if (send && receive)
        exchange((send_function *)send(), (receive_function *)receive());
}

static void tell(void)
{
    if (rank == 0)
        MPI_Send(&x, 1, MPI_INT, 1, 0, MPI_COMM_WORLD);
    if (rank == 1) {
        MPI_Recv(&x, 1, MPI_INT, 0, 0, MPI_COMM_WORLD, MPI_STATUS_IGNORE);
        look_up();
    }
}

static void open_again(void)
{
    Dl_info it;
    if (rank == 0 && dladdr(dlsym(RTLD_DEFAULT, "PMPI_Type_size"), &it))
        dlmopen(LM_ID_NEWLM, it.dli_fname, RTLD_LAZY);
}

static void call_in_child(void)
{
    MPI_Request none = MPI_REQUEST_NULL;
    int is_over;
    pid_t child = rank == 0 ? fork() : -1;
    if (child == 0) {
        MPI_Test(&none, &is_over, MPI_STATUS_IGNORE);
        _exit(0);
    }
    if (child > 0)
        waitpid(child, NULL, 0);
}

static void take_signal(int number)
{
    (void)number;
    publish();
}

static void publish_in_handler(void)
{
    if (rank == 0) {
        signal(SIGUSR1, take_signal);
        raise(SIGUSR1);
    }
}

/* It ends with a jump, and so it has no frame. */
__attribute__((optimize("O2"))) static void take_by_jump(int number)
{
    (void)number;
    MPI_Publish_name("port", MPI_INFO_NULL, "port");
}

#define DEPTH 20
__attribute__((optimize("O0"))) static void publish_deep(int left)
{
    if (left > 0)
        publish_deep(left - 1);
    else
        publish();
}

static void take_deep(int number)
{
    (void)number;
    publish_deep(DEPTH);
}

/* Calls from another depth each time, so that the recorder no longer looks at who called. */
static void publish_after_many(int depth, int *memory)
{
    int here[256], is_there;
    here[0] = memory ? memory[0] : 0;
    for (int n = 0; n < 2; n++)
        MPI_Iprobe(MPI_PROC_NULL, here[0], MPI_COMM_WORLD, &is_there, MPI_STATUS_IGNORE);
    if (depth > 0)
        publish_after_many(depth - 1, here);
}

static void publish_in_odd_handler(const char *which)
{
    if (rank != 0)
        return;
    for (int n = 0; n < 400 && !strcmp(which, "late-handler"); n++)
        publish_after_many(100, NULL);
    signal(SIGUSR1, !strcmp(which, "jumping-handler") ? take_by_jump : take_deep);
    raise(SIGUSR1);
}

static void add(void *in, void *out, int *count, MPI_Datatype *type)
{
    (void)type;
    for (int n = 0; n < *count; n++)
        ((int *)out)[n] += ((int *)in)[n];
    if (rank == 0)
        publish();
}

/* Which process adds is for MPI to choose: here each does. */
static void publish_in_sum(void)
{
    MPI_Op op;
    int sum = 0;
    MPI_Op_create(add, 1, &op);
    MPI_Allreduce(&rank, &sum, 1, MPI_INT, op, MPI_COMM_WORLD);
    MPI_Op_free(&op);
}

static MPI_Request sent;

static void *wait_for_send(void *data)
{
    MPI_Wait(&sent, MPI_STATUS_IGNORE);
    return data;
}

static void wait_elsewhere(void)
{
    pthread_t other;
    if (rank == 0) {
        MPI_Isend(&x, 1, MPI_INT, 1, 1, MPI_COMM_WORLD, &sent);
        if (!pthread_create(&other, NULL, wait_for_send, NULL))
            pthread_join(other, NULL);
    }
    if (rank == 1)
        MPI_Recv(&x, 1, MPI_INT, 0, 1, MPI_COMM_WORLD, MPI_STATUS_IGNORE);
}

static void take_event(size_t number, pmix_status_t status, const pmix_proc_t *source, pmix_info_t info[], size_t count, pmix_info_t *before,
                       size_t count_before, pmix_event_notification_cbfunc_fn_t then, void *data)
{
    (void)number, (void)status, (void)source, (void)info, (void)count, (void)before, (void)count_before;
    then(PMIX_EVENT_ACTION_COMPLETE, NULL, 0, NULL, NULL, data);
}

static void take_events(void)
{
    pmix_status_t code = PMIX_ERR_JOB_TERMINATED;
    if (rank == 0)
        PMIx_Register_event_handler(&code, 1, NULL, 0, take_event, NULL, NULL);
}

int main(int count, char **words)
{
    const char *which = count > 1 ? words[1] : "", *path = count > 2 ? words[2] : "";
    int given;
    MPI_Init_thread(&count, &words, MPI_THREAD_SERIALIZED, &given);
    MPI_Comm_rank(MPI_COMM_WORLD, &rank);
    if (!strcmp(which, "behind"))
        exchange((send_function *)find_send_behind(), (receive_function *)find_receive_behind());
    else if (!strcmp(which, "opened"))
        exchange_by(dlopen(path, RTLD_NOW | RTLD_DEEPBIND));
    else {
        if (rank == 0 && !strstr(which, "handler") && strcmp(which, "sum"))
            publish();
        if (!strcmp(which, "namespace"))
            open_again();
        else if (!strcmp(which, "child"))
            call_in_child();
        else if (!strcmp(which, "handler"))
            publish_in_handler();
        else if (strstr(which, "handler"))
            publish_in_odd_handler(which);
        else if (!strcmp(which, "sum"))
            publish_in_sum();
        else if (!strcmp(which, "thread"))
            wait_elsewhere();
        else if (!strcmp(which, "event"))
            take_events();
        tell();
    }
    if (rank == 0)
        printf("%s done\n", which);
    MPI_Finalize();
    return 0;
}
