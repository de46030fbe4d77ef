/* Small programs of two processes, each with a race on the name `port`: process 0 sends a message, publishes the name and sends another;
 * process 1 receives one, looks the name up, and receives the other. One of two goes another way than MPI_Send and MPI_Recv of C. Who sees only
 * these takes the second message for the first, and misses the race. The first word says which way:
 *
 *   pmpi        the other names of the functions, PMPI_Send and PMPI_Recv
 *   barrier     barriers in place of messages, one by its other name
 *   looked-up   functions that are looked up in the library, as bindings of other languages do
 *   plugin      functions of a library that is opened so that it finds MPI's own before the recorder's; the second word is its path
 *   closed      the same, and the library is closed again
 */
#define _GNU_SOURCE
#include <dlfcn.h>
#include <mpi.h>
#include <stdio.h>
#include <string.h>
#include <unistd.h>

typedef int send_function(const void *, int, MPI_Datatype, int, int, MPI_Comm);
typedef int receive_function(void *, int, MPI_Datatype, int, int, MPI_Comm, MPI_Status *);
typedef int barrier_function(MPI_Comm);

static int rank, x;

static void publish(void)
{
    MPI_Publish_name("port", MPI_INFO_NULL, "port");
}

static void look_up(void)
{
    char port[MPI_MAX_PORT_NAME] = "";
    MPI_Comm_set_errhandler(MPI_COMM_WORLD, MPI_ERRORS_RETURN);
    usleep(300000);
    MPI_Lookup_name("port", MPI_INFO_NULL, port);
}

static void exchange(send_function *send, receive_function *receive)
{
    if (rank == 0) {
        send(&x, 1, MPI_INT, 1, 0, MPI_COMM_WORLD);
        publish();
        MPI_Send(&x, 1, MPI_INT, 1, 0, MPI_COMM_WORLD);
    }
    if (rank == 1) {
        MPI_Recv(&x, 1, MPI_INT, 0, 0, MPI_COMM_WORLD, MPI_STATUS_IGNORE);
        look_up();
        receive(&x, 1, MPI_INT, 0, 0, MPI_COMM_WORLD, MPI_STATUS_IGNORE);
    }
}

static void meet(barrier_function *one, barrier_function *other)
{
    if (rank == 0) {
        one(MPI_COMM_WORLD);
        publish();
        other(MPI_COMM_WORLD);
    } else {
        other(MPI_COMM_WORLD);
        if (rank == 1)
            look_up();
        one(MPI_COMM_WORLD);
    }
}

static void exchange_by(void *library, const char *send, const char *receive)
{
    send_function *to = library ? (send_function *)dlsym(library, send) : NULL;
    receive_function *from = library ? (receive_function *)dlsym(library, receive) : NULL;
    if (to && from)
        exchange(to, from);
}

/* Opens the library that the process has. */
static void *open_mpi(void)
{
    Dl_info it;
    void *found = dlsym(RTLD_DEFAULT, "PMPI_Type_size");
    return dladdr(found, &it) ? dlopen(it.dli_fname, RTLD_NOW | RTLD_NOLOAD) : NULL;
}

static void exchange_and_close(void *library)
{
    exchange_by(library, "plugin_send", "plugin_receive");
    if (library)
        dlclose(library);
}

int main(int count, char **words)
{
    const char *which = count > 1 ? words[1] : "", *path = count > 2 ? words[2] : "";
    MPI_Init(&count, &words);
    MPI_Comm_rank(MPI_COMM_WORLD, &rank);
    if (!strcmp(which, "pmpi"))
        exchange(PMPI_Send, PMPI_Recv);
    else if (!strcmp(which, "barrier"))
        meet(PMPI_Barrier, MPI_Barrier);
    else if (!strcmp(which, "looked-up"))
        exchange_by(open_mpi(), "MPI_Send", "MPI_Recv");
    else if (!strcmp(which, "plugin"))
        exchange_by(dlopen(path, RTLD_NOW | RTLD_DEEPBIND), "plugin_send", "plugin_receive");
    else if (!strcmp(which, "closed"))
        exchange_and_close(dlopen(path, RTLD_NOW | RTLD_DEEPBIND));
    if (rank == 0)
        printf("%s done\n", which);
    MPI_Finalize();
    return 0;
}
