/* Small programs that call PMIx beside MPI. The first word says which:
 *
 *   unwaited   process 0 publishes a name by a call that doesn't block, sends a message, and waits for the call only then: a race that
 *              the plan doesn't have, and that its head tells of
 *   partial    process 1 looks up two names, of which one isn't there: no race
 *   last       process 0 publishes the name in a callback that ends with that call, so that it seems to come from PMIx itself: a race
 *   past       process 0 takes the name away by a function of a library that is opened so that it finds PMIx before the recorder; the
 *              second word is its path: a race that the plan doesn't have, and that its head tells of
 */
#define _GNU_SOURCE
#include <dlfcn.h>
#include <mpi.h>
#include <pmix.h>
#include <stdio.h>
#include <string.h>
#include <unistd.h>

static int rank, x;
static volatile int is_over;

static void end(pmix_status_t status, void *data)
{
    (void)status;
    (void)data;
    is_over = 1;
}

static void unwaited(void)
{
    pmix_info_t info;
    pmix_pdata_t found;
    if (rank == 0) {
        PMIX_INFO_LOAD(&info, "port", "text", PMIX_STRING);
        PMIx_Publish_nb(&info, 1, end, NULL);
        usleep(300000);
        MPI_Send(&x, 1, MPI_INT, 1, 0, MPI_COMM_WORLD);
        while (!is_over)
            usleep(1000);
    }
    if (rank == 1) {
        PMIX_PDATA_CONSTRUCT(&found);
        strncpy(found.key, "port", PMIX_MAX_KEYLEN);
        MPI_Recv(&x, 1, MPI_INT, 0, 0, MPI_COMM_WORLD, MPI_STATUS_IGNORE);
        PMIx_Lookup(&found, 1, NULL, 0);
    }
}

static void partial(void)
{
    pmix_info_t info;
    pmix_pdata_t found[2];
    if (rank == 0) {
        PMIX_INFO_LOAD(&info, "there", "text", PMIX_STRING);
        PMIx_Publish(&info, 1);
    }
    MPI_Barrier(MPI_COMM_WORLD);
    if (rank == 1) {
        PMIX_PDATA_CONSTRUCT(&found[0]);
        PMIX_PDATA_CONSTRUCT(&found[1]);
        strncpy(found[0].key, "there", PMIX_MAX_KEYLEN);
        strncpy(found[1].key, "elsewhere", PMIX_MAX_KEYLEN);
        PMIx_Lookup(found, 2, NULL, 0);
    }
}

static void look_up(void)
{
    pmix_pdata_t found;
    PMIX_PDATA_CONSTRUCT(&found);
    strncpy(found.key, "port", PMIX_MAX_KEYLEN);
    PMIx_Lookup(&found, 1, NULL, 0);
}

static pmix_info_t port;

__attribute__((optimize("O2"))) static void publish_last(pmix_status_t status, void *data)
{
    (void)status;
    PMIx_Publish_nb(&port, 1, end, data);
}

static void last(void)
{
    pmix_info_t first;
    PMIX_INFO_LOAD(&port, "port", "text", PMIX_STRING);
    PMIX_INFO_LOAD(&first, "first", "text", PMIX_STRING);
    if (rank == 0) {
        PMIx_Publish_nb(&first, 1, publish_last, NULL);
        while (!is_over)
            usleep(1000);
    } else {
        usleep(300000);
        look_up();
    }
}

static void past(const char *path)
{
    typedef pmix_status_t unpublish_function(char **);
    char key[] = "port", *keys[] = {key, NULL};
    void *library = dlopen(path, RTLD_NOW | RTLD_DEEPBIND);
    unpublish_function *unpublish =
        library ? (unpublish_function *)dlsym(library, "plugin_unpublish") : NULL;
    PMIX_INFO_LOAD(&port, "port", "text", PMIX_STRING);
    if (rank == 0)
        PMIx_Publish(&port, 1);
    MPI_Barrier(MPI_COMM_WORLD);
    if (rank == 0 && unpublish) {
        usleep(300000);
        unpublish(keys);
    }
    if (rank == 1)
        look_up();
}

int main(int count, char **words)
{
    const char *which = count > 1 ? words[1] : "", *path = count > 2 ? words[2] : "";
    MPI_Init(&count, &words);
    MPI_Comm_rank(MPI_COMM_WORLD, &rank);
    if (!strcmp(which, "unwaited"))
        unwaited();
    else if (!strcmp(which, "partial"))
        partial();
    else if (!strcmp(which, "last"))
        last();
    else if (!strcmp(which, "past"))
        past(path);
    if (rank == 0)
        printf("%s done\n", which);
    MPI_Finalize();
    return 0;
}
