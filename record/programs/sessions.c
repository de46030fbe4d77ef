/* A program of two processes without MPI_Init: names that are published before a barrier and a message in communicators of a session, and looked up
 * after them. With a word, MPI_Init and MPI_Finalize come before. Where MPI has no sessions it ends with status 77. */
#include <mpi.h>
#include <pmix.h>
#include <stdio.h>

#ifdef MPI_ERR_SESSION
static int rank, x;

static void publish(const char *name)
{
    pmix_info_t info;
    PMIX_INFO_CONSTRUCT(&info);
    PMIX_INFO_LOAD(&info, name, "value", PMIX_STRING);
    PMIx_Publish(&info, 1);
    PMIX_INFO_DESTRUCT(&info);
}

static void look_up(const char *name)
{
    pmix_pdata_t found;
    PMIX_PDATA_CONSTRUCT(&found);
    PMIX_LOAD_KEY(found.key, name);
    PMIx_Lookup(&found, 1, NULL, 0);
    PMIX_PDATA_DESTRUCT(&found);
}

static void exchange(MPI_Comm comm)
{
    if (rank == 1) {
        publish("sent");
        MPI_Send(&x, 1, MPI_INT, 0, 0, comm);
    }
    if (rank == 0) {
        MPI_Recv(&x, 1, MPI_INT, 1, 0, comm, MPI_STATUS_IGNORE);
        look_up("sent");
    }
}

int main(int count, char **words)
{
    MPI_Session session;
    MPI_Group group;
    MPI_Comm all, copy;
    if (count > 1) {
        MPI_Init(&count, &words);
        MPI_Finalize();
    }
    MPI_Session_init(MPI_INFO_NULL, MPI_ERRORS_ARE_FATAL, &session);
    MPI_Group_from_session_pset(session, "mpi://WORLD", &group);
    MPI_Comm_create_from_group(group, "all", MPI_INFO_NULL, MPI_ERRORS_ARE_FATAL, &all);
    MPI_Comm_rank(all, &rank);
    if (rank == 0)
        publish("met");
    MPI_Barrier(all);
    if (rank == 1)
        look_up("met");
    MPI_Comm_dup(all, &copy);
    exchange(copy);
    if (rank == 0)
        printf("sessions done\n");
    MPI_Comm_free(&copy);
    MPI_Comm_free(&all);
    MPI_Group_free(&group);
    MPI_Session_finalize(&session);
    return 0;
}
#else
int main(void)
{
    return 77;
}
#endif
