/* Publishes names and looks them up, each pair ordered by another call of MPI. It needs four processes.
 *
 * Where the order comes from MPI alone, nothing is found with MPI's order, and a race for each name without it. */
#include <mpi.h>
#include <stdio.h>
#include <stdlib.h>
#include <string.h>

static int rank, size, step, wrong;

/* Publishes the name of the next step, if this process is the one to do it. */
static void publish(int who)
{
    char name[16];
    snprintf(name, sizeof name, "step%d", ++step);
    if (rank == who)
        MPI_Publish_name(name, MPI_INFO_NULL, name);
}

static void look_up(int who)
{
    char name[16], port[MPI_MAX_PORT_NAME] = "";
    snprintf(name, sizeof name, "step%d", step);
    if (rank == who && (MPI_Lookup_name(name, MPI_INFO_NULL, port) != MPI_SUCCESS || strcmp(port, name)))
        wrong++;
}

int main(int count, char **words)
{
    int x = 0, y[4] = {0}, z[4] = {0}, flag = 0, which;
    MPI_Comm half, back;
    MPI_Request requests[3];
    MPI_Status status, statuses[3];
    MPI_Init(&count, &words);
    MPI_Comm_rank(MPI_COMM_WORLD, &rank);
    MPI_Comm_size(MPI_COMM_WORLD, &size);
    if (size != 4)
        MPI_Abort(MPI_COMM_WORLD, 1);
    MPI_Comm_split(MPI_COMM_WORLD, rank % 2, 0, &half);
    MPI_Comm_split(MPI_COMM_WORLD, 0, -rank, &back);

    /* Messages: 0 publishes, and 1 looks up. */
    publish(0); /* two tags, received the other way round */
    if (rank == 0) {
        MPI_Send(&x, 1, MPI_INT, 1, 1, MPI_COMM_WORLD);
        MPI_Bsend(NULL, 0, MPI_INT, MPI_PROC_NULL, 2, MPI_COMM_WORLD);
        MPI_Ssend(&x, 1, MPI_INT, 2, 2, MPI_COMM_WORLD);
        MPI_Send(&x, 1, MPI_INT, 1, 3, MPI_COMM_WORLD);
    }
    if (rank == 1) {
        MPI_Recv(&x, 1, MPI_INT, 0, 3, MPI_COMM_WORLD, &status);
        wrong += status.MPI_SOURCE != 0 || status.MPI_TAG != 3;
        MPI_Recv(&x, 1, MPI_INT, MPI_ANY_SOURCE, MPI_ANY_TAG, MPI_COMM_WORLD, MPI_STATUS_IGNORE);
    }
    if (rank == 2)
        MPI_Recv(&x, 1, MPI_INT, MPI_ANY_SOURCE, MPI_ANY_TAG, MPI_COMM_WORLD, MPI_STATUS_IGNORE);
    look_up(1);

    publish(0); /* requests that are complete in another order, in three communicators */
    if (rank == 0) {
        MPI_Isend(&x, 1, MPI_INT, 3, 0, back, &requests[0]); /* to 0 of the world: this process */
        MPI_Irecv(&y[0], 1, MPI_INT, 3, 0, back, &requests[1]);
        MPI_Isend(&x, 1, MPI_INT, 2, 7, back, &requests[2]); /* to 1 of the world */
        MPI_Waitall(3, requests, MPI_STATUSES_IGNORE);
        MPI_Send(&x, 1, MPI_INT, 1, 0, half); /* to 2 of the world */
    }
    if (rank == 1) {
        MPI_Irecv(&x, 1, MPI_INT, MPI_ANY_SOURCE, MPI_ANY_TAG, back, &requests[0]);
        while (!flag)
            MPI_Test(&requests[0], &flag, &status);
        wrong += status.MPI_SOURCE != 3 || status.MPI_TAG != 7;
    }
    if (rank == 2) {
        requests[0] = requests[2] = MPI_REQUEST_NULL;
        MPI_Irecv(&x, 1, MPI_INT, 0, 0, half, &requests[1]);
        MPI_Waitany(3, requests, &which, MPI_STATUS_IGNORE);
        wrong += which != 1;
    }
    look_up(1);

    publish(0); /* requests that are started again and again */
    if (rank == 0) {
        MPI_Send_init(&x, 1, MPI_INT, 1, 5, MPI_COMM_WORLD, &requests[0]);
        for (int n = 0; n < 3; n++) {
            MPI_Start(&requests[0]);
            MPI_Wait(&requests[0], MPI_STATUS_IGNORE);
        }
        MPI_Request_free(&requests[0]);
    }
    if (rank == 1) {
        MPI_Recv_init(&x, 1, MPI_INT, 0, 5, MPI_COMM_WORLD, &requests[0]);
        for (int n = 0; n < 3; n++) {
            MPI_Startall(1, requests);
            MPI_Waitsome(1, requests, &flag, &which, n ? statuses : MPI_STATUSES_IGNORE);
            wrong += flag != 1 || which != 0;
        }
        MPI_Request_free(&requests[0]);
    }
    look_up(1);

    publish(0); /* there and back */
    if (rank < 2)
        MPI_Sendrecv_replace(&x, 1, MPI_INT, 1 - rank, 0, 1 - rank, 0, MPI_COMM_WORLD, MPI_STATUS_IGNORE);
    look_up(1);
    publish(0);
    if (rank < 2)
        MPI_Sendrecv(&rank, 1, MPI_INT, 1 - rank, 0, &x, 1, MPI_INT, 1 - rank, 0, MPI_COMM_WORLD, &status);
    look_up(1);

    /* Collectives: each orders these two. */
    publish(3);
    MPI_Barrier(back);
    look_up(0);
    publish(0);
    MPI_Bcast(&x, 1, MPI_INT, 3, back); /* rank 3 of it is 0 of the world */
    look_up(2);
    publish(1);
    MPI_Gather(&x, 1, MPI_INT, y, 1, MPI_INT, 2, MPI_COMM_WORLD);
    look_up(2);
    publish(1);
    MPI_Scatter(y, 1, MPI_INT, &x, 1, MPI_INT, 1, MPI_COMM_WORLD);
    look_up(3);
    publish(1);
    MPI_Reduce(rank == 2 ? MPI_IN_PLACE : y, y, 4, MPI_INT, MPI_SUM, 2, MPI_COMM_WORLD);
    look_up(2);
    publish(1);
    MPI_Scan(&rank, &x, 1, MPI_INT, MPI_SUM, MPI_COMM_WORLD);
    look_up(3);
    publish(1);
    MPI_Exscan(&rank, &x, 1, MPI_INT, MPI_SUM, MPI_COMM_WORLD);
    look_up(2);
    publish(3);
    MPI_Allgather(MPI_IN_PLACE, 0, MPI_DATATYPE_NULL, y, 1, MPI_INT, MPI_COMM_WORLD);
    look_up(0);
    int counts[4] = {0, 1, 0, 1}, places[4] = {0, 0, 1, 1}, ones[4] = {1, 1, 1, 1}, at[4] = {0, 1, 2, 3};
    publish(3); /* ranks 0 and 2 contribute nothing */
    MPI_Allgatherv(&x, counts[rank], MPI_INT, y, counts, places, MPI_INT, MPI_COMM_WORLD);
    look_up(0);
    publish(2);
    MPI_Alltoall(y, 1, MPI_INT, z, 1, MPI_INT, MPI_COMM_WORLD);
    look_up(1);
    publish(2); /* each sends to those above it alone, and 2 to 3 */
    int outs[4], ins[4];
    MPI_Datatype types[4] = {MPI_INT, MPI_INT, MPI_INT, MPI_INT};
    for (int n = 0; n < 4; n++) {
        outs[n] = n > rank;
        ins[n] = n < rank;
    }
    MPI_Alltoallv(y, outs, at, MPI_INT, z, ins, at, MPI_INT, MPI_COMM_WORLD);
    look_up(3);
    publish(0);
    for (int n = 0; n < 4; n++)
        at[n] *= (int)sizeof(int);
    MPI_Alltoallw(y, outs, at, types, z, ins, at, types, MPI_COMM_WORLD);
    look_up(2);
    publish(3);
    MPI_Reduce_scatter(y, &x, ones, MPI_INT, MPI_SUM, MPI_COMM_WORLD);
    look_up(0);
    publish(3);
    MPI_Reduce_scatter_block(y, &x, 1, MPI_INT, MPI_SUM, MPI_COMM_WORLD);
    look_up(1);
    publish(3);
    MPI_Allreduce(&rank, &x, 1, MPI_INT, MPI_SUM, half); /* 1 and 3 */
    look_up(1);

    MPI_Ibarrier(MPI_COMM_WORLD, &requests[0]);
    MPI_Wait(&requests[0], MPI_STATUS_IGNORE);
    MPI_Comm_free(&half);
    MPI_Comm_free(&back);
    MPI_Allreduce(&wrong, &x, 1, MPI_INT, MPI_SUM, MPI_COMM_WORLD);
    printf("rank %d of %d: %d steps, %d wrong\n", rank, size, step, x);
    MPI_Finalize();
    return 0;
}
