/* The shapes of MPI programs: who sends to whom before what comes next. The first word says which shape; the second, if
 * there is one, which names are published before it and looked up behind it:
 *
 *   root   rank 0 publishes a name, and each rank looks it up
 *   each   each rank publishes a name of its own, and looks up that of the rank before it
 *   both   the same, and rank 0 publishes one more
 */
#include <mpi.h>
#include <stdio.h>
#include <stdlib.h>
#include <string.h>

#define WORLD MPI_COMM_WORLD
#define MOST 64
static int rank, size, given, taken;
static double values[MOST];

static void send(int to)
{
    MPI_Send(&given, 1, MPI_INT, to, 0, WORLD);
}

static void receive(int from)
{
    MPI_Recv(&taken, 1, MPI_INT, from, 0, WORLD, MPI_STATUS_IGNORE);
}

static void exchange(int to, int from, int tag, MPI_Comm comm)
{
    MPI_Sendrecv(&given, 1, MPI_INT, to, tag, &taken, 1, MPI_INT, from, tag, comm, MPI_STATUS_IGNORE);
}

static void nothing(void)
{
}

static void hello(void)
{
    MPI_Barrier(WORLD);
}

static void allreduce(void)
{
    for (int i = 0; i < 3; i++)
        MPI_Allreduce(&given, &taken, 1, MPI_INT, MPI_SUM, WORLD);
}

static void ring(void)
{
    exchange((rank + 1) % size, (rank + size - 1) % size, 0, WORLD);
}

static void token(void)
{
    if (rank > 0)
        receive(rank - 1);
    send((rank + 1) % size);
    if (rank == 0)
        receive(size - 1);
}

static void halo1(void)
{
    int left = rank > 0 ? rank - 1 : MPI_PROC_NULL, right = rank < size - 1 ? rank + 1 : MPI_PROC_NULL;
    for (int i = 0; i < 2; i++) {
        exchange(right, left, 0, WORLD);
        exchange(left, right, 1, WORLD);
    }
}

/* Exchanges with the neighbours in a grid of so many dimensions. */
static void halo(int dimensions, int is_periodic)
{
    int sides[3] = {0, 0, 0}, wraps[3] = {is_periodic, is_periodic, is_periodic};
    MPI_Comm grid;
    MPI_Dims_create(size, dimensions, sides);
    MPI_Cart_create(WORLD, dimensions, sides, wraps, 0, &grid);
    for (int along = 0; along < dimensions; along++) {
        int before, behind;
        MPI_Cart_shift(grid, along, 1, &before, &behind);
        exchange(behind, before, 0, grid);
        exchange(before, behind, 1, grid);
    }
}

static void halo2(void)
{
    halo(2, 0);
}

static void halo2p(void)
{
    halo(2, 1);
}

static void halo3p(void)
{
    halo(3, 1);
}

/* Rank 0 gives each other rank work, and waits for the answer of one, or of whoever comes. */
static void manage(int is_any)
{
    if (rank == 0) {
        for (int i = 1; i < size; i++)
            send(i);
        for (int i = 1; i < size; i++)
            receive(is_any ? MPI_ANY_SOURCE : i);
    } else {
        receive(0);
        send(0);
    }
}

static void manager(void)
{
    manage(0);
}

static void manager_any(void)
{
    manage(1);
}

static void binomial(void)
{
    int bit = 1;
    while (bit < size && !(rank & bit))
        bit <<= 1;
    if (rank)
        receive(rank - bit);
    for (bit >>= 1; bit > 0; bit >>= 1) {
        if (rank + bit < size)
            send(rank + bit);
    }
}

/* Down a tree of two children each, and up. */
static void binary(void)
{
    int child = 2 * rank + 1, parent = (rank - 1) / 2;
    if (rank)
        receive(parent);
    for (int i = child; i < child + 2 && i < size; i++)
        send(i);
    for (int i = child; i < child + 2 && i < size; i++)
        receive(i);
    if (rank)
        send(parent);
}

static void pipeline(void)
{
    for (int i = 0; i < 2; i++) {
        if (rank > 0)
            receive(rank - 1);
        if (rank < size - 1)
            send(rank + 1);
    }
}

static void pairwise(void)
{
    for (int i = 1; i < size; i++)
        exchange((rank + i) % size, (rank + size - i) % size, 0, WORLD);
}

static void isend(void)
{
    MPI_Request open[4];
    int count = 0, other;
    if (rank > 0)
        MPI_Irecv(&taken, 1, MPI_INT, rank - 1, 0, WORLD, &open[count++]);
    if (rank < size - 1)
        MPI_Irecv(&other, 1, MPI_INT, rank + 1, 0, WORLD, &open[count++]);
    if (rank > 0)
        MPI_Isend(&given, 1, MPI_INT, rank - 1, 0, WORLD, &open[count++]);
    if (rank < size - 1)
        MPI_Isend(&given, 1, MPI_INT, rank + 1, 0, WORLD, &open[count++]);
    MPI_Waitall(count, open, MPI_STATUSES_IGNORE);
}

static void oddeven(void)
{
    for (int i = 0; i < size; i++) {
        int other = (rank + i) % 2 ? rank - 1 : rank + 1;
        if (other >= 0 && other < size)
            exchange(other, other, 0, WORLD);
    }
}

static void rows(void)
{
    int sides[2] = {0, 0};
    MPI_Comm row, column;
    MPI_Dims_create(size, 2, sides);
    MPI_Comm_split(WORLD, rank / sides[1], rank, &row);
    MPI_Comm_split(WORLD, rank % sides[1], rank, &column);
    MPI_Allreduce(&given, &taken, 1, MPI_INT, MPI_SUM, row);
    MPI_Allreduce(&given, &taken, 1, MPI_INT, MPI_SUM, column);
}

static void leaders(void)
{
    MPI_Comm node, first;
    int here;
    MPI_Comm_split_type(WORLD, MPI_COMM_TYPE_SHARED, 0, MPI_INFO_NULL, &node);
    MPI_Comm_rank(node, &here);
    MPI_Comm_split(WORLD, here ? MPI_UNDEFINED : 0, rank, &first);
    MPI_Barrier(node);
    if (!here)
        MPI_Barrier(first);
    MPI_Barrier(node);
}

static void bcast(void)
{
    MPI_Bcast(&given, 1, MPI_INT, 0, WORLD);
}

static void reduce(void)
{
    MPI_Reduce(&given, &taken, 1, MPI_INT, MPI_SUM, 0, WORLD);
}

static void gather(void)
{
    MPI_Gather(&given, 1, MPI_INT, values, 1, MPI_INT, 0, WORLD);
    MPI_Scatter(values, 1, MPI_INT, &taken, 1, MPI_INT, 0, WORLD);
}

static void scan(void)
{
    MPI_Scan(&given, &taken, 1, MPI_INT, MPI_SUM, WORLD);
}

static void butterfly(void)
{
    for (int bit = 1; bit < size; bit <<= 1) {
        if ((rank ^ bit) < size)
            exchange(rank ^ bit, rank ^ bit, 0, WORLD);
    }
}

static void dissemination(void)
{
    for (int bit = 1; bit < size; bit <<= 1)
        exchange((rank + bit) % size, (rank + size - bit) % size, 0, WORLD);
}

static void window(void)
{
    MPI_Win shared;
    MPI_Win_create(values, sizeof values, sizeof *values, MPI_INFO_NULL, WORLD, &shared);
    MPI_Win_fence(0, shared);
    MPI_Put(&given, 1, MPI_INT, (rank + 1) % size, 0, 1, MPI_INT, shared);
    MPI_Win_fence(0, shared);
    MPI_Win_free(&shared);
}

#define SHAPE(name) {#name, name}
static const struct {
    const char *name;
    void (*run)(void);
} shapes[] = {
    SHAPE(nothing), SHAPE(hello), SHAPE(allreduce), SHAPE(ring), SHAPE(token), SHAPE(halo1), SHAPE(halo2),
    SHAPE(halo2p), SHAPE(halo3p), SHAPE(manager), SHAPE(manager_any), SHAPE(binomial), SHAPE(binary),
    SHAPE(pipeline), SHAPE(pairwise), SHAPE(isend), SHAPE(oddeven), SHAPE(rows), SHAPE(leaders), SHAPE(bcast),
    SHAPE(reduce), SHAPE(gather), SHAPE(scan), SHAPE(butterfly), SHAPE(dissemination), SHAPE(window),
};

static void name_of(char *name, int of)
{
    sprintf(name, "name%d", of);
}

int main(int count, char **words)
{
    char port[MPI_MAX_PORT_NAME] = "port", name[MOST];
    const char *shape = count > 1 ? words[1] : "", *form = count > 2 ? words[2] : "";
    int is_root = !strcmp(form, "root"), is_both = !strcmp(form, "both"), is_each = is_both || !strcmp(form, "each");
    MPI_Init(&count, &words);
    MPI_Comm_rank(WORLD, &rank);
    MPI_Comm_size(WORLD, &size);
    MPI_Comm_set_errhandler(WORLD, MPI_ERRORS_RETURN);
    name_of(name, rank);
    if (is_each || (is_root && rank == 0))
        MPI_Publish_name(name, MPI_INFO_NULL, port);
    if (is_both && rank == 0)
        MPI_Publish_name("service", MPI_INFO_NULL, port);
    for (size_t i = 0; i < sizeof shapes / sizeof *shapes; i++) {
        if (!strcmp(shape, shapes[i].name))
            shapes[i].run();
    }
    name_of(name, is_root ? 0 : (rank + size - 1) % size);
    if (is_root || is_each)
        MPI_Lookup_name(name, MPI_INFO_NULL, port);
    MPI_Finalize();
    return 0;
}
