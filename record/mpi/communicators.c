/* The communicators that a process has. */
#include "mpi/communicators.h"

#include <pthread.h>
#include <stdlib.h>

#define BUCKET_BITS 13
static struct communicator *communicators[1 << BUCKET_BITS];
static pthread_mutex_t table = PTHREAD_MUTEX_INITIALIZER;
static unsigned numbers;
/* Counts what is kept and forgotten, from 1. */
static unsigned changes = 1;

/* The group of the world: of MPI_COMM_WORLD, once it is noted, or of a session. */
static MPI_Group world_group;
static bool has_world, is_world_over, has_group;
static int sessions;

/* --- the table --- */

/* Answers where the communicator of a handle hangs, or would: called with the lock. */
static struct communicator **find_slot(uintptr_t handle)
{
    struct communicator **at = &communicators[mix_handle(handle, BUCKET_BITS)];
    while (*at && (*at)->handle != handle)
        at = &(*at)->next;
    return at;
}

struct communicator find_communicator(uintptr_t handle)
{
    struct communicator found = {.number = 0};
    pthread_mutex_lock(&table);
    const struct communicator *it = *find_slot(handle);
    if (it)
        found = *it;
    pthread_mutex_unlock(&table);
    return found;
}

unsigned number_of_communicator(uintptr_t handle)
{
    static __thread struct {
        uintptr_t handle;
        unsigned number, change;
    } last;
    unsigned change = __atomic_load_n(&changes, __ATOMIC_ACQUIRE);
    if (last.handle != handle || last.change != change) {
        last.number = find_communicator(handle).number;
        last.handle = handle;
        last.change = change;
    }
    return last.number;
}

/* Forgets what has a handle, if it has a number, or where that is 0. */
static void forget(uintptr_t handle, unsigned number)
{
    if (!wire_up_is_recording())
        return;
    pthread_mutex_lock(&table);
    struct communicator **at = find_slot(handle), *it = *at;
    if (it && number && it->number != number)
        it = NULL;
    if (it)
        *at = it->next;
    __atomic_add_fetch(&changes, 1, __ATOMIC_RELEASE);
    pthread_mutex_unlock(&table);
    free(it);
}

void forget_communicator(uintptr_t handle) { forget(handle, 0); }

void forget_freed(uintptr_t handle, unsigned number) { forget(handle, number); }

/* Keeps a communicator whose handle was forgotten. */
static void keep_communicator(struct communicator it)
{
    struct communicator *kept = malloc(sizeof *kept);
    if (!kept)
        return;
    *kept = it;
    pthread_mutex_lock(&table);
    struct communicator **at = find_slot(it.handle);
    kept->next = *at;
    *at = kept;
    __atomic_add_fetch(&changes, 1, __ATOMIC_RELEASE);
    pthread_mutex_unlock(&table);
}

static unsigned number_communicator(void)
{
    return __atomic_add_fetch(&numbers, 1, __ATOMIC_RELAXED);
}

struct communicator begin_child(const struct call *call, MPI_Comm parent)
{
    struct communicator found = {.number = 0};
    if (call->is_noted)
        found = find_communicator((uintptr_t)parent);
    found.made++;
    return found;
}

void count_child(const struct communicator *parent)
{
    pthread_mutex_lock(&table);
    struct communicator *it = *find_slot(parent->handle);
    if (it && it->number == parent->number)
        it->made++;
    pthread_mutex_unlock(&table);
}

/* --- members --- */

/* Answers the ranks in the world of the members of a group, to be freed; null where one isn't of
 * this world. */
static int *translate_ranks(MPI_Group group, int size)
{
    size_t count = size > 0 ? (size_t)size : 0;
    int *ranks = calloc(2 * count + 1, sizeof *ranks);
    if (!ranks)
        return NULL;
    int *own = ranks + count;
    for (int n = 0; n < size; n++)
        own[n] = n;
    bool are_all = mpi.group_translate_ranks(group, size, own, world_group, ranks) == MPI_SUCCESS;
    for (int n = 0; are_all && n < size; n++)
        are_all = ranks[n] != MPI_UNDEFINED;
    if (are_all)
        return ranks;
    free(ranks);
    return NULL;
}

/* Adds ranks as ranges. */
static void add_ranges(struct text *to, const int ranks[], int size)
{
    for (int n = 0, last; n < size; n = last + 1) {
        for (last = n; last + 1 < size && ranks[last + 1] == ranks[last] + 1; last++)
            ;
        wire_up_text_add(to, n ? ",%d" : "%d", ranks[n]);
        if (last > n)
            wire_up_text_add(to, "-%d", ranks[last]);
    }
}

/* Adds the ranks in the world of the members of a group that `take` takes of a communicator. False
 * where they can't be told. */
static bool add_members(struct text *to, MPI_Comm comm, __typeof__(&PMPI_Comm_group) take, int size)
{
    MPI_Group group;
    if (!has_group || take(comm, &group) != MPI_SUCCESS)
        return false;
    int *ranks = translate_ranks(group, size);
    bool are_known = ranks != NULL;
    if (are_known)
        add_ranges(to, ranks, size);
    mpi.group_free(&group);
    free(ranks);
    return are_known;
}

/* --- notes --- */

/* Which making of its parent's a communicator is: a letter for how it was made, and a number. */
struct making {
    unsigned parent;
    const char *how;
    long nth;
};

/* Asks MPI about a communicator, and adds the members. False where one isn't of this world. */
static bool describe(struct text *to, MPI_Comm comm, struct communicator *it, struct making making)
{
    int size = 0, is_inter = 0;
    mpi.comm_test_inter(comm, &is_inter);
    mpi.comm_size(comm, &size);
    it->is_inter = is_inter;
    it->size = size;
    wire_up_text_add(to, "%s %u %u %s%ld ", is_inter ? "inter" : "comm", it->number, making.parent,
                     making.how, making.nth);
    bool is_known = add_members(to, comm, mpi.comm_group, size);
    if (!is_inter) {
        mpi.comm_rank(comm, &it->rank);
        return is_known;
    }
    mpi.comm_remote_size(comm, &it->size);
    wire_up_text_add(to, " ");
    return is_known && add_members(to, comm, mpi.comm_remote_group, it->size);
}

/* Writes a communicator that is described, and keeps it. */
static void note_described(struct text *what, struct communicator it, bool is_known)
{
    if (is_known) {
        keep_communicator(it);
        write_plain(what);
    } else {
        wire_up_text_close(what);
    }
}

/* Notes a communicator whose processes are all of this world. */
static void note_communicator(MPI_Comm comm, struct making making)
{
    struct communicator it = {.handle = (uintptr_t)comm, .rank = -1};
    struct text what;
    forget_communicator(it.handle);
    it.number = number_communicator();
    wire_up_text_open(&what);
    bool is_known = describe(&what, comm, &it, making);
    note_described(&what, it, is_known);
}

/* Notes a communicator that a call made, if it made one. */
static void note_made(struct making making, int result, const MPI_Comm *made)
{
    if (result != MPI_SUCCESS)
        return;
    if (making.parent && *made != mpi.no_comm)
        note_communicator(*made, making);
    else
        forget_communicator((uintptr_t)*made);
}

void note_child(const struct communicator *parent, int result, const MPI_Comm *made)
{
    struct making making = {.parent = parent->number, .how = "c", .nth = (long)parent->made};
    if (result == MPI_SUCCESS)
        count_child(parent);
    note_made(making, result, made);
}

void note_child_of_group(const struct communicator *parent, int result, const MPI_Comm *made,
                         int tag)
{
    note_made((struct making){.parent = parent->number, .how = "g", .nth = tag}, result, made);
}

/* Notes what has a handle, and has the processes of a communicator as its members. */
static void note_alike(const struct communicator *parent, MPI_Comm comm, char how, uintptr_t handle)
{
    int size = 0;
    forget_communicator(handle);
    if (!parent->number)
        return;
    struct text what;
    struct communicator it = *parent;
    it.handle = handle;
    it.number = number_communicator();
    it.made = 0;
    mpi.comm_size(comm, &size);
    wire_up_text_open(&what);
    wire_up_text_add(&what, "comm %u %u %c%u ", it.number, parent->number, how, parent->made);
    bool is_known = add_members(&what, comm, mpi.comm_group, size);
    note_described(&what, it, is_known);
}

void note_window(const struct communicator *parent, int result, MPI_Comm comm, const MPI_Win *made)
{
    if (result != MPI_SUCCESS)
        return;
    count_child(parent);
    note_alike(parent, comm, 'v', (uintptr_t)*made);
}

bool take_fence(uintptr_t window, int how)
{
    pthread_mutex_lock(&table);
    struct communicator *it = *find_slot(window);
    bool is_end = it && it->has_epoch && !(how & MPI_MODE_NOPRECEDE);
    if (it)
        it->has_epoch = !(how & MPI_MODE_NOSUCCEED);
    pthread_mutex_unlock(&table);
    return is_end;
}

void note_duplicate(const struct communicator *parent, MPI_Comm made)
{
    if (parent->is_inter)
        forget_communicator((uintptr_t)made);
    else
        note_alike(parent, made, 'c', (uintptr_t)made);
}

/* --- the world --- */

/* Takes the group of the world. True the first time. */
static bool take_world(void)
{
    pthread_mutex_lock(&table);
    bool is_first = !has_world;
    if (is_first && !has_group)
        has_group = mpi.comm_group(mpi.world, &world_group) == MPI_SUCCESS;
    __atomic_store_n(&has_world, true, __ATOMIC_RELEASE);
    pthread_mutex_unlock(&table);
    return is_first;
}

/* Writes which process of the world this is. */
static void write_world(int rank, int size)
{
    struct text what;
    wire_up_text_open(&what);
    wire_up_text_add(&what, "world %d %d", rank, size);
    write_plain(&what);
}

void note_world(void)
{
    int is_there = 0, rank = 0, size = 0;
    if (__atomic_load_n(&has_world, __ATOMIC_ACQUIRE))
        return;
    if (mpi.initialized(&is_there) != MPI_SUCCESS || !is_there || !take_world())
        return;
    mpi.comm_rank(mpi.world, &rank);
    mpi.comm_size(mpi.world, &size);
    write_world(rank, size);
    note_communicator(mpi.world, (struct making){.parent = 0, .how = "w", .nth = 0});
    note_communicator(mpi.self, (struct making){.parent = 0, .how = "o", .nth = 0});
}

void leave_world(void)
{
    pthread_mutex_lock(&table);
    bool is_last = has_group && sessions == 0;
    is_world_over = true;
    if (is_last)
        has_group = false;
    pthread_mutex_unlock(&table);
    if (is_last)
        mpi.group_free(&world_group);
}

/* --- sessions --- */

/* Keeps the group of the world, if there is none yet. */
static bool keep_world(MPI_Group world)
{
    pthread_mutex_lock(&table);
    bool is_first = !has_group;
    if (is_first) {
        world_group = world;
        has_group = true;
    }
    sessions++;
    pthread_mutex_unlock(&table);
    return is_first;
}

void note_session(MPI_Group world)
{
    int rank = 0, size = 0;
    if (!keep_world(world)) {
        mpi.group_free(&world);
        return;
    }
    mpi.group_rank(world, &rank);
    mpi.group_size(world, &size);
    write_world(rank, size);
}

void leave_session(void)
{
    pthread_mutex_lock(&table);
    bool is_last = sessions > 0 && --sessions == 0 && has_group && (!has_world || is_world_over);
    if (is_last)
        has_group = false;
    pthread_mutex_unlock(&table);
    if (is_last)
        mpi.group_free(&world_group);
}

/* Makes a number of a tag. */
static long number_tag(const char *tag)
{
    const unsigned long most = 999999999999999;
    unsigned long number = 5381;
    for (; *tag; tag++)
        number = (number * 33 + (unsigned char)*tag) % most;
    return (long)number;
}

void note_of_session(const struct call *call, int result, const MPI_Comm *made, const char *tag)
{
    if (result != MPI_SUCCESS)
        return;
    if (has_group && tag && *made != mpi.no_comm) {
        note_communicator(*made, (struct making){.parent = 0, .how = "s", .nth = number_tag(tag)});
    } else {
        forget_communicator((uintptr_t)*made);
        note_other(call->function);
    }
}
