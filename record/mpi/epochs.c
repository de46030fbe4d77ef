/* Epochs of windows. */
#include "mpi/epochs.h"
#include "mpi/communicators.h"

#include <pthread.h>
#include <stdlib.h>

/* An epoch that has begun: those that it is with, by their ranks in the window. */
struct epoch {
    MPI_Win window;
    enum side side;
    int count;
    int *ranks;
    struct epoch *next;
};

static struct epoch *epochs;
static pthread_mutex_t table = PTHREAD_MUTEX_INITIALIZER;

/* Takes the epoch of a window off the list, to be freed; null where there is none. */
static struct epoch *take_epoch(MPI_Win window, enum side side)
{
    pthread_mutex_lock(&table);
    struct epoch **at = &epochs;
    while (*at && ((*at)->window != window || (*at)->side != side))
        at = &(*at)->next;
    struct epoch *it = *at;
    if (it)
        *at = it->next;
    pthread_mutex_unlock(&table);
    return it;
}

static void free_epoch(struct epoch *it)
{
    if (it)
        free(it->ranks);
    free(it);
}

/* Finds the ranks in a window of the members of a group. False where they can't be told. */
static bool find_ranks(struct epoch *it, MPI_Group group)
{
    MPI_Group whole;
    if (mpi.group_size(group, &it->count) != MPI_SUCCESS || it->count < 0)
        return false;
    size_t count = (size_t)it->count;
    int *own = calloc(count + 1, sizeof *own);
    it->ranks = calloc(count + 1, sizeof *it->ranks);
    bool is_told = own && it->ranks && mpi.win_get_group(it->window, &whole) == MPI_SUCCESS;
    if (is_told) {
        for (int n = 0; n < it->count; n++)
            own[n] = n;
        is_told = mpi.group_translate_ranks(group, it->count, own, whole, it->ranks) == MPI_SUCCESS;
        mpi.group_free(&whole);
    }
    free(own);
    return is_told;
}

void keep_epoch(const struct call *call, enum side side, int result, MPI_Group group,
                MPI_Win window)
{
    if (!call->is_noted || result != MPI_SUCCESS)
        return;
    free_epoch(take_epoch(window, side));
    struct epoch *made = calloc(1, sizeof *made);
    if (!made)
        return;
    made->window = window;
    made->side = side;
    if (!find_ranks(made, group)) {
        free_epoch(made);
        return;
    }
    pthread_mutex_lock(&table);
    made->next = epochs;
    epochs = made;
    pthread_mutex_unlock(&table);
}

/* The message between a rank of a window and this process that stands for the end of an epoch. */
static struct envelope make_message(MPI_Win window, int rank)
{
    return (struct envelope){(MPI_Comm)(uintptr_t)window, rank, 0};
}

void note_completion(const struct call *call, MPI_Win window)
{
    struct epoch *it = call->is_noted ? take_epoch(window, ORIGIN) : NULL;
    for (int n = 0; it && n < it->count; n++)
        note_send(call, make_message(window, it->ranks[n]), 0);
    free_epoch(it);
}

/* Notes that the end of an epoch of one origin came. */
static void note_end_of(const struct call *call, MPI_Win window, int rank, const char *how)
{
    unsigned long number = note_receive(call, make_message(window, rank));
    struct text what;
    if (!number)
        return;
    wire_up_text_open(&what);
    wire_up_text_add(&what, "0 %d 0 0 %s", rank, how);
    write_end(number, &what);
}

void note_awaited(const struct call *call, int result, MPI_Win window, const char *how)
{
    bool is_told = call->is_noted && result == MPI_SUCCESS;
    struct epoch *it = is_told ? take_epoch(window, TARGET) : NULL;
    for (int n = 0; it && n < it->count; n++)
        note_end_of(call, window, it->ranks[n], how);
    free_epoch(it);
}
