/* Calls that complete one request of several, or more. */
#include "mpi/completions.h"

#include <stdlib.h>
#include <string.h>

/* --- watching --- */

static bool has_open(int count, const MPI_Request requests[])
{
    for (int n = 0; n < count; n++)
        if (is_open(requests[n]))
            return true;
    return false;
}

/* Counts the requests that are active, and makes a number of all. */
static void count_active(struct watch *watch, int count, const MPI_Request requests[])
{
    for (int n = 0; n < count; n++) {
        watch->active += requests[n] != mpi.no_request;
        watch->mixed = mix_in(watch->mixed, (uintptr_t)requests[n]);
    }
}

void watch_requests(struct watch *watch, const struct call *call, int count,
                    const MPI_Request requests[])
{
    watch->is_on = false;
    watch->count = watch->active = 0;
    watch->mixed = 0;
    watch->requests = NULL;
    watch->own = NULL;
    if (!call->is_noted || !requests)
        return;
    count_active(watch, count, requests);
    if (!has_open(count, requests))
        return;
    size_t size = (size_t)count * sizeof *requests;
    watch->requests = count <= FEW_REQUESTS ? watch->few : malloc(size);
    if (!watch->requests)
        return;
    memcpy(watch->requests, requests, size);
    watch->count = count;
    watch->is_on = true;
}

MPI_Status *provide_statuses(struct watch *watch, MPI_Status statuses[])
{
    if (!watch->is_on || statuses != MPI_STATUSES_IGNORE)
        return statuses;
    size_t size = (size_t)watch->count * sizeof *watch->own;
    watch->own = watch->count <= FEW_REQUESTS ? watch->few_own : malloc(size);
    watch->is_on = watch->own != NULL;
    return watch->is_on ? memset(watch->own, 0, size) : statuses;
}

const char *name_wait(const struct watch *watch)
{
    return watch->active > 1 ? ONE_OF_SOME : WAITED;
}

const char *name_poll(const struct watch *watch)
{
    return watch->active > 1 ? ONE_OF_SOME : POLLED;
}

bool are_sends(const struct watch *watch)
{
    bool are = watch->active > 0;
    for (int n = 0; watch->is_on && n < watch->count; n++)
        are = are && (!is_open(watch->requests[n]) || is_active_send(watch->requests[n]));
    return are;
}

bool has_send(const struct watch *watch, int some, const int indices[])
{
    bool has = are_sends(watch) && some > 0;
    for (int n = 0; watch->is_on && n < some; n++)
        has = has || (indices[n] >= 0 && indices[n] < watch->count &&
                      is_active_send(watch->requests[indices[n]]));
    return has;
}

/* --- what is complete --- */

/* Answers the result of one of several requests. */
static int get_result(int result, const MPI_Status *status)
{
    return result == MPI_ERR_IN_STATUS ? status->MPI_ERROR : result;
}

void note_all_complete(const struct watch *watch, int result, const MPI_Request requests[],
                       const MPI_Status statuses[], const char *how)
{
    if (!watch->is_on)
        return;
    for (int n = 0; n < watch->count; n++) {
        int own = get_result(result, &statuses[n]);
        if (own != MPI_ERR_PENDING && is_over(own, watch->requests[n], &requests[n]))
            note_complete(watch->requests[n], own, &statuses[n], how);
    }
}

int note_some_complete(const struct watch *watch, int result, const int *ended, const int indices[],
                       const MPI_Status statuses[], const char *how)
{
    bool is_told = watch->is_on && (result == MPI_SUCCESS || result == MPI_ERR_IN_STATUS);
    int some = is_told && *ended != MPI_UNDEFINED ? *ended : 0;
    for (int n = 0; n < some; n++)
        note_complete(watch->requests[indices[n]], get_result(result, &statuses[n]), &statuses[n],
                      how);
    return some;
}

void note_one_complete(const struct watch *watch, int result, const MPI_Request requests[],
                       const int *index, const MPI_Status *status, const char *how)
{
    bool is_one = watch->is_on && index && *index != MPI_UNDEFINED;
    if (!is_one || *index < 0 || *index >= watch->count)
        return;
    if (is_over(result, watch->requests[*index], &requests[*index]))
        note_complete(watch->requests[*index], result, status, how);
}

/* --- the end --- */

/* Answers the first error in statuses; that it stands in one where there is none. That is what Open
 * MPI answers to a program without statuses, too. */
static int find_error(const MPI_Status statuses[], int count)
{
#ifdef OPEN_MPI
    (void)statuses, (void)count;
#else
    for (int n = 0; n < count; n++)
        if (statuses[n].MPI_ERROR != MPI_SUCCESS && statuses[n].MPI_ERROR != MPI_ERR_PENDING)
            return statuses[n].MPI_ERROR;
#endif
    return MPI_ERR_IN_STATUS;
}

int end_watch(struct watch *watch, int result, int count)
{
    if (watch->own && result == MPI_ERR_IN_STATUS)
        result = find_error(watch->own, count);
    if (watch->own != watch->few_own)
        free(watch->own);
    if (watch->requests != watch->few)
        free(watch->requests);
    return result;
}
