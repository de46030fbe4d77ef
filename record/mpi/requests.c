/* The requests that a process has open. */
#include "mpi/requests.h"

#include <stdint.h>
#include <stdlib.h>
#include <string.h>

/* What a request is for: a receive that is posted, a collective that has begun, a communicator that
 * is being made, a synchronous send, or a send, a receive or something that is only counted, which each
 * start makes. */
struct request {
    uintptr_t handle;
    enum {
        RECEIVE,
        COLLECTIVE,
        DUPLICATE,
        SEND,
        PERSISTENT_SEND,
        PERSISTENT_RECEIVE,
        COUNTED
    } kind;
    unsigned long number; /* of the call whose end is noted; 0 where none is open */
    bool is_synchronous;  /* a persistent send */
    bool is_cancelled;    /* it was asked for, which may come too late */
    char *sources;        /* whose data the collective waits for; null is all */
    struct envelope message;
    long long bytes;
    struct communicator parent; /* of a duplicate */
    MPI_Comm made;
    struct request *next;
};

#define BUCKET_BITS 13
static struct request *requests[1 << BUCKET_BITS];
static bool is_locked;

/* --- the table --- */

/* Answers where the request of a handle hangs, or would: called with the lock. */
static struct request **find_slot(MPI_Request request)
{
    uintptr_t handle = (uintptr_t)request;
    struct request **at = &requests[mix_handle(handle, BUCKET_BITS)];
    while (*at && (*at)->handle != handle)
        at = &(*at)->next;
    return at;
}

/* Answers a copy of what is known of a request; its handle is 0 where nothing is. */
static struct request find_request(MPI_Request request)
{
    struct request found = {.handle = 0};
    wire_up_lock(&is_locked);
    const struct request *it = *find_slot(request);
    if (it)
        found = *it;
    wire_up_unlock(&is_locked);
    return found;
}

/* Takes a request out of the table; null where its handle has none. */
static struct request *take_out(MPI_Request request)
{
    wire_up_lock(&is_locked);
    struct request **at = find_slot(request), *it = *at;
    if (it)
        *at = it->next;
    wire_up_unlock(&is_locked);
    return it;
}

static void free_request(struct request *it)
{
    if (it)
        free(it->sources);
    free(it);
}

void forget_request(MPI_Request request) { free_request(take_out(request)); }

/* Makes the request of a handle, which hangs nowhere else: called with the lock. */
static struct request *hang(struct request **at)
{
    struct request *made = malloc(sizeof *made);
    if (made) {
        made->next = *at;
        *at = made;
    }
    return made;
}

/* Keeps a request in place of what had its handle. */
static void keep(MPI_Request request, struct request what)
{
    what.handle = (uintptr_t)request;
    wire_up_lock(&is_locked);
    struct request **at = find_slot(request);
    struct request *kept = *at;
    char *gone = kept ? kept->sources : NULL;
    if (!kept)
        kept = hang(at);
    if (kept) {
        what.next = kept->next;
        *kept = what;
    } else {
        gone = what.sources;
    }
    wire_up_unlock(&is_locked);
    free(gone);
}

bool is_open(MPI_Request request)
{
    if (request == mpi.no_request)
        return false;
    wire_up_lock(&is_locked);
    const struct request *it = *find_slot(request);
    bool is_known = it && (it->number != 0 || it->kind == DUPLICATE);
    wire_up_unlock(&is_locked);
    return is_known;
}

static bool is_of_send(const struct request *it)
{
    return it->kind == SEND || it->kind == PERSISTENT_SEND;
}

bool is_active_send(MPI_Request request)
{
    if (request == mpi.no_request)
        return false;
    wire_up_lock(&is_locked);
    const struct request *it = *find_slot(request);
    bool is_send = !it || is_of_send(it) || it->kind == DUPLICATE || it->kind == COUNTED;
    wire_up_unlock(&is_locked);
    return is_send;
}

bool is_active(MPI_Request request) { return is_open(request) || is_active_send(request); }

/* --- what is kept --- */

/* Opens a receive in place of one that had its handle. False where the handle had none. */
static bool reopen(MPI_Request request, unsigned long number)
{
    wire_up_lock(&is_locked);
    struct request *it = *find_slot(request);
    bool is_receive = it && it->kind == RECEIVE;
    if (is_receive) {
        it->number = number;
        it->is_cancelled = false;
    }
    wire_up_unlock(&is_locked);
    return is_receive;
}

void keep_receive(MPI_Request request, unsigned long number)
{
    if (!number)
        forget_request(request);
    else if (!reopen(request, number))
        keep(request, (struct request){.kind = RECEIVE, .number = number});
}

void keep_collective(MPI_Request request, unsigned long number, const char *sources)
{
    struct request what = {.kind = COLLECTIVE, .number = number};
    what.sources = strcmp(sources, "all") ? strdup(sources) : NULL;
    keep(request, what);
}

void keep_duplicate(MPI_Request request, const struct communicator *parent, MPI_Comm made)
{
    struct request what = {.kind = DUPLICATE, .made = made};
    what.parent = *parent;
    count_child(parent);
    keep(request, what);
}

void keep_synchronous_send(MPI_Request request, unsigned long number)
{
    if (number)
        keep(request, (struct request){.kind = SEND, .number = number});
    else
        forget_request(request);
}

void keep_persistent_send(MPI_Request request, struct envelope to, long long bytes,
                          bool is_synchronous)
{
    struct request what = {.kind = PERSISTENT_SEND, .message = to, .bytes = bytes};
    what.is_synchronous = is_synchronous;
    keep(request, what);
}

void keep_persistent_receive(MPI_Request request, struct envelope from)
{
    keep(request, (struct request){.kind = PERSISTENT_RECEIVE, .message = from});
}

void keep_counted(MPI_Request request) { keep(request, (struct request){.kind = COUNTED}); }

void note_freed(MPI_Request request)
{
    if (is_open(request) && !is_active_send(request))
        note_other("MPI_Request_free of a receive");
    forget_request(request);
}

void note_cancel(MPI_Request request)
{
    wire_up_lock(&is_locked);
    struct request *it = *find_slot(request);
    bool is_receive = it && it->number && !is_of_send(it);
    if (it && it->number)
        it->is_cancelled = true;
    wire_up_unlock(&is_locked);
    if (!is_receive)
        note_other("MPI_Cancel");
}

/* --- starts --- */

/* Sets the number of the call that a persistent request has open. */
static void set_number(MPI_Request request, unsigned long number)
{
    wire_up_lock(&is_locked);
    struct request *it = *find_slot(request);
    if (it) {
        it->number = number;
        it->is_cancelled = false;
    }
    wire_up_unlock(&is_locked);
}

static void start_send(const struct call *call, MPI_Request request, const struct request *it)
{
    unsigned long number = note_send(call, it->message, it->bytes);
    if (it->is_synchronous)
        set_number(request, number);
}

static void note_start(const struct call *call, MPI_Request request)
{
    struct call start = {.function = "MPI_Start", .is_noted = true, .place = call->place};
    struct request it = find_request(request);
    if (it.handle && it.kind == PERSISTENT_SEND)
        start_send(&start, request, &it);
    else if (it.handle && it.kind == PERSISTENT_RECEIVE)
        set_number(request, note_receive(&start, it.message));
    else if (it.handle && it.kind == COUNTED)
        note_other("MPI_Start of a collective or a partitioned message");
    else
        note_other("MPI_Start of a request that isn't known");
}

void note_starts(const struct call *call, int count, const MPI_Request list[])
{
    for (int n = 0; n < count; n++)
        note_start(call, list[n]);
}

void copy_handles(struct handles *to, int count, const MPI_Request list[])
{
    to->count = list && count > 0 ? count : 0;
    to->at = to->count <= FEW_REQUESTS ? to->few : malloc((size_t)count * sizeof *list);
    if (!to->at)
        to->count = 0;
    for (int n = 0; n < to->count; n++)
        to->at[n] = list[n];
}

/* Gives what a handle stood for another one. */
static void move_request(MPI_Request from, MPI_Request to)
{
    struct request *it = take_out(from);
    if (it)
        keep(to, *it);
    else
        forget_request(to);
    free(it);
}

void move_changed(struct handles *before, const MPI_Request list[])
{
    for (int n = 0; n < before->count; n++)
        if (list[n] != before->at[n])
            move_request(before->at[n], list[n]);
    if (before->at != before->few)
        free(before->at);
}

/* --- ends --- */

void note_collected(unsigned long number, int result, const char *sources, const char *how)
{
    struct text what;
    bool is_well = result == MPI_SUCCESS;
    wire_up_text_open(&what);
    wire_up_text_add(&what, "%d %s %s", is_well ? 0 : 1, is_well ? sources : "none", how);
    write_end(number, &what);
}

/* Takes what a request that is complete was. Its handle keeps its place in the table, with nothing
 * open: MPI gives the same handles again and again. */
static struct request take_complete(MPI_Request request)
{
    struct request done = {.handle = 0};
    wire_up_lock(&is_locked);
    struct request *it = *find_slot(request);
    if (it) {
        done = *it;
        it->number = 0;
        it->sources = NULL;
        if (it->kind == DUPLICATE)
            it->kind = RECEIVE;
    }
    wire_up_unlock(&is_locked);
    return done;
}

/* Whether a persistent request is known by a handle. */
static bool is_persistent(MPI_Request request)
{
    struct request it = find_request(request);
    return it.handle && it.kind >= PERSISTENT_SEND;
}

bool is_over(int result, MPI_Request before, const MPI_Request *now)
{
    int class = MPI_SUCCESS;
    if (result == MPI_SUCCESS || !now || *now != before)
        return true;
    if (mpi.error_class(result, &class) != MPI_SUCCESS || !is_persistent(before))
        return false;
    return class != MPI_ERR_ARG && class != MPI_ERR_REQUEST;
}

void note_complete(MPI_Request request, int result, const MPI_Status *status, const char *how)
{
    struct request done = take_complete(request);
    if (done.handle && is_of_send(&done)) {
        if (!done.is_cancelled)
            note_sent(done.number, result, how);
        return;
    }
    if (done.handle && done.kind == DUPLICATE && result == MPI_SUCCESS)
        note_duplicate(&done.parent, done.made);
    else if (done.number && done.kind == COLLECTIVE)
        note_collected(done.number, result, done.sources ? done.sources : "all", how);
    else
        note_received(done.number, result, status, done.is_cancelled ? POLLED : how);
    if (done.number && done.is_cancelled && is_cancelled(result, status))
        note_other("MPI_Cancel of a receive");
    free(done.sources);
}
