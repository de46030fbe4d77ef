/* Messages. */
#include "mpi/messages.h"
#include "mpi/communicators.h"

#include <string.h>

/* Counts a call in a communicator that isn't known: it tells nothing of those that are. */
static void note_unknown(const struct call *call, int rank)
{
    struct text what;
    wire_up_text_open(&what);
    wire_up_text_add(&what, "other %s%s in a communicator that isn't known", call->function,
                     rank == MPI_ANY_SOURCE ? " of any source" : "");
    write_plain(&what);
}

/* Finds the number of the communicator of a message; 0 where there is no other side, and where
 * the communicator isn't known: such a call is counted. */
static unsigned find_number(const struct call *call, struct envelope message)
{
    if (message.rank == MPI_PROC_NULL)
        return 0;
    unsigned number = number_of_communicator((uintptr_t)message.comm);
    if (!number)
        note_unknown(call, message.rank);
    return number;
}

/* Writes that a call begins which has numbers alone, and answers its own. */
static unsigned long write_begun(const struct call *call, const struct numbers *what)
{
    unsigned long number = wire_up_number();
    wire_up_write_numbers('+', number, call->place, what);
    return number;
}

unsigned long note_send(const struct call *call, struct envelope to, long long bytes)
{
    unsigned comm = find_number(call, to);
    const struct numbers what = {.first = "send", .at = {comm, to.rank, to.tag, bytes}, .count = 4};
    return comm ? write_begun(call, &what) : 0;
}

/* Notes what is asked for: a message of a rank or of any, with a tag or any. */
static unsigned long note_asked(const struct call *call, const char *verb, struct envelope from)
{
    unsigned comm = find_number(call, from);
    long long rank = from.rank == MPI_ANY_SOURCE ? ANY_NUMBER : from.rank;
    long long tag = from.tag == MPI_ANY_TAG ? ANY_NUMBER : from.tag;
    const struct numbers what = {.first = verb, .at = {comm, rank, tag}, .count = 3};
    return comm ? write_begun(call, &what) : 0;
}

unsigned long note_receive(const struct call *call, struct envelope from)
{
    return note_asked(call, "receive", from);
}

unsigned long note_probe(const struct call *call, struct envelope from)
{
    return note_asked(call, "probe", from);
}

void note_sent(unsigned long number, int result, const char *how)
{
    const struct numbers what = {.first = "0", .last = strcmp(how, WAITED) ? how : NULL};
    if (number && result == MPI_SUCCESS)
        wire_up_write_numbers('-', number, NULL, &what);
}

void note_unsent(unsigned long number)
{
    const struct numbers what = {.first = "1"};
    if (number)
        wire_up_write_numbers('-', number, NULL, &what);
}

bool is_refused(int result)
{
    static const int refused[] = {MPI_ERR_BUFFER, MPI_ERR_COUNT, MPI_ERR_TYPE, MPI_ERR_TAG,
                                  MPI_ERR_COMM,   MPI_ERR_RANK,  MPI_ERR_ARG};
    int class = MPI_SUCCESS;
    if (result == MPI_SUCCESS || mpi.error_class(result, &class) != MPI_SUCCESS)
        return false;
    for (size_t n = 0; n < sizeof refused / sizeof *refused; n++)
        if (class == refused[n])
            return true;
    return false;
}

/* Answers how many bytes came, or -1 where the status doesn't tell. */
static long long tell_bytes(int result, const MPI_Status *status)
{
#ifdef OPEN_MPI
    return result == MPI_SUCCESS ? (long long)status->_ucount : -1;
#else
    (void)result, (void)status;
    return -1;
#endif
}

/* Whether a receive or a probe that is over got a message. */
static bool has_message(int result, const MPI_Status *status)
{
    int class = MPI_SUCCESS;
    if (result == MPI_SUCCESS)
        return !is_cancelled(result, status);
    return status && mpi.error_class(result, &class) == MPI_SUCCESS && class == MPI_ERR_TRUNCATE;
}

bool is_cancelled(int result, const MPI_Status *status)
{
    int is_so = 0;
    if (result == MPI_SUCCESS)
        mpi.test_cancelled(status, &is_so);
    return is_so;
}

void note_received(unsigned long number, int result, const MPI_Status *status, const char *how)
{
    struct numbers what = {.first = result == MPI_SUCCESS ? "1" : "2"};
    if (!number)
        return;
    if (has_message(result, status)) {
        long long bytes = tell_bytes(result, status);
        what = (struct numbers){"0", {status->MPI_SOURCE, status->MPI_TAG, bytes}, 3, how};
    }
    wire_up_write_numbers('-', number, NULL, &what);
}
