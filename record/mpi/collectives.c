/* Collectives. */
#include "mpi/collectives.h"
#include "mpi/requests.h"

struct collective begin_collective(const struct call *call, const char *kind, uintptr_t handle)
{
    struct collective it = {.number = 0};
    if (!call->is_noted)
        return it;
    it.comm = find_communicator(handle);
    if (!it.comm.number) {
        note_other(call->function);
        return it;
    }
    if (it.comm.size == 1 && !it.comm.is_inter)
        return it; /* nobody waits for anybody */
    struct text what;
    wire_up_text_open(&what);
    wire_up_text_add(&what, "collective %s %u", kind, it.comm.number);
    it.number = write_begin(call, &what);
    return it;
}

void end_collective(const struct collective *it, int result, const char *sources)
{
    if (it->number)
        note_collected(it->number, result, sources, WAITED);
}

void keep_begun(const struct collective *it, int result, const MPI_Request *request,
                const char *sources)
{
    if (it->number && result == MPI_SUCCESS)
        keep_collective(*request, it->number, sources);
    else if (it->number)
        note_collected(it->number, result, "none", WAITED);
    else if (result == MPI_SUCCESS && wire_up_is_recording())
        forget_request(*request);
}

/* --- whose data --- */

const char *name_all(MPI_Count count, MPI_Datatype type)
{
    return count_bytes(count, type) > 0 ? "all" : "none";
}

const char *name_below(MPI_Count count, MPI_Datatype type)
{
    return count_bytes(count, type) > 0 ? "below" : "none";
}

/* Whether the process gets what the root has. On an intercommunicator the root says so. */
static bool gets_from_root(const struct collective *it, int root)
{
    return root >= 0 && (it->comm.is_inter || it->comm.rank != root);
}

static bool is_root(const struct collective *it, int root)
{
    return it->comm.is_inter ? root == MPI_ROOT : it->comm.rank == root;
}

const char *name_root(struct text *room, const struct collective *it, int root, int count,
                      MPI_Datatype type)
{
    if (!gets_from_root(it, root) || count_bytes(count, type) <= 0)
        return "none";
    wire_up_text_add(room, "%d", root);
    return room->at;
}

const char *name_all_at_root(const struct collective *it, int root, MPI_Count count, MPI_Datatype type)
{
    return is_root(it, root) ? name_all(count, type) : "none";
}

static MPI_Count get_count(struct counts counts, int rank)
{
    return counts.large ? counts.large[rank] : counts.plain[rank];
}

/* Names the ranks from which something comes: of one type, or each of its own. */
static const char *name_counted_in(struct text *room, const struct collective *it,
                                   struct counts counts, MPI_Datatype type,
                                   const MPI_Datatype types[])
{
    bool are_all = true, is_first = true;
    for (int n = 0; n < it->comm.size; n++)
        if (count_bytes(get_count(counts, n), types ? types[n] : type) > 0) {
            wire_up_text_add(room, is_first ? "%d" : ",%d", n);
            is_first = false;
        } else if (n != it->comm.rank) {
            are_all = false;
        }
    if (are_all)
        return "all";
    return is_first || room->is_lost ? "none" : room->at;
}

const char *name_counted(struct text *room, const struct collective *it, struct counts counts,
                         MPI_Datatype type)
{
    return name_counted_in(room, it, counts, type, NULL);
}

const char *name_counted_at_root(struct text *room, const struct collective *it, int root,
                                 struct counts counts, MPI_Datatype type)
{
    return is_root(it, root) ? name_counted_in(room, it, counts, type, NULL) : "none";
}

const char *name_counted_of_types(struct text *room, const struct collective *it,
                                  struct counts counts, const MPI_Datatype types[])
{
    return name_counted_in(room, it, counts, types[0], types);
}

const char *name_all_by_own(const struct collective *it, struct counts counts, MPI_Datatype type)
{
    int rank = it->comm.rank;
    if (it->comm.is_inter)
        mpi.comm_rank((MPI_Comm)it->comm.handle, &rank); /* on its own side */
    return name_all(get_count(counts, rank), type);
}
