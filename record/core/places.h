/* Places in the code of a process. */
#ifndef WIRE_UP_PLACES_H
#define WIRE_UP_PLACES_H

#include "core/owners.h"
#include "record.h"

#include <unwind.h>

/* Makes a new number for a place. */
unsigned number_place(void);

/* Finds whose code is at an address; the program's where memory is refused. */
enum owner find_owner(const void *address);

/* The same, without memory for a place. */
enum owner read_owner(const void *address);

/* The innermost functions of the program that have called each other: the last called first. */
#define MOST_FRAMES 8
struct frames {
    struct place *at[MOST_FRAMES];
    size_t count, seen; /* of all frames that were looked at */
    bool is_over;       /* no more are kept */
    bool is_in_handler; /* a signal interrupted what was there before */
    bool is_of_mpi;     /* the library of MPI called the outermost that is kept */
};

/* Keeps the place of a frame if it is the program's, up to the first behind it that isn't. Then it
 * only looks for a signal. */
_Unwind_Reason_Code keep_frame(struct _Unwind_Context *frame, void *to);

/* The place of the first of these, called at those of the others; null where there are none. */
struct place *join_frames(const struct frames *found);

/* Notes what wire_up_note_past does, if objects were loaded since: another library may take the
 * calls of dlclose. */
void note_past_if_loaded(void);

/* Does what wire_up_place_called does, however often. Where it is for a call of PMIx, and MPI called
 * the function that makes it, it notes that. */
struct place *walk_from(struct place *place, const void *frame, bool is_for_pmix);

/* Finds where in the program a call comes from that the code at `caller` makes, through however many
 * calls of libraries. Null on a thread that isn't the program's. The frame is that of the wrapper. */
static inline struct place *find_origin(const void *caller, const void *frame)
{
    struct place *line;
    if (wire_up_recall_place(caller, frame, &line))
        return line;
    struct place *place = wire_up_place(caller);
    return place ? walk_from(place, frame, true) : NULL;
}

#endif
