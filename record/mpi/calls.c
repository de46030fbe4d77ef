/* Calls of MPI that are noted. */
#include "mpi/calls.h"
#include "mpi/communicators.h"
#include "mpi/library.h"

#include <errno.h>

__thread unsigned long calls_made;

/* Whether calls of this code are noted. */
static bool is_watched(struct place *place)
{
    return !wire_up_is_own(place, OF_MPI) && !wire_up_is_own(place, OF_PMIX);
}

/* Whether a call that a place makes can come from the program: a tool, the bindings of another
 * language, or a library that called back may stand between, or a signal. */
static bool has_origin(const struct place *place) { return place && place->owner != OF_RECORDER; }

/* Finds whether a call is noted that isn't remembered, and the line that it comes from. */
static bool find_line(const void *caller, const void *frame, struct place **line)
{
    struct place *place = wire_up_place(caller);
    bool is_noted = is_watched(place);
    *line = is_noted && has_origin(place) ? wire_up_place_called(place, frame) : NULL;
    return is_noted;
}

struct call enter_call(const char *function, const void *caller)
{
    const void *frame = __builtin_frame_address(0);
    struct place *line = NULL;
    bool is_noted = is_mpi_found() && wire_up_takes_calls() &&
                    (wire_up_recall_place(caller, frame, &line) || find_line(caller, frame, &line));
    if (is_noted)
        note_world();
    return (struct call){.function = function, .is_noted = is_noted, .place = line};
}

unsigned long write_begin(const struct call *call, struct text *what)
{
    unsigned long number = wire_up_number();
    wire_up_write('+', number, call->place, what);
    wire_up_text_close(what);
    return number;
}

void write_end(unsigned long number, struct text *what)
{
    wire_up_write('-', number, NULL, what);
    wire_up_text_close(what);
}

void write_plain(struct text *what)
{
    wire_up_write('=', 0, NULL, what);
    wire_up_text_close(what);
}

void note_other(const char *function)
{
    struct text what;
    wire_up_text_open(&what);
    wire_up_text_add(&what, "other %s", function);
    write_plain(&what);
}

void note_passed(const char *function, unsigned long before)
{
    int error = errno;
    if (calls_made == before)
        wire_up_note_unseen("call", function);
    errno = error;
}
