/* From which functions of the program a call comes. To walk the frames takes microseconds, so each
 * thread keeps what it found, with the return addresses on its stack: where these are the same, the
 * frames are. */
#include "core/places.h"
#include "core/recording.h"

#include <pthread.h>
#include <signal.h>
#include <stdint.h>
#include <stdlib.h>
#include <string.h>

/* How many walks a thread keeps, and how many return addresses of each. */
#define WALKS 64
#define MOST_STEPS 24
/* How often the frames of MPI's calls are walked whose line is known without it. The first call that
 * code makes is always walked, and each that may be in a handler of a signal. */
#define MOST_WALKS 20000

struct step {
    void *const *slot;
    void *address;
};

struct walk {
    const void *caller, *frame;
    struct frames found;
    struct step steps[MOST_STEPS];
    size_t count;
    bool is_kept;
    struct place *place;
};

static __thread struct walk *walks;
static unsigned walked;
static pthread_key_t at_exit;
static pthread_once_t making = PTHREAD_ONCE_INIT;

static void forget_walks(void *of)
{
    walks = NULL;
    free(of);
}

static void make_key(void) { pthread_key_create(&at_exit, forget_walks); }

/* Answers where the walk for a call is kept, or would be; null where memory is refused. */
static struct walk *find_slot(const void *caller, const void *frame)
{
    if (!walks) {
        pthread_once(&making, make_key);
        walks = calloc(WALKS, sizeof *walks);
        pthread_setspecific(at_exit, walks);
    }
    uintptr_t bits = (uintptr_t)caller ^ (uintptr_t)frame >> 4;
    return walks ? &walks[(bits ^ bits >> 6) % WALKS] : NULL;
}

/* Whether the return addresses are still there: from the innermost on, each is in a frame that is as
 * it was. */
static bool is_same(const struct walk *it, const void *caller, const void *frame)
{
    if (it->caller != caller || it->frame != frame)
        return false;
    for (size_t n = 0; n < it->count; n++)
        if (*it->steps[n].slot != it->steps[n].address)
            return false;
    return true;
}

/* Takes a frame, up to where the program's end. Those of the walk itself are below that of the
 * function which asks. */
static _Unwind_Reason_Code take_frame(struct _Unwind_Context *frame, void *to)
{
    struct walk *it = to;
    void *address = (void *)_Unwind_GetIP(frame);
    void *const *slot = (void *const *)(_Unwind_GetCFA(frame) - sizeof *slot);
    if ((const void *)slot < it->frame)
        return _URC_NO_REASON;
    if (!it->found.is_over && it->count < MOST_STEPS && address && *slot == address)
        it->steps[it->count++] = (struct step){slot, address};
    else if (!it->found.is_over)
        it->is_kept = false;
    return keep_frame(frame, &it->found);
}

/* Notes once that a function makes calls that is called by a signal or by MPI: where they stand can
 * be luck. */
static void note_by_luck(bool *is_noted, const char *kind, const char *by)
{
    if (!__atomic_exchange_n(is_noted, true, __ATOMIC_RELAXED))
        wire_up_note_unseen(kind, by);
}

/* Walks the frames of a call that a place makes, which may itself be the program's. */
static void walk_frames(struct walk *it, struct place *place, bool is_for_pmix)
{
    static bool is_handler_noted, is_callback_noted;
    it->is_kept = true;
    _Unwind_Backtrace(take_frame, it);
    if (it->found.is_in_handler)
        note_by_luck(&is_handler_noted, "handler", "signal");
    if (it->found.is_of_mpi && is_for_pmix)
        note_by_luck(&is_callback_noted, "callback", "MPI");
    it->place = join_frames(&it->found);
    if (!it->place && place->owner == OF_PROGRAM)
        it->place = place;
}

bool wire_up_recall_place(const void *caller, const void *frame, struct place **line)
{
    const struct walk *kept = walks ? find_slot(caller, frame) : NULL;
    if (!kept || !is_same(kept, caller, frame))
        return false;
    *line = kept->place && kept->place->is_mpi4py ? wire_up_in_python(kept->place) : kept->place;
    return true;
}

/* Which signals the thread doesn't take, as it was found outside of any handler: a handler has its
 * own added. */
static __thread sigset_t usual;

static void read_signals(sigset_t *to)
{
    sigemptyset(to);
    pthread_sigmask(SIG_BLOCK, NULL, to);
}

static bool is_as_usual(void)
{
    sigset_t now;
    read_signals(&now);
    return memcmp(&now, &usual, sizeof now) == 0;
}

struct place *wire_up_place_called(struct place *place, const void *frame)
{
    bool is_known = walks && place->owner == OF_PROGRAM &&
                    __atomic_load_n(&place->is_walked, __ATOMIC_RELAXED);
    if (is_known && __atomic_fetch_add(&walked, 1, __ATOMIC_RELAXED) > MOST_WALKS && is_as_usual())
        return wire_up_in_python(place);
    return walk_from(place, frame, false);
}

struct place *walk_from(struct place *place, const void *frame, bool is_for_pmix)
{
    struct walk it = {.caller = place->address, .frame = frame};
    note_thread();
    note_past_if_loaded();
    walk_frames(&it, place, is_for_pmix);
    if (!it.found.is_in_handler)
        read_signals(&usual);
    __atomic_store_n(&place->is_walked, true, __ATOMIC_RELAXED);
    struct walk *kept = it.is_kept ? find_slot(it.caller, frame) : NULL;
    if (kept)
        *kept = it;
    return wire_up_in_python(it.place);
}
