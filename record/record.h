/* The recorders: libraries that stand before PMIx and MPI, note the calls of a process in a file of
 * its own, and change nothing that the process sees.
 *
 *   LD_PRELOAD=.../record.so:.../record-mpi.so WIRE_UP_RECORD=DIRECTORY program
 *
 * `wire_up-record` sets both and turns the files into a plan. docs/recording.md has the form of the
 * files.
 *
 * record.so (core, pmix) notes calls of PMIx; record-mpi.so (mpi) notes those of MPI that order
 * processes. It isn't linked with MPI: a process without MPI, such as the launcher, can load it.
 *
 * pmix.table and mpi.table say what each function is; wrappers.py and others.py write its wrapper.
 * A call is noted just before the library's own function runs, and its end just after. What the
 * libraries' own code calls, on any thread, isn't noted. A wrapper keeps errno as it was, so that
 * what it calls need not.
 *
 * This header has what the two share: the texts of records, and the file. record.so has these
 * functions, and record-mpi.so calls them. */
#ifndef WIRE_UP_RECORD_H
#define WIRE_UP_RECORD_H

#include <stdbool.h>
#include <stddef.h>
#include <stdint.h>
#include <time.h>

/* Marks what other objects of the process find. All else stays within its recorder. */
#define EXPORTED __attribute__((visibility("default")))

/* A lock that costs a few instructions, as each call of MPI takes some. It is mostly held for as
 * few: who waits for it asks again, and sleeps in between once that was in vain. */
#define TURNS_BEFORE_SLEEP 100
static inline void wire_up_lock(bool *lock)
{
    for (int turn = 0; __atomic_exchange_n(lock, true, __ATOMIC_ACQUIRE); turn++)
        if (turn >= TURNS_BEFORE_SLEEP)
            nanosleep(&(struct timespec){.tv_nsec = 1000}, NULL);
}

static inline void wire_up_unlock(bool *lock) { __atomic_store_n(lock, false, __ATOMIC_RELEASE); }

/* A text that grows. `is_lost` says that memory for it was refused. */
struct text {
    char *at;
    size_t length, room;
    bool is_lost;
    char first[1024];
};

EXPORTED void wire_up_text_open(struct text *to);
EXPORTED void wire_up_text_close(struct text *to);
EXPORTED void wire_up_text_add(struct text *to, const char *format, ...)
    __attribute__((format(printf, 2, 3)));

/* Adds a text as one word, with %XX for each byte that a word can't have. */
EXPORTED void wire_up_text_add_word(struct text *to, const char *word);

/* Whether a record would be written now: this process is a client of PMIx, and its file is open. */
EXPORTED bool wire_up_is_recording(void);

/* The same, where PMIx or MPI is called. What a forked child calls isn't recorded: its parent is
 * told that it called. */
EXPORTED bool wire_up_takes_calls(void);

/* Sets what lets MPI go on while a call is held back. */
EXPORTED void wire_up_set_progress(void (*function)(void));

/* Makes a new number for a call. */
EXPORTED unsigned long wire_up_number(void);

/* Whose code calls. Bindings are those of another language to MPI. */
enum owner { OF_PROGRAM, OF_BINDINGS, OF_TOOL, OF_MPI, OF_PMIX, OF_SYSTEM, OF_RECORDER };

/* A place in code: a return address, and the object that it is in; or a line of Python, and its
 * function. `outer` is the place that called this function, where that is known. The number of a
 * place is written once with what it stands for. */
struct place {
    const void *address;
    struct place *outer;
    unsigned number;
    enum owner owner;
    bool is_noted, is_mpi4py, is_past, is_walked;
    enum { UNREAD, NAMED, POINTED } call; /* how the code before a return address calls */
    const char *module, *function;
    size_t offset;
    struct place *next;
};

/* Finds or makes the place of an address; null where memory is refused. */
EXPORTED struct place *wire_up_place(const void *address);

/* Answers where the object that has an address begins; null where none has it. */
EXPORTED const void *wire_up_base(const void *address);

/* Finds the line of Python that called, where the place is in mpi4py; else answers the place. */
EXPORTED struct place *wire_up_in_python(struct place *place);

/* The text of a record that has a word, some numbers, and then another word, if there is one. Most
 * records of MPI are such: they are written at less cost. */
#define MOST_NUMBERS 4
#define ANY_NUMBER (-0x7fffffffffffffffLL - 1)
struct numbers {
    const char *first;
    long long at[MOST_NUMBERS]; /* ANY_NUMBER is written as `any` */
    size_t count;
    const char *last;
};
EXPORTED void wire_up_write_numbers(char sign, unsigned long number, struct place *place,
                                    const struct numbers *what);

/* Writes one record: a sign (+ a call begins, - it ended, = anything else), the number, the thread,
 * the time, the place if there is one, and the text, to which the end of the line is added. */
EXPORTED void wire_up_write(char sign, unsigned long number, struct place *place,
                            struct text *what);

/* Calls of a function that are counted: so many have no records. The count is written with the word
 * for what they are, whenever it has doubled, and in the end. */
struct counter {
    const char *what, *function;
    unsigned long count;
    bool is_listed;
    struct counter *next;
};
#define POLLS_IN_VAIN "polled"
#define FOUND_SENDS "found" /* or what else isn't known as a receive or a collective */
#define OTHERS "others"

/* Counts a call. */
EXPORTED void wire_up_count(struct counter *of);

/* Counts a call, without what a call means for the polls before it. */
EXPORTED void wire_up_count_alone(struct counter *of);

/* Takes what a poll of the code at `site` has found, which asked about a request or a message that
 * a number stands for. One that finds nothing is counted as soon as this thread makes another call
 * that is noted or counted, unless the same code has found the same by then: it has waited. What
 * the program does otherwise, another run may not do. */
EXPORTED void wire_up_take_poll(struct counter *of, const void *site, uintptr_t about,
                                bool has_found);

/* Counts the polls of this thread that have found nothing yet: it waits for something else, or has
 * found that, as another run may not. */
EXPORTED void wire_up_pass_polls(void);

/* Whether there are such polls that aren't counted yet. */
EXPORTED bool wire_up_has_polls(void);

/* Finds the line in the program that a call comes from which a place makes, through however many
 * calls of libraries, and the functions that called there. Null on a thread that isn't the
 * program's. The frame is that of the function which asks. */
EXPORTED struct place *wire_up_place_called(struct place *place, const void *frame);

/* Finds that line again, where the code at `caller` was called by the same functions before. */
EXPORTED bool wire_up_recall_place(const void *caller, const void *frame, struct place **line);

/* Notes that calls lack in the recording, or stand where another run may not have them: why, as a
 * kind that recordings.py knows, and by which object or function. */
EXPORTED void wire_up_note_unseen(const char *kind, const char *which);

/* Notes each object of the program that is bound to functions of MPI or PMIx for which the recorder
 * has its own: it was opened so that it finds the library first. And notes libraries of MPI or PMIx
 * that stand in a namespace of their own, where nothing is preloaded. */
EXPORTED void wire_up_note_past(void);

/* Whether the code before a return address calls a function that it names, and not one to which it
 * has a pointer. */
EXPORTED bool wire_up_is_call_by_name(struct place *place);

/* Whether code of a library of MPI or PMIx calls by itself. A callback of the program that ends
 * with a jump to a function seems to be called from there too. */
static inline bool wire_up_is_own(struct place *place, enum owner library)
{
    return place && place->owner == library && wire_up_is_call_by_name(place);
}

/* Says that the object which has a function is a tool between the program and MPI. */
EXPORTED void wire_up_add_tool(const void *function);

/* Finds the function of this name after the library that has `not_this`, as the code at `caller`
 * would find it; null where there is none. */
EXPORTED void *wire_up_find(const char *name, void *caller, const void *not_this);

/* Finds the function or the object of this name in what the program was loaded with, behind the
 * object that has an address, or in all of it where that is null. Null where none of it has one:
 * what was opened later isn't asked. Nothing that dlerror would say is lost. */
EXPORTED void *wire_up_find_first(const char *name, const void *behind);

/* Answers the system's own dlsym: the recorder has one that stands before it. With RTLD_NEXT it
 * searches behind the code that calls it. */
typedef void *wire_up_find_symbol(void *object, const char *name);
EXPORTED wire_up_find_symbol *wire_up_dlsym(void);

#endif
