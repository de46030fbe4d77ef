/* Calls of MPI that are noted. */
#ifndef WIRE_UP_MPI_CALLS_H
#define WIRE_UP_MPI_CALLS_H

#include "record.h"

/* A call of a function: whether it is to be noted, and from where in the program it comes. */
struct call {
    const char *function;
    bool is_noted;
    struct place *place; /* null where it isn't the program's own code that calls */
};

/* Enters a call: finds out whether it is to be noted, and notes the world the first time that MPI
 * is there. What MPI's own code calls isn't noted. No count of open calls can say so, since a call
 * may be left by a jump or an exception. */
struct call enter_call(const char *function, const void *caller);

/* Answers what stands for the line of the program that makes a call, with those that called the
 * function it is in: bindings of another language call from the same code for all. */
static inline const void *find_site(const struct call *call, const void *caller)
{
    return call->place ? call->place : caller;
}

/* Writes that a call begins, and answers its number. The text is closed. */
unsigned long write_begin(const struct call *call, struct text *what);

/* Writes that the call of a number ended. The text is closed. */
void write_end(unsigned long number, struct text *what);

/* Writes anything else. The text is closed. */
void write_plain(struct text *what);

/* Notes that a function was called that isn't understood: it is only counted. */
void note_other(const char *function);

/* How many calls of MPI's own functions this thread has made. */
extern __thread unsigned long calls_made;

/* Notes that a tool took a call, if the thread has made none since there were so many: then the
 * recorder hasn't seen what the tool made of it. */
void note_passed(const char *function, unsigned long before);

#endif
