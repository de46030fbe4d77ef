/* Calls that are held back until a server lets them go. A file `hold` in the folder of the
 * recordings names the server and the calls. */
#ifndef WIRE_UP_HOLDS_H
#define WIRE_UP_HOLDS_H

#include "core/recording.h"
#include "record.h"

/* How many calls of this process are named: mostly none, and then a call costs one test more. */
extern unsigned named_count;
/* Whether this run is compared with others: then bytes are told from others of their size. */
extern bool is_compared;

/* Reads which calls of this process are named, and where the server is. Without the file there are
 * none, and the run isn't compared. */
void read_holds(const char *folder, const struct identity *me);

/* A call begins whose record has this text. Comes back when it may go on, and answers which of the
 * named calls it is, from 1; 0 for another. A call that the library's own thread makes in a callback
 * (`place` is null) isn't held: nothing would come any more. */
unsigned hold_call(const struct text *what, const struct place *place) __attribute__((cold));

/* The same for a call whose record has a word and numbers: sends can be named. */
void hold_numbers(const struct numbers *what) __attribute__((cold));

/* The named call has this number from now on. */
void number_held(unsigned which, unsigned long number);

/* The call of a number is over: if it is named, the server is told. */
void end_held(unsigned long number) __attribute__((cold));

#endif
