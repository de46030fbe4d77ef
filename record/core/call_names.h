/* The names by which calls are found again in another run. */
#ifndef WIRE_UP_CALL_NAMES_H
#define WIRE_UP_CALL_NAMES_H

#include "record.h"

/* The longest name. A call whose name is longer has none. */
#define NAME_ROOM 512

/* Puts the name of a call whose record has this text: its verb, and whom and what it is about, as in
 * `lookup a`, `put k` or `get 1 k`, without namespaces, values, the members of a fence, and the way
 * in which the call waits. A number of six digits or more is `#`: such differ between runs. Empty
 * where there is no room for it. A call on several names has a name for each: `index` says which,
 * from 0. False where there are not so many. */
bool name_call(char to[NAME_ROOM], const char *what, unsigned index);

/* Puts the name of a send: its communicator, target and tag. */
void name_send(char to[NAME_ROOM], const struct numbers *what);

#endif
