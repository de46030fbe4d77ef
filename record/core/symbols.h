/* Functions that the recorder has in place of those of MPI and PMIx. */
#ifndef WIRE_UP_SYMBOLS_H
#define WIRE_UP_SYMBOLS_H

#include "record.h"

/* Whether the recorder may have a function of a name. */
bool has_recorded_name(const char *name);

/* Finds a function in the objects that the code at `caller` is linked to. */
void *find_for_caller(const char *name, void *caller);

#endif
