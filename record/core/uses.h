/* What the program's own code could call of PMIx, whether it did or not. */
#ifndef WIRE_UP_USES_H
#define WIRE_UP_USES_H

#include "record.h"

/* Takes a name that the program looks up. */
void take_lookup(const char *name);

/* Notes to which function the program's own code refers that leads to calls of PMIx, or that opens
 * or starts other code, which isn't known: the first that is found, or `nothing`. */
void note_uses(void);

#endif
