/* From PMIx_Init to PMIx_Finalize: when a process is recorded. */
#ifndef WIRE_UP_SESSION_H
#define WIRE_UP_SESSION_H

#include "record.h"

#include <pmix.h>

/* Begins the recording of this process, of which the code at `caller` is. */
void enter_session(const pmix_proc_t *me, void *caller);

/* Whether this is the process itself, once it is recorded. */
bool is_own_process(const pmix_proc_t *it);

/* Whether this process starts others, as a tool of PMIx. It is none of the program's. */
bool is_launcher(void);

/* Notes the last PMIx_Finalize of as many as PMIx_Init was called. */
void leave_session(void);

#endif
