/* Calls that don't block. The program's callback is replaced by one that notes the end, and then
 * calls the program's. */
#ifndef WIRE_UP_CALLBACKS_H
#define WIRE_UP_CALLBACKS_H

#include <pmix.h>

/* A call whose callback hasn't come. */
struct pending;

/* Keeps the program's callback `then`, and what it is handed, for a call that was noted under a
 * number. Null where it wasn't noted, where there is no callback, or where memory is refused: then
 * the library gets the program's own. */
struct pending *await_operation(unsigned long number, pmix_op_cbfunc_t then, void *data);
struct pending *await_value(unsigned long number, pmix_value_cbfunc_t then, void *data);
struct pending *await_lookup(unsigned long number, pmix_lookup_cbfunc_t then, void *data);

/* The callbacks that the library gets in their place, with the pending call as their data. */
void end_operation(pmix_status_t status, void *data);
void end_value(pmix_status_t status, pmix_value_t *value, void *data);
void end_lookup(pmix_status_t status, pmix_pdata_t found[], size_t count, void *data);

/* Notes the end of a call that ended at once, as its status says: no callback comes. */
void note_begun(unsigned long number, pmix_status_t status, struct pending *pending);

#endif
