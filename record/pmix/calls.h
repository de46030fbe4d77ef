/* Notes of PMIx calls. A call is noted just before the library's own function runs, and its end
 * just after, or when its callback comes. */
#ifndef WIRE_UP_PMIX_CALLS_H
#define WIRE_UP_PMIX_CALLS_H

#include "record.h"

#include <pmix.h>

/* How a caller learns that a call ended: it waits in it, or gets a callback. A library of MPI waits
 * for that; whether the program does isn't known. */
#define BLOCKS "blocks"
#define CALLS_LIBRARY "nb"
#define CALLS_PROGRAM "own"

/* A call that is noted: how it waits, and from where in the program it comes. */
struct call {
    const char *form;
    struct place *place; /* null on a thread that isn't the program's */
};

/* Note that a call begins. They answer its number. */
unsigned long note_put(const struct call *call, pmix_scope_t scope, const char *key,
                       const pmix_value_t *value);
unsigned long note_commit(const struct call *call);
unsigned long note_fence(const struct call *call, const pmix_proc_t processes[], size_t count,
                         const pmix_info_t info[], size_t infos);
unsigned long note_group(const struct call *call, const char *verb, const char *group,
                         const pmix_proc_t processes[], size_t count, const pmix_info_t info[],
                         size_t infos);
unsigned long note_get(const struct call *call, const pmix_proc_t *process, const char *key,
                       const pmix_info_t info[], size_t infos);
unsigned long note_publish(const struct call *call, const pmix_info_t info[], size_t infos);
unsigned long note_lookup(const struct call *call, const pmix_pdata_t wanted[], size_t count,
                          const pmix_info_t info[], size_t infos);
unsigned long note_lookup_of_keys(const struct call *call, char **keys, const pmix_info_t info[],
                                  size_t infos);
unsigned long note_unpublish(const struct call *call, char **keys, const pmix_info_t info[],
                             size_t infos);

/* Notes that a call ended. They do nothing where its number is 0: it wasn't noted. */
void note_end(unsigned long number, pmix_status_t status);
void note_value(unsigned long number, pmix_status_t status, const pmix_value_t *value);
void note_found(unsigned long number, pmix_status_t status, const pmix_pdata_t found[],
                size_t count);

/* Whether a get of another process' key looks into the caller's own store alone (PMIX_OPTIONAL). */
bool is_of_own_store(const pmix_proc_t *process, const char *key, const pmix_info_t info[],
                     size_t infos);

#endif
