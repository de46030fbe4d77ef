/* Calls that don't block. */
#include "pmix/callbacks.h"
#include "pmix/calls.h"

#include <errno.h>
#include <stdlib.h>

/* What the program's callback calls last comes from there only if no jump leads to the callback. */
#define COMES_BACK __asm__ volatile("")

struct pending {
    unsigned long number;
    void *data;
    pmix_op_cbfunc_t then_operation;
    pmix_value_cbfunc_t then_value;
    pmix_lookup_cbfunc_t then_lookup;
};

static struct pending *keep(struct pending it)
{
    struct pending *kept = it.number ? malloc(sizeof *kept) : NULL;
    if (kept)
        *kept = it;
    return kept;
}

struct pending *await_operation(unsigned long number, pmix_op_cbfunc_t then, void *data)
{
    struct pending it = {.number = number, .data = data, .then_operation = then};
    return then ? keep(it) : NULL;
}

struct pending *await_value(unsigned long number, pmix_value_cbfunc_t then, void *data)
{
    struct pending it = {.number = number, .data = data, .then_value = then};
    return then ? keep(it) : NULL;
}

struct pending *await_lookup(unsigned long number, pmix_lookup_cbfunc_t then, void *data)
{
    struct pending it = {.number = number, .data = data, .then_lookup = then};
    return then ? keep(it) : NULL;
}

/* Answers what was kept, and frees it: the program's callback need not come back. */
static struct pending take(void *data)
{
    struct pending it = *(struct pending *)data;
    free(data);
    return it;
}

void end_operation(pmix_status_t status, void *data)
{
    int error = errno;
    struct pending it = take(data);
    note_end(it.number, status);
    errno = error;
    it.then_operation(status, it.data);
    COMES_BACK;
}

void end_value(pmix_status_t status, pmix_value_t *value, void *data)
{
    int error = errno;
    struct pending it = take(data);
    note_value(it.number, status, value);
    errno = error;
    it.then_value(status, value, it.data);
    COMES_BACK;
}

void end_lookup(pmix_status_t status, pmix_pdata_t found[], size_t count, void *data)
{
    int error = errno;
    struct pending it = take(data);
    note_found(it.number, status, found, count);
    errno = error;
    it.then_lookup(status, found, count, it.data);
    COMES_BACK;
}

void note_begun(unsigned long number, pmix_status_t status, struct pending *pending)
{
    if (status == PMIX_SUCCESS)
        return;
    free(pending);
    note_end(number, status == PMIX_OPERATION_SUCCEEDED ? PMIX_SUCCESS : status);
}
