/* Notes of PMIx calls. */
#include "pmix/calls.h"
#include "core/holds.h"
#include "core/text.h"
#include "pmix/session.h"
#include "pmix/words.h"

#include <string.h>

/* --- that they begin --- */

/* Writes that a call begins, and answers its number. */
static unsigned long write_begin(const struct call *call, struct text *what)
{
    unsigned which = named_count ? hold_call(what, call->place) : 0;
    unsigned long number = wire_up_number();
    number_held(which, number);
    wire_up_write('+', number, call->place, what);
    wire_up_text_close(what);
    return number;
}

static const char *name_scope(pmix_scope_t scope)
{
    switch (scope) {
    case PMIX_LOCAL: return "local";
    case PMIX_REMOTE: return "remote";
    case PMIX_GLOBAL: return "global";
    case PMIX_INTERNAL: return "internal";
    default: return "other";
    }
}

unsigned long note_put(const struct call *call, pmix_scope_t scope, const char *key,
                       const pmix_value_t *value)
{
    struct text what;
    wire_up_text_open(&what);
    wire_up_text_add(&what, "put %s ", name_scope(scope));
    if (key)
        add_word(&what, key, strlen(key));
    else
        wire_up_text_add(&what, "none");
    wire_up_text_add(&what, " ");
    add_value(&what, value);
    return write_begin(call, &what);
}

unsigned long note_commit(const struct call *call)
{
    struct text what;
    wire_up_text_open(&what);
    wire_up_text_add(&what, "commit");
    return write_begin(call, &what);
}

unsigned long note_fence(const struct call *call, const pmix_proc_t processes[], size_t count,
                         const pmix_info_t info[], size_t infos)
{
    struct text what;
    wire_up_text_open(&what);
    wire_up_text_add(&what, "fence %s ", call->form);
    add_processes(&what, processes, count);
    add_directives(&what, info, infos);
    return write_begin(call, &what);
}

unsigned long note_group(const struct call *call, const char *verb, const char *group,
                         const pmix_proc_t processes[], size_t count, const pmix_info_t info[],
                         size_t infos)
{
    struct text what;
    wire_up_text_open(&what);
    wire_up_text_add(&what, "group %s :", verb);
    wire_up_text_add_word(&what, group ? group : "");
    wire_up_text_add(&what, " ");
    add_processes(&what, processes, count);
    add_directives(&what, info, infos);
    return write_begin(call, &what);
}

unsigned long note_get(const struct call *call, const pmix_proc_t *process, const char *key,
                       const pmix_info_t info[], size_t infos)
{
    struct text what;
    wire_up_text_open(&what);
    wire_up_text_add(&what, "get %s ", call->form);
    add_process(&what, process);
    wire_up_text_add(&what, key ? " :" : " every");
    if (key)
        add_word(&what, key, strlen(key));
    add_directives(&what, info, infos);
    return write_begin(call, &what);
}

/* As the library takes a directive: without a value it is true, and a number is no truth. */
static bool is_true(const pmix_value_t *value)
{
    return value->type == PMIX_UNDEF || value->type == PMIX_STRING ||
           (value->type == PMIX_BOOL && value->data.flag);
}

bool is_of_own_store(const pmix_proc_t *process, const char *key, const pmix_info_t info[],
                     size_t infos)
{
    if (!process || !key || begins_with(key, "pmix") || process->rank > PMIX_RANK_VALID ||
        is_own_process(process))
        return false;
    for (size_t n = 0; info && n < infos; n++)
        if (strncmp(info[n].key, PMIX_OPTIONAL, PMIX_MAX_KEYLEN) == 0 && is_true(&info[n].value))
            return true;
    return false;
}

unsigned long note_publish(const struct call *call, const pmix_info_t info[], size_t infos)
{
    struct text what;
    wire_up_text_open(&what);
    wire_up_text_add(&what, "publish %s ", call->form);
    add_published(&what, info, infos);
    return write_begin(call, &what);
}

unsigned long note_lookup(const struct call *call, const pmix_pdata_t wanted[], size_t count,
                          const pmix_info_t info[], size_t infos)
{
    struct text what;
    wire_up_text_open(&what);
    wire_up_text_add(&what, "lookup %s ", call->form);
    for (size_t n = 0; wanted && n < count; n++) {
        wire_up_text_add(&what, n ? ",:" : ":");
        add_key(&what, wanted[n].key);
    }
    wire_up_text_add(&what, wanted && count ? "" : "-");
    add_directives(&what, info, infos);
    return write_begin(call, &what);
}

/* Notes a call on keys alone. */
static unsigned long note_keys(const struct call *call, const char *verb, char **keys,
                               const pmix_info_t info[], size_t infos)
{
    struct text what;
    wire_up_text_open(&what);
    wire_up_text_add(&what, "%s %s ", verb, call->form);
    add_keys(&what, keys);
    add_directives(&what, info, infos);
    return write_begin(call, &what);
}

unsigned long note_lookup_of_keys(const struct call *call, char **keys, const pmix_info_t info[],
                                  size_t infos)
{
    return note_keys(call, "lookup", keys, info, infos);
}

unsigned long note_unpublish(const struct call *call, char **keys, const pmix_info_t info[],
                             size_t infos)
{
    return note_keys(call, "unpublish", keys, info, infos);
}

/* --- that they ended --- */

static void write_end(unsigned long number, struct text *what)
{
    wire_up_write('-', number, NULL, what);
    wire_up_text_close(what);
    if (named_count)
        end_held(number);
}

void note_end(unsigned long number, pmix_status_t status)
{
    struct text what;
    if (!number)
        return;
    wire_up_text_open(&what);
    wire_up_text_add(&what, "%d", (int)status);
    write_end(number, &what);
}

void note_value(unsigned long number, pmix_status_t status, const pmix_value_t *value)
{
    struct text what;
    if (!number)
        return;
    wire_up_text_open(&what);
    wire_up_text_add(&what, "%d", (int)status);
    if (status == PMIX_SUCCESS && value) {
        wire_up_text_add(&what, " ");
        add_value(&what, value);
    }
    write_end(number, &what);
}

void note_found(unsigned long number, pmix_status_t status, const pmix_pdata_t found[],
                size_t count)
{
    struct text what;
    if (!number)
        return;
    wire_up_text_open(&what);
    wire_up_text_add(&what, "%d ", (int)status);
    add_found(&what, found, count);
    write_end(number, &what);
}
