/* From PMIx_Init to PMIx_Finalize. */
#define _GNU_SOURCE
#include "pmix/session.h"
#include "core/launcher.h"
#include "core/recording.h"
#include "core/text.h"
#include "core/uses.h"

#include <errno.h>
#include <pthread.h>
#include <stdlib.h>
#include <string.h>

static pthread_mutex_t counting = PTHREAD_MUTEX_INITIALIZER;
static int inits;
static pmix_proc_t own; /* written before the process makes other calls */

bool is_own_process(const pmix_proc_t *it)
{
    return it->rank == own.rank && strncmp(it->nspace, own.nspace, PMIX_MAX_NSLEN) == 0;
}

/* Answers the version of the library that the code at `caller` calls. */
static const char *find_version(void *caller)
{
    const void *here = (const void *)&find_version;
    const char *(*tell)(void) =
        (const char *(*)(void))wire_up_find("PMIx_Get_version", caller, here);
    return tell ? tell() : "unknown";
}

bool is_launcher(void)
{
    static const char *const names[] = {"mpirun", "mpiexec", "orterun", "prte",
                                        "prted",  "prterun", "prun",    "pterm"};
    for (size_t n = 0; n < sizeof names / sizeof *names; n++)
        if (is_command(names[n]))
            return true;
    return false;
}

typedef pmix_status_t get_function(const pmix_proc_t *, const char[], const pmix_info_t[], size_t,
                                   pmix_value_t **);

/* Asks what the library knows by itself of a process or its job, and notes it after a word. */
static void note_told(get_function *get, const pmix_proc_t *whom, const char *key, const char *word)
{
    struct text what;
    pmix_info_t here;
    pmix_value_t *found = NULL;
    memset(&here, 0, sizeof here);
    strcpy(here.key, PMIX_OPTIONAL);
    here.value.type = PMIX_BOOL;
    here.value.data.flag = true;
    if (get(whom, key, &here, 1, &found) != PMIX_SUCCESS || !found)
        return;
    wire_up_text_open(&what);
    wire_up_text_add(&what, "%s ", word);
    if (found->type == PMIX_UINT32) {
        wire_up_text_add(&what, "%u", found->data.uint32);
        wire_up_write('=', 0, NULL, &what);
    } else if (found->type == PMIX_STRING && found->data.string) {
        add_word(&what, found->data.string, strlen(found->data.string));
        wire_up_write('=', 0, NULL, &what);
        free(found->data.string);
    }
    wire_up_text_close(&what);
    free(found);
}

/* Notes what the library that the code at `caller` calls tells of the job, and of the process in it:
 * each process should leave a recording, some share what one program of the job publishes, and some
 * a node. */
static void note_place_in_job(const pmix_proc_t *me, void *caller)
{
    get_function *get = (get_function *)wire_up_find("PMIx_Get", caller, (const void *)&find_version);
    pmix_proc_t whole = *me;
    whole.rank = PMIX_RANK_WILDCARD;
    if (!get || !wire_up_is_recording())
        return;
    note_told(get, &whole, PMIX_JOB_SIZE, "job");
    note_told(get, me, PMIX_APPNUM, "application");
    note_told(get, me, PMIX_HOSTNAME, "node");
}

void enter_session(const pmix_proc_t *me, void *caller)
{
    if (has_recording() && !wire_up_is_recording())
        return;
    struct identity it = {.job = me->nspace, .rank = me->rank};
    it.length = strnlen(me->nspace, PMIX_MAX_NSLEN);
    it.version = find_version(caller);
    pthread_mutex_lock(&counting);
    inits++;
    bool is_first = !has_recording();
    if (is_first) {
        own = *me;
        open_recording(&it);
    }
    pthread_mutex_unlock(&counting);
    if (is_first)
        note_place_in_job(me, caller);
}

void leave_session(void)
{
    pthread_mutex_lock(&counting);
    bool is_last = inits > 0 && --inits == 0;
    pthread_mutex_unlock(&counting);
    if (is_last) {
        struct text what;
        wire_up_note_past();
        note_uses();
        write_all_counts();
        wire_up_text_open(&what);
        wire_up_text_add(&what, "finalize");
        wire_up_write('=', 0, NULL, &what);
        wire_up_text_close(&what);
        trim_recording();
    }
}
