/* Small programs without MPI in each of which process 0 puts a key and commits, and another gets it. The first word says which:
 *
 *   at-once   the last process gets it at once, a little later: a race where both are on one node
 *   carried   processes 0 and 1 meet besides at a fence that brings the key to the node of 1, and 3 gets it at once: a race
 *   fenced    all meet before, so that it is there: no race
 *   brief     process 1 waits for it for a second at most; waits: as long as the library does
 *   every     the last process gets every key at once, a little later: a plan has no such get
 *   late      process 0 puts it a little later, and the last process, which waits for it, may be told that it isn't there; then
 *             all meet
 *   own-store the last process gets it, then all meet, and the last looks in its own store for another key, which process 0
 *             committed a little after the first: with the get it came along or not
 *   reserved  process 0 also publishes a name that a plan doesn't take, and the last process looks it up a little later
 */
#include <pmix.h>
#include <stdio.h>
#include <string.h>
#include <unistd.h>

#define MILLISECONDS 1000
#define KEY "card"
#define OTHER_KEY "other"
#define RESERVED "pmix-name"
static pmix_proc_t me;

static void put(const char *key)
{
    pmix_value_t value = {.type = PMIX_STRING, .data.string = "address"};
    PMIx_Put(PMIX_GLOBAL, key, &value);
    PMIx_Commit();
}

/* Gets a key; with a null pointer every key, and without a directive. */
static void get(const char *key, const char *directive, int seconds)
{
    pmix_proc_t owner = me;
    pmix_info_t info;
    pmix_value_t *found = NULL;
    bool is_true = true;
    owner.rank = 0;
    if (directive && seconds)
        PMIX_INFO_LOAD(&info, directive, &seconds, PMIX_INT);
    else if (directive)
        PMIX_INFO_LOAD(&info, directive, &is_true, PMIX_BOOL);
    pmix_status_t status = PMIx_Get(&owner, key, &info, directive != NULL, &found);
    printf("%s\n", status != PMIX_SUCCESS ? "nothing" : found->type == PMIX_STRING ? found->data.string : "more");
}

static void publish(void)
{
    pmix_info_t info;
    PMIX_INFO_LOAD(&info, RESERVED, "v", PMIX_STRING);
    PMIx_Publish(&info, 1);
}

static void look_up(void)
{
    pmix_pdata_t found;
    PMIX_PDATA_CONSTRUCT(&found);
    PMIX_LOAD_KEY(found.key, RESERVED);
    printf("%d\n", PMIx_Lookup(&found, 1, NULL, 0));
}

/* Meets the first processes, so many, or all; what they have put comes along, or doesn't. */
static void meet(size_t count, bool collects)
{
    pmix_proc_t members[2] = {me, me};
    pmix_info_t info;
    members[0].rank = 0;
    members[1].rank = 1;
    PMIX_INFO_LOAD(&info, PMIX_COLLECT_DATA, &collects, PMIX_BOOL);
    PMIx_Fence(count ? members : NULL, count, &info, 1);
}

/* The last process gets the key between two commits of process 0. */
static int bring_another(unsigned last)
{
    if (me.rank == 0) {
        usleep(800 * MILLISECONDS);
        put(OTHER_KEY);
    }
    if (me.rank == last) {
        usleep(400 * MILLISECONDS);
        get(KEY, NULL, 0);
    }
    meet(0, false);
    if (me.rank == last)
        get(OTHER_KEY, PMIX_OPTIONAL, 0);
    return PMIx_Finalize(NULL, 0) != PMIX_SUCCESS;
}

/* The last process gets the key before process 0 has put it, but has committed another. */
static int put_late(unsigned last)
{
    if (me.rank == 0) {
        put(OTHER_KEY);
        usleep(800 * MILLISECONDS);
        put(KEY);
    }
    if (me.rank == last) {
        usleep(400 * MILLISECONDS);
        get(KEY, NULL, 0);
    }
    meet(0, false);
    return PMIx_Finalize(NULL, 0) != PMIX_SUCCESS;
}

int main(int count, char **words)
{
    const char *word = count > 1 ? words[1] : "";
    pmix_value_t *size;
    pmix_proc_t all;
    if (PMIx_Init(&me, NULL, 0) != PMIX_SUCCESS)
        return 1;
    PMIX_LOAD_PROCID(&all, me.nspace, PMIX_RANK_WILDCARD);
    if (PMIx_Get(&all, PMIX_JOB_SIZE, NULL, 0, &size) != PMIX_SUCCESS)
        return 1;
    unsigned last = size->data.uint32 - 1;
    int is_fenced = !strcmp(word, "fenced"), is_carried = !strcmp(word, "carried");
    if (!strcmp(word, "late"))
        return put_late(last);
    if (me.rank == 0)
        put(KEY);
    if (!strcmp(word, "own-store"))
        return bring_another(last);
    if (is_fenced)
        meet(0, true);
    if (is_carried && me.rank < 2)
        meet(2, true);
    int is_brief = !strcmp(word, "brief"), is_reserved = !strcmp(word, "reserved");
    if (is_reserved && me.rank == 0)
        publish();
    int is_waiting = is_brief || !strcmp(word, "waits");
    if (me.rank == (is_waiting ? 1 : last)) {
        usleep(400 * MILLISECONDS);
        if (is_waiting)
            get(KEY, is_brief ? PMIX_TIMEOUT : NULL, 1);
        else if (is_reserved)
            look_up();
        else
            get(strcmp(word, "every") ? KEY : NULL, PMIX_IMMEDIATE, 0);
    }
    return PMIx_Finalize(NULL, 0) != PMIX_SUCCESS;
}
