/* Calls PMIx in each way that the recorder must bear, and prints all that it is told. With the recorder it must print the same.
 * It needs two processes. */
#include <errno.h>
#include <pmix.h>
#include <pthread.h>
#include <signal.h>
#include <stdio.h>
#include <stdlib.h>
#include <string.h>
#include <unistd.h>

static pthread_mutex_t lock = PTHREAD_MUTEX_INITIALIZER;
static pthread_cond_t came = PTHREAD_COND_INITIALIZER;
static int arrived;
static pmix_proc_t me;

static void tell(const char *what, pmix_status_t status, const pmix_value_t *value)
{
    printf("%u %s %d errno %d", me.rank, what, status, errno);
    if (value && value->type == PMIX_STRING)
        printf(" %s", value->data.string);
    else if (value)
        printf(" type %d", value->type);
    printf("\n");
}

static void arrive(void)
{
    pthread_mutex_lock(&lock);
    arrived++;
    pthread_cond_signal(&came);
    pthread_mutex_unlock(&lock);
}

static void await(void)
{
    pthread_mutex_lock(&lock);
    while (!arrived)
        pthread_cond_wait(&came, &lock);
    arrived--;
    pthread_mutex_unlock(&lock);
}

static void op_came(pmix_status_t status, void *data)
{
    errno = 0;
    tell(data, status, NULL);
    arrive();
}

static void value_came(pmix_status_t status, pmix_value_t *value, void *data)
{
    errno = 0;
    tell(data, status, status == PMIX_SUCCESS ? value : NULL);
    arrive();
}

static void data_came(pmix_status_t status, pmix_pdata_t found[], size_t count, void *data)
{
    errno = 0;
    printf("%u %zu found\n", me.rank, count);
    tell(data, status, count ? &found[0].value : NULL);
    arrive();
}

static void put(pmix_scope_t scope, const char *key, const char *text)
{
    pmix_value_t value = {.type = PMIX_STRING, .data.string = (char *)text};
    errno = 7;
    tell(key, PMIx_Put(scope, key, &value), NULL);
}

static void get(const pmix_proc_t *from, const char *key, const char *directive)
{
    pmix_info_t info;
    pmix_value_t *value = NULL;
    bool yes = true;
    if (directive)
        PMIX_INFO_LOAD(&info, directive, &yes, PMIX_BOOL);
    errno = 7;
    pmix_status_t status = PMIx_Get(from, key, directive ? &info : NULL, directive ? 1 : 0, &value);
    tell(key ? key : "(every key)", status, status == PMIX_SUCCESS ? value : NULL);
    if (value)
        PMIX_VALUE_RELEASE(value);
}

static void *other_thread(void *data)
{
    for (int n = 0; n < 50; n++) {
        char key[32];
        snprintf(key, sizeof key, "%s.%d", (const char *)data, n);
        pmix_value_t value = {.type = PMIX_STRING, .data.string = key};
        if (PMIx_Put(PMIX_GLOBAL, key, &value) != PMIX_SUCCESS)
            abort();
    }
    return NULL;
}

int main(int count, char **words)
{
    if (PMIx_Init(&me, NULL, 0) != PMIX_SUCCESS)
        return 1;
    if (PMIx_Init(NULL, NULL, 0) != PMIX_SUCCESS)
        return 1;
    setvbuf(stdout, NULL, _IOLBF, 0);
    printf("%u opens %d\n", me.rank, dup(0));
    pmix_proc_t peer = me, all = me;
    peer.rank = 1 - me.rank;
    all.rank = PMIX_RANK_WILDCARD;

    put(PMIX_GLOBAL, "card", "10.0.0.1:7000");
    put(PMIX_LOCAL, "two words", "a value with spaces, \xc3\xa4, 100%");
    put(PMIX_REMOTE, "far", "");
    put(PMIX_INTERNAL, "inner", "kept");
    put(PMIX_GLOBAL, "*", "star");
    char long_text[2001], long_key[101];
    memset(long_text, 'x', 2000);
    memset(long_key, 'k', 100);
    long_text[2000] = long_key[100] = 0;
    put(PMIX_GLOBAL, long_key, long_text);
    pmix_value_t number = {.type = PMIX_UINT32, .data.uint32 = 4711};
    tell("number", PMIx_Put(PMIX_GLOBAL, "number", &number), NULL);
    pmix_value_t bytes = {.type = PMIX_BYTE_OBJECT, .data.bo = {.bytes = "\0\1\2", .size = 3}};
    tell("bytes", PMIx_Put(PMIX_GLOBAL, "bytes", &bytes), NULL);
    errno = 7;
    tell("commit", PMIx_Commit(), NULL);

    bool yes = true;
    pmix_info_t collect;
    PMIX_INFO_LOAD(&collect, PMIX_COLLECT_DATA, &yes, PMIX_BOOL);
    errno = 7;
    tell("fence", PMIx_Fence(NULL, 0, &collect, 1), NULL);
    tell("fence of all", PMIx_Fence(&all, 1, NULL, 0), NULL);
    tell("fence_nb begins", PMIx_Fence_nb(NULL, 0, NULL, 0, op_came, "fence_nb"), NULL);
    await();
    tell("fence_nb with no callback", PMIx_Fence_nb(NULL, 0, NULL, 0, NULL, NULL), NULL);

    get(&peer, "card", NULL);
    get(&peer, "two words", PMIX_IMMEDIATE);
    get(&peer, "number", PMIX_OPTIONAL);
    get(&me, "card", NULL);
    get(&me, "none of mine", PMIX_OPTIONAL);
    get(&peer, "none", PMIX_IMMEDIATE);
    get(&peer, long_key, NULL);
    get(&all, PMIX_JOB_SIZE, NULL);
    get(&me, PMIX_LOCAL_RANK, NULL);
    tell("get_nb begins", PMIx_Get_nb(&peer, "bytes", NULL, 0, value_came, "get_nb"), NULL);
    await();
    tell("get_nb of nothing begins", PMIx_Get_nb(&peer, NULL, NULL, 0, NULL, NULL), NULL);

    if (me.rank == 0) {
        pmix_info_t names[3];
        pmix_data_range_t range = PMIX_RANGE_SESSION;
        PMIX_INFO_LOAD(&names[0], "first", "one", PMIX_STRING);
        PMIX_INFO_LOAD(&names[1], "second name", "two", PMIX_STRING);
        PMIX_INFO_LOAD(&names[2], PMIX_RANGE, &range, PMIX_DATA_RANGE);
        errno = 7;
        tell("publish", PMIx_Publish(names, 3), NULL);
        pmix_info_t third;
        PMIX_INFO_LOAD(&third, "third", "three", PMIX_STRING);
        tell("publish_nb begins", PMIx_Publish_nb(&third, 1, op_came, "publish_nb"), NULL);
        await();
    }
    tell("fence", PMIx_Fence(NULL, 0, NULL, 0), NULL);
    if (me.rank == 1) {
        pmix_pdata_t found[2];
        memset(found, 0, sizeof found);
        snprintf(found[0].key, sizeof found[0].key, "first");
        snprintf(found[1].key, sizeof found[1].key, "second name");
        errno = 7;
        tell("lookup", PMIx_Lookup(found, 2, NULL, 0), &found[1].value);
        pmix_pdata_t missing;
        memset(&missing, 0, sizeof missing);
        snprintf(missing.key, sizeof missing.key, "nobody's");
        tell("lookup of nothing", PMIx_Lookup(&missing, 1, NULL, 0), NULL);
        char *keys[] = {"third", NULL};
        pmix_info_t wait;
        int how_many = 0;
        PMIX_INFO_LOAD(&wait, PMIX_WAIT, &how_many, PMIX_INT);
        tell("lookup_nb begins", PMIx_Lookup_nb(keys, &wait, 1, data_came, "lookup_nb"), NULL);
        await();
    }
    tell("fence", PMIx_Fence(NULL, 0, NULL, 0), NULL);
    if (me.rank == 0) {
        char *keys[] = {"first", "second name", NULL};
        errno = 7;
        tell("unpublish", PMIx_Unpublish(keys, NULL, 0), NULL);
        char *third[] = {"third", NULL};
        tell("unpublish_nb begins", PMIx_Unpublish_nb(third, NULL, 0, op_came, "unpublish_nb"), NULL);
        await();
    }
    if (count > 1) {
        pthread_t threads[4];
        char *names[] = {"t0", "t1", "t2", "t3"};
        for (int n = 0; n < 4; n++)
            pthread_create(&threads[n], NULL, other_thread, names[n]);
        for (int n = 0; n < 4; n++)
            pthread_join(threads[n], NULL);
        tell("commit", PMIx_Commit(), NULL);
    }
    tell("fence", PMIx_Fence(NULL, 0, NULL, 0), NULL);
    if (count > 2 && me.rank == 1)
        raise(9);
    PMIx_Finalize(NULL, 0);
    PMIx_Finalize(NULL, 0);
    (void)words;
    return 0;
}
