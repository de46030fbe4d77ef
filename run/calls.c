/* The calls of a plan, as calls of the library. */
#define _GNU_SOURCE
#include "rank.h"

#include <stdbool.h>
#include <stdio.h>
#include <stdlib.h>
#include <string.h>

enum { MOST_JOBS = 256 };

/* The namespaces of the jobs, by their numbers in the plan. */
static char *namespaces[MOST_JOBS];

/* Memory that is there, or the end. */
static void *take(size_t count, size_t size)
{
    void *made = calloc(count ? count : 1, size);
    if (!made)
        give_up("no memory");
    return made;
}

static char *copy(const char *text)
{
    char *made = strdup(text);
    if (!made)
        give_up("no memory");
    return made;
}

void keep_namespace(unsigned long job, const char *name)
{
    if (job >= MOST_JOBS)
        give_up("too many jobs");
    namespaces[job] = copy(name);
}

/* The process that a word such as `0:3` or `0:*` names: a job's number, and a rank or all. */
static pmix_proc_t read_process(const char *word)
{
    pmix_proc_t found;
    char *rest = NULL;
    unsigned long job = strtoul(word, &rest, 10);
    if (job >= MOST_JOBS || !namespaces[job] || *rest != ':')
        give_up("a process that isn't known");
    pmix_rank_t rank = PMIX_RANK_WILDCARD;
    if (rest[1] != '*')
        rank = (pmix_rank_t)strtoul(rest + 1, NULL, 10);
    PMIX_LOAD_PROCID(&found, namespaces[job], rank);
    return found;
}

/* A directive that is true. */
static void set_true(pmix_info_t *info, const char *key)
{
    bool yes = true;
    PMIX_INFO_CONSTRUCT(info);
    PMIX_INFO_LOAD(info, key, &yes, PMIX_BOOL);
}

/* The scope that a word names. */
static pmix_scope_t read_scope(const char *word)
{
    if (!strcmp(word, "local"))
        return PMIX_LOCAL;
    if (!strcmp(word, "remote"))
        return PMIX_REMOTE;
    if (!strcmp(word, "global"))
        return PMIX_GLOBAL;
    give_up("a scope that isn't known");
}

static struct reply do_put(const struct call *call)
{
    pmix_value_t value;
    PMIX_VALUE_CONSTRUCT(&value);
    PMIX_VALUE_LOAD(&value, call->words[3], PMIX_STRING);
    struct reply made = {.status = PMIx_Put(read_scope(call->words[1]), call->words[2], &value)};
    PMIX_VALUE_DESTRUCT(&value);
    return made;
}

static struct reply do_commit(const struct call *call)
{
    (void)call;
    return (struct reply){.status = PMIx_Commit()};
}

static struct reply do_fence(const struct call *call)
{
    pmix_proc_t *members = NULL;
    size_t count = 0;
    if (strcmp(call->words[1], "all")) {
        char *set = copy(call->words[1]), *rest = NULL;
        members = take(strlen(set) + 1, sizeof *members);
        for (char *it = strtok_r(set, ",", &rest); it; it = strtok_r(NULL, ",", &rest))
            members[count++] = read_process(it);
        free(set);
    }
    pmix_info_t collect;
    size_t directives = call->words[2] ? 1 : 0;
    if (directives)
        set_true(&collect, PMIX_COLLECT_DATA);
    pmix_status_t status = PMIx_Fence(members, count, directives ? &collect : NULL, directives);
    if (directives)
        PMIX_INFO_DESTRUCT(&collect);
    free(members);
    return (struct reply){.status = status};
}

/* A get, with directives or without. */
static struct reply ask(const struct call *call, const pmix_info_t *directives, size_t count)
{
    pmix_proc_t owner = read_process(call->words[1]);
    pmix_value_t *value = NULL;
    struct reply made = {.value = ""};
    made.status = PMIx_Get(&owner, library_key(call->words[2]), directives, count, &value);
    if (made.status == PMIX_SUCCESS && value)
        write_value(value, made.value, sizeof made.value);
    else if (made.status == PMIX_SUCCESS)
        snprintf(made.value, sizeof made.value, "(none)");
    if (value)
        PMIX_VALUE_RELEASE(value);
    return made;
}

static struct reply do_get(const struct call *call)
{
    return ask(call, NULL, 0);
}

static struct reply do_get_now(const struct call *call)
{
    pmix_info_t at_once;
    set_true(&at_once, PMIX_IMMEDIATE);
    struct reply made = ask(call, &at_once, 1);
    PMIX_INFO_DESTRUCT(&at_once);
    return made;
}

static struct reply do_publish(const struct call *call)
{
    pmix_info_t said;
    PMIX_INFO_CONSTRUCT(&said);
    PMIX_INFO_LOAD(&said, library_key(call->words[1]), call->words[2], PMIX_STRING);
    struct reply made = {.status = PMIx_Publish(&said, 1)};
    PMIX_INFO_DESTRUCT(&said);
    return made;
}

/* A lookup, with directives or without. */
static struct reply look_up(const struct call *call, const pmix_info_t *directives, size_t count)
{
    pmix_pdata_t found;
    struct reply made = {.value = ""};
    PMIX_PDATA_CONSTRUCT(&found);
    snprintf(found.key, sizeof found.key, "%s", library_key(call->words[1]));
    made.status = PMIx_Lookup(&found, 1, directives, count);
    if (made.status == PMIX_SUCCESS)
        write_value(&found.value, made.value, sizeof made.value);
    PMIX_PDATA_DESTRUCT(&found);
    return made;
}

static struct reply do_lookup(const struct call *call)
{
    return look_up(call, NULL, 0);
}

static struct reply do_lookup_wait(const struct call *call)
{
    pmix_info_t wait;
    int all = 1;
    PMIX_INFO_CONSTRUCT(&wait);
    PMIX_INFO_LOAD(&wait, PMIX_WAIT, &all, PMIX_INT);
    struct reply made = look_up(call, &wait, 1);
    PMIX_INFO_DESTRUCT(&wait);
    return made;
}

static struct reply do_unpublish(const struct call *call)
{
    char *name = copy(library_key(call->words[1]));
    char *names[2] = {name, NULL};
    bool is_every = !strcmp(name, "*");
    struct reply made = {.status = PMIx_Unpublish(is_every ? NULL : names, NULL, 0)};
    free(name);
    return made;
}

struct verb {
    const char *name;
    /* How many words a call has at least, with the verb. */
    int least;
    struct reply (*make)(const struct call *);
};

static const struct verb VERBS[] = {
    {"put", 4, do_put},
    {"commit", 1, do_commit},
    {"fence", 2, do_fence},
    {"get", 3, do_get},
    {"get-now", 3, do_get_now},
    {"publish", 3, do_publish},
    {"lookup", 2, do_lookup},
    {"lookup-wait", 2, do_lookup_wait},
    {"unpublish", 2, do_unpublish},
};

struct reply make_call(const struct call *call)
{
    for (size_t i = 0; i < sizeof VERBS / sizeof *VERBS; i++)
        if (!strcmp(VERBS[i].name, call->words[0]) && call->words[VERBS[i].least - 1])
            return VERBS[i].make(call);
    give_up("a call that isn't known");
}

/* Fills the application of one rank: the program with the job's number as its last word. */
static void fill_application(pmix_app_t *app, char **program, const char *job, const char *host)
{
    size_t words = 0;
    while (program[words])
        words++;
    PMIX_APP_CONSTRUCT(app);
    app->cmd = copy(program[0]);
    app->argv = take(words + 1, sizeof *app->argv);
    for (size_t i = 0; i < words; i++)
        app->argv[i] = copy(i == words - 1 ? job : program[i]);
    app->maxprocs = 1;
    PMIX_INFO_CREATE(app->info, 1);
    app->ninfo = 1;
    PMIX_INFO_LOAD(&app->info[0], PMIX_HOST, host, PMIX_STRING);
}

pmix_status_t start_job(char **program, const char *job, char *hosts, char *name)
{
    char *rest = NULL;
    size_t count = 0;
    pmix_app_t *apps = take(strlen(hosts) + 1, sizeof *apps);
    for (char *it = strtok_r(hosts, ",", &rest); it; it = strtok_r(NULL, ",", &rest))
        fill_application(&apps[count++], program, job, it);
    pmix_status_t status = PMIx_Spawn(NULL, 0, apps, count, name);
    for (size_t i = 0; i < count; i++)
        PMIX_APP_DESTRUCT(&apps[i]);
    free(apps);
    return status;
}
