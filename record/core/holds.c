/* Calls that are held back until a server lets them go. The file `hold`:
 *
 *     server ADDRESS WORD        a path, or hosts and a port: `a,b:4711`
 *     call JOB RANK N NAME       the N-th call of this name that this process makes, from 1
 *
 * JOB is the number of the job in its namespace, or 0 where it has none. For each named call a
 * process connects and writes `WORD came I` (the I-th of the file), and waits for `go`; when the
 * call is over it connects again and writes `WORD over I`. `WORD passed I` says that a call wasn't
 * held. The file of a run in which nothing is held may be empty. A server that is gone lets all go. No socket stays open meanwhile: the program may close
 * descriptors that it doesn't know. */
#define _GNU_SOURCE
#include "core/holds.h"
#include "core/call_names.h"

#include <errno.h>
#include <limits.h>
#include <netdb.h>
#include <poll.h>
#include <stdio.h>
#include <stdlib.h>
#include <string.h>
#include <sys/socket.h>
#include <sys/un.h>
#include <time.h>
#include <unistd.h>

#define MOST_NAMED 64
#define ADDRESS_ROOM 1024
#define WORD_ROOM 64
#define LINE_ROOM 2048
/* How often MPI goes on while a call is held, and how long the server may take to be reached. */
#define LOOK_NANOSECONDS 500000
#define REACH_SECONDS 5

static struct named {
    unsigned index;       /* in the file, from 1 */
    unsigned long count;  /* which of those of its name it is, from 1 */
    unsigned long seen;   /* how many of its name came so far */
    unsigned long number; /* of the call, once it has come */
    char name[NAME_ROOM];
} named[MOST_NAMED];
unsigned named_count;
bool is_compared;
static char address[ADDRESS_ROOM], word[WORD_ROOM];
static void (*let_mpi_go_on)(void);

void wire_up_set_progress(void (*function)(void)) { let_mpi_go_on = function; }

/* --- the file --- */

/* The number of a job in its namespace: what follows the last `@`, where the launcher is PRRTE; of a
 * number the lower half, as Open MPI 4 has it; else 0. */
static unsigned long number_job(const struct identity *me)
{
    char job[NAME_ROOM], *end = NULL;
    snprintf(job, sizeof job, "%.*s", (int)me->length, me->job);
    const char *at = strrchr(job, '@');
    unsigned long found = strtoul(at ? at + 1 : job, &end, 10);
    return *end ? 0 : at ? found : found & 0xffff;
}

/* Takes a line of the file, the `index`-th that names a call. */
static void take_call(const char *line, unsigned index, const struct identity *me)
{
    unsigned long job, own = number_job(me), count;
    unsigned rank;
    int at = 0;
    struct named *to = &named[named_count];
    if (sscanf(line, "call %lu %u %lu %n", &job, &rank, &count, &at) != 3 || !at)
        return;
    if (rank != me->rank || (job && own && job != own) || named_count == MOST_NAMED)
        return;
    to->index = index;
    to->count = count;
    snprintf(to->name, sizeof to->name, "%s", line + at);
    named_count++;
}

static void take_lines(FILE *from, const struct identity *me)
{
    char line[LINE_ROOM];
    for (unsigned index = 1; fgets(line, sizeof line, from); index++) {
        line[strcspn(line, "\n")] = 0;
        take_call(line, index, me);
    }
}

void read_holds(const char *folder, const struct identity *me)
{
    char path[PATH_MAX];
    int length = snprintf(path, sizeof path, "%s/hold", folder);
    FILE *it = length > 0 && (size_t)length < sizeof path ? fopen(path, "re") : NULL;
    is_compared = it != NULL;
    if (!it)
        return;
    if (fscanf(it, "server %1023s %63s\n", address, word) == 2)
        take_lines(it, me);
    fclose(it);
}

/* --- the server --- */

/* Opens a socket and connects it, within a time; -1 where that fails. */
static int connect_to(int family, const struct sockaddr *whom, socklen_t size)
{
    struct timeval most = {.tv_sec = REACH_SECONDS};
    int made = socket(family, SOCK_STREAM | SOCK_CLOEXEC, 0);
    if (made < 0)
        return -1;
    setsockopt(made, SOL_SOCKET, SO_SNDTIMEO, &most, sizeof most);
    if (connect(made, whom, size) == 0)
        return made;
    close(made);
    return -1;
}

static int connect_here(void)
{
    struct sockaddr_un whom = {.sun_family = AF_UNIX};
    if (strlen(address) >= sizeof whom.sun_path)
        return -1;
    strcpy(whom.sun_path, address);
    return connect_to(AF_UNIX, (struct sockaddr *)&whom, sizeof whom);
}

static int connect_there(const char *host, const char *port)
{
    struct addrinfo wanted = {.ai_socktype = SOCK_STREAM}, *found = NULL;
    int made = -1;
    if (getaddrinfo(host, port, &wanted, &found))
        return -1;
    for (const struct addrinfo *it = found; it && made < 0; it = it->ai_next)
        made = connect_to(it->ai_family, it->ai_addr, it->ai_addrlen);
    freeaddrinfo(found);
    return made;
}

/* Connects with the server; -1 where it is gone. */
static int reach_server(void)
{
    char hosts[ADDRESS_ROOM], *rest = NULL;
    int made = -1;
    if (address[0] == '/')
        return connect_here();
    strcpy(hosts, address);
    char *colon = strrchr(hosts, ':');
    if (!colon)
        return -1;
    *colon = 0;
    for (const char *it = strtok_r(hosts, ",", &rest); it && made < 0;
         it = strtok_r(NULL, ",", &rest))
        made = connect_there(it, colon + 1);
    return made;
}

/* Tells the server something of a named call. Answers the socket, which is the caller's; -1 where
 * the server is gone. */
static int tell_server(const char *what, const struct named *of)
{
    char line[WORD_ROOM + 64];
    int server = reach_server();
    if (server < 0)
        return -1;
    int length = snprintf(line, sizeof line, "%s %s %u\n", word, what, of->index);
    if (send(server, line, (size_t)length, MSG_NOSIGNAL) == length)
        return server;
    close(server);
    return -1;
}

static void tell_and_leave(const char *what, const struct named *of)
{
    int server = tell_server(what, of);
    if (server >= 0)
        close(server);
}

/* --- holding --- */

/* Waits for the server's word, or its end. Meanwhile MPI goes on: what this process has begun to
 * send may be what the other call waits for. */
static void wait_for_word(int server)
{
    struct pollfd of = {.fd = server, .events = POLLIN};
    const struct timespec look = {.tv_nsec = LOOK_NANOSECONDS};
    for (;;) {
        int came = ppoll(&of, 1, &look, NULL);
        if (came > 0 || (came < 0 && errno != EINTR))
            return;
        if (let_mpi_go_on)
            let_mpi_go_on();
    }
}

/* Finds which named call has come, and counts it for all of its name. Null for another. */
static struct named *find_named(const char *name)
{
    struct named *found = NULL;
    for (unsigned n = 0; n < named_count; n++)
        if (!strcmp(named[n].name, name) &&
            __atomic_add_fetch(&named[n].seen, 1, __ATOMIC_RELAXED) == named[n].count)
            found = &named[n];
    return found;
}

/* Holds a call, if it is one of the named. Answers which, from 1. */
static unsigned hold_named(const struct named *of, bool may_wait)
{
    if (!of)
        return 0;
    int error = errno;
    int server = tell_server(may_wait ? "came" : "passed", of);
    if (server >= 0 && may_wait)
        wait_for_word(server);
    if (server >= 0)
        close(server);
    errno = error;
    return (unsigned)(of - named) + 1;
}

unsigned hold_call(const struct text *what, const struct place *place)
{
    char name[NAME_ROOM];
    const struct named *found = NULL;
    if (what->is_lost)
        return 0;
    for (unsigned n = 0; name_call(name, what->at, n); n++) {
        const struct named *of = find_named(name);
        found = found ? found : of;
    }
    return hold_named(found, place != NULL);
}

void hold_numbers(const struct numbers *what)
{
    char name[NAME_ROOM];
    if (strcmp(what->first, "send"))
        return;
    name_send(name, what);
    hold_named(find_named(name), true);
}

void number_held(unsigned which, unsigned long number)
{
    if (which)
        __atomic_store_n(&named[which - 1].number, number, __ATOMIC_RELEASE);
}

void end_held(unsigned long number)
{
    int error = errno;
    for (unsigned n = 0; number && n < named_count; n++)
        if (__atomic_load_n(&named[n].number, __ATOMIC_ACQUIRE) == number)
            tell_and_leave("over", &named[n]);
    errno = error;
}
