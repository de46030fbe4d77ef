/* The socket between this process and `wire_up-run`. */
#define _GNU_SOURCE
#include "rank.h"

#include <netdb.h>
#include <pthread.h>
#include <stdarg.h>
#include <stdbool.h>
#include <stdio.h>
#include <stdlib.h>
#include <string.h>
#include <sys/socket.h>
#include <sys/un.h>
#include <unistd.h>

enum { LINE_BYTES = 2048 };

static FILE *from;
static int to = -1;
static pthread_mutex_t lock = PTHREAD_MUTEX_INITIALIZER;
static pthread_cond_t changed = PTHREAD_COND_INITIALIZER;
/* How many more calls may be made; whether all may; whether this process may end. */
static unsigned long steps;
static bool is_free, may_end;

void give_up(const char *why)
{
    fprintf(stderr, "wire_up-rank: %s\n", why);
    _exit(1);
}

/* Connects with a socket of this machine. */
static int connect_here(const char *path)
{
    struct sockaddr_un address = {.sun_family = AF_UNIX};
    if (strlen(path) >= sizeof address.sun_path)
        give_up("the path of the socket is too long");
    strcpy(address.sun_path, path);
    int made = socket(AF_UNIX, SOCK_STREAM | SOCK_CLOEXEC, 0);
    if (made < 0 || connect(made, (struct sockaddr *)&address, sizeof address))
        give_up("wire_up-run isn't there");
    return made;
}

/* Connects with a port of another machine; below 0 where it can't. */
static int connect_there(const char *host, const char *port)
{
    struct addrinfo wanted = {.ai_socktype = SOCK_STREAM}, *found = NULL;
    if (getaddrinfo(host, port, &wanted, &found))
        return -1;
    int made = -1;
    for (struct addrinfo *it = found; it && made < 0; it = it->ai_next) {
        made = socket(it->ai_family, it->ai_socktype | SOCK_CLOEXEC, it->ai_protocol);
        if (made >= 0 && connect(made, it->ai_addr, it->ai_addrlen)) {
            close(made);
            made = -1;
        }
    }
    freeaddrinfo(found);
    return made;
}

void connect_to(const char *address)
{
    if (address[0] == '/') {
        to = connect_here(address);
    } else {
        char *hosts = strdup(address), *colon = hosts ? strrchr(hosts, ':') : NULL, *rest = NULL;
        if (!colon)
            give_up("no address");
        *colon = 0;
        for (char *it = strtok_r(hosts, ",", &rest); it && to < 0; it = strtok_r(NULL, ",", &rest))
            to = connect_there(it, colon + 1);
        free(hosts);
        if (to < 0)
            give_up("wire_up-run can't be reached");
    }
    from = fdopen(dup(to), "r");
    if (!from)
        give_up("no memory");
}

char *read_line(void)
{
    static char *line;
    static size_t size;
    ssize_t got = getline(&line, &size, from);
    if (got <= 0)
        _exit(1);
    if (line[got - 1] == '\n')
        line[got - 1] = 0;
    return line;
}

void say(const char *format, ...)
{
    char line[LINE_BYTES];
    va_list words;
    va_start(words, format);
    int length = vsnprintf(line, sizeof line - 1, format, words);
    va_end(words);
    if (length < 0)
        give_up("no line");
    size_t size = (size_t)length < sizeof line - 1 ? (size_t)length : sizeof line - 2;
    line[size++] = '\n';
    for (size_t sent = 0; sent < size;) {
        ssize_t wrote = send(to, line + sent, size - sent, MSG_NOSIGNAL);
        if (wrote <= 0)
            _exit(1);
        sent += (size_t)wrote;
    }
}

/* Reads the lines that say when this process may go on. */
static void *watch(void *unused)
{
    for (;;) {
        const char *line = read_line();
        pthread_mutex_lock(&lock);
        if (!strcmp(line, "step"))
            steps++;
        else if (!strcmp(line, "free"))
            is_free = true;
        else if (!strcmp(line, "end"))
            may_end = true;
        pthread_cond_broadcast(&changed);
        bool is_last = may_end;
        pthread_mutex_unlock(&lock);
        if (is_last)
            return unused;
    }
}

void start_watching(void)
{
    pthread_t thread;
    if (pthread_create(&thread, NULL, watch, NULL))
        give_up("no thread");
    pthread_detach(thread);
}

void wait_for_step(void)
{
    pthread_mutex_lock(&lock);
    while (!steps && !is_free)
        pthread_cond_wait(&changed, &lock);
    if (steps)
        steps--;
    pthread_mutex_unlock(&lock);
}

void wait_for_end(void)
{
    pthread_mutex_lock(&lock);
    while (!may_end)
        pthread_cond_wait(&changed, &lock);
    pthread_mutex_unlock(&lock);
}
