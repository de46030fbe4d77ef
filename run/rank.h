/* The process that makes the calls of one rank of a plan. It is told by `wire_up-run`, over a
 * socket, what to call and when, and tells it what each call gave back. */
#ifndef WIRE_UP_RANK_H
#define WIRE_UP_RANK_H

#include <pmix.h>

enum { CALL_WORDS = 4, VALUE_BYTES = 512 };

/* A call of the script: its verb and the words after it; those that aren't there are null. */
struct call {
    char *words[CALL_WORDS];
};

/* What a call gave back. The value is empty where there is none. */
struct reply {
    pmix_status_t status;
    char value[VALUE_BYTES];
};

/* talk.c: the socket. What can't be sent or read ends this process: nobody waits for it then. */

/* Connects with an address: the path of a socket, or HOST:PORT. */
void connect_to(const char *address);
/* Reads a line without its end. It stays until the next line is read. */
char *read_line(void);
/* Writes a line. */
__attribute__((format(printf, 1, 2))) void say(const char *format, ...);
/* From here on a thread reads the lines, which say when this process may go on. */
void start_watching(void);
/* Waits until the next call may be made. */
void wait_for_step(void);
/* Waits until this process may end. */
void wait_for_end(void);

/* words.c: how statuses, values and keys are written. */

/* The name of a status. What it answers stays until it is asked again. */
const char *status_name(pmix_status_t status);
/* Writes a value as a word. */
void write_value(const pmix_value_t *value, char *text, size_t size);
/* The key of the library for a key of a plan, which spells five of them as constants. */
const char *library_key(const char *key);

/* calls.c: the calls. */

/* Keeps the namespace of a job by its number in the plan. */
void keep_namespace(unsigned long job, const char *name);
/* Makes a call and answers what it gave back. */
struct reply make_call(const struct call *call);
/* Starts a job: the same program with its words, once on each of the hosts, for a job's number. */
pmix_status_t start_job(char **program, const char *job, char *hosts, char *name);

/* Ends this process with a line on standard error. */
__attribute__((noreturn)) void give_up(const char *why);

#endif
