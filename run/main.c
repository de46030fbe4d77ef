/* Takes part in a run: `wire_up-rank ADDRESS WORD JOB`, as `wire_up-run` starts it.
 *
 * WORD shows that this process belongs to the run. JOB is the number of its job in the plan, or
 * `start` for the process that starts the jobs of a plan that has several. */
#define _GNU_SOURCE
#include "rank.h"

#include <stdio.h>
#include <stdlib.h>
#include <string.h>
#include <unistd.h>

enum { HOST_BYTES = 256 };

/* The calls of the script. */
static struct call *script;
static size_t calls, room;

/* Takes the words of a line apart: their copies stay. */
static struct call read_words(const char *line)
{
    struct call made = {{NULL}};
    char *text = strdup(line), *rest = NULL;
    size_t count = 0;
    if (!text)
        give_up("no memory");
    for (char *it = strtok_r(text, " ", &rest); it; it = strtok_r(NULL, " ", &rest))
        if (count < CALL_WORDS)
            made.words[count++] = it;
    return made;
}

static void add_call(const char *line)
{
    if (calls == room) {
        room = 2 * room + 16;
        script = realloc(script, room * sizeof *script);
        if (!script)
            give_up("no memory");
    }
    script[calls] = read_words(line);
    if (script[calls].words[0])
        calls++;
}

/* Starts a job, and says how that went. */
static void start(char **program, const char *line)
{
    struct call said = read_words(line);
    char name[PMIX_MAX_NSLEN + 1] = "";
    if (!said.words[1])
        give_up("no job");
    pmix_status_t status = start_job(program, said.words[0], said.words[1], name);
    say("started %s %s %s", said.words[0], status_name(status), name);
}

/* Reads all that comes before the script begins. */
static void read_script(char **program)
{
    for (;;) {
        const char *line = read_line();
        if (!strncmp(line, "space ", 6)) {
            struct call said = read_words(line + 6);
            if (said.words[0] && said.words[1])
                keep_namespace(strtoul(said.words[0], NULL, 10), said.words[1]);
        } else if (!strncmp(line, "call ", 5)) {
            add_call(line + 5);
        } else if (!strncmp(line, "start ", 6)) {
            start(program, line + 6);
        } else if (!strcmp(line, "go")) {
            return;
        }
    }
}

/* Makes the calls of the script, each once it may. One that the library gave up on by a time
 * limit of its own ends the script: it was waiting. */
static void run_script(void)
{
    for (size_t i = 0; i < calls; i++) {
        wait_for_step();
        say("begin %zu", i + 1);
        struct reply made = make_call(&script[i]);
        const char *space = made.value[0] ? " " : "";
        say("end %zu %s%s%s", i + 1, status_name(made.status), space, made.value);
        if (made.status == PMIX_ERR_TIMEOUT)
            break;
    }
    say("done");
}

int main(int count, char **words)
{
    if (count != 4)
        give_up("it is started by wire_up-run");
    pmix_proc_t me;
    char host[HOST_BYTES] = "";
    connect_to(words[1]);
    pmix_status_t status = PMIx_Init(&me, NULL, 0);
    gethostname(host, sizeof host - 1);
    if (status != PMIX_SUCCESS) {
        say("failed %s %s %s", words[2], words[3], status_name(status));
        return 1;
    }
    const char *version = PMIx_Get_version();
    say("rank %s %s %s %u %s %s", words[2], words[3], me.nspace, me.rank, host, version);
    read_script(words);
    start_watching();
    run_script();
    wait_for_end();
    /* A commit of nothing shows whether the server is still there. */
    say("ended %s", status_name(PMIx_Commit()));
    PMIx_Finalize(NULL, 0);
    return 0;
}
