/* What a launcher hands on to the processes that it starts, and what shows that it has no PMIx. */
#define _GNU_SOURCE
#include "core/launcher.h"
#include "core/text.h"

#include <errno.h>
#include <fcntl.h>
#include <limits.h>
#include <stdio.h>
#include <stdlib.h>
#include <string.h>
#include <unistd.h>

/* The variable that names others to hand on, and its value where it is the recorder's own. */
#define LIST "OMPI_MCA_mca_base_env_list"
#define OWN_LIST "LD_PRELOAD;WIRE_UP_RECORD;ASAN_OPTIONS"

bool is_command(const char *command)
{
    const char *name = program_invocation_short_name;
    return begins_with(name, command) && strchr(".-0123456789", name[strlen(command)]);
}

static bool is_launcher_of_open_mpi(void)
{
    return is_command("mpirun") || is_command("mpiexec") || is_command("orterun");
}

/* Whether this is PRRTE's own launcher, which knows the option alone. */
static bool is_launcher_of_prrte(void)
{
    const char *name = program_invocation_short_name;
    return !strcmp(name, "prterun") || !strcmp(name, "prun");
}

static bool has_own_list(void)
{
    const char *list = getenv(LIST);
    return list && !strcmp(list, OWN_LIST);
}

static bool has_option(int count, char **words, const char *option)
{
    for (int n = 1; n < count; n++)
        if (!strcmp(words[n], option))
            return true;
    return false;
}

/* Open MPI's launcher hands variables on to other nodes by a variable or by its option -x, but
 * never by both. Where it has the option, and the variable is the recorder's own, it begins again
 * with options in its place; so does a launcher that doesn't know the variable. */
__attribute__((constructor)) static void hand_on_by_options(int count, char **words)
{
    static char option[] = "-x";
    static char *const own[] = {"LD_PRELOAD", "WIRE_UP_RECORD", "ASAN_OPTIONS"};
    const size_t more = 2 * sizeof own / sizeof *own;
    bool is_due = is_launcher_of_prrte() ||
                  (is_launcher_of_open_mpi() && has_option(count, words, option));
    bool is_launched = getenv("PMIX_NAMESPACE") != NULL;
    if (!is_due || is_launched || !has_own_list())
        return;
    char **longer = calloc((size_t)count + more + 1, sizeof *longer);
    if (!longer)
        return;
    longer[0] = words[0];
    for (size_t n = 0; n < more; n++)
        longer[1 + n] = n % 2 ? own[n / 2] : option;
    memcpy(longer + 1 + more, words + 1, (size_t)(count - 1) * sizeof *longer);
    unsetenv(LIST);
    execve("/proc/self/exe", longer, environ);
    free(longer);
}

/* Where the process was started by PMI, which came before PMIx, a file in the folder says so. */
__attribute__((constructor)) static void note_pmi(void)
{
    char path[PATH_MAX];
    const char *folder = getenv("WIRE_UP_RECORD");
    bool is_pmi = getenv("PMI_FD") || getenv("PMI_PORT");
    if (!folder || !is_pmi || getenv("PMIX_NAMESPACE"))
        return;
    int length = snprintf(path, sizeof path, "%s/pmi", folder);
    int file = length < (int)sizeof path ? open(path, O_WRONLY | O_CREAT | O_CLOEXEC, 0666) : -1;
    if (file >= 0)
        close(file);
}
