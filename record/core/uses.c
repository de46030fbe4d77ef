/* Whether the program's own code refers to functions that lead to calls of PMIx, so that what luck
 * decides may lead to a call that the recording doesn't have. Its own code is the executable and
 * all libraries but those of MPI, PMIx and the system. What it refers to, its relocations name. */
#define _GNU_SOURCE
#include "core/uses.h"
#include "core/objects.h"
#include "core/places.h"
#include "core/text.h"

#include <errno.h>
#include <link.h>
#include <stdbool.h>
#include <string.h>
#include <strings.h>

/* --- functions --- */

/* The functions of MPI that call PMIx where the program calls them, without `MPI_`: those of names,
 * and of processes that are started or met, also in what begins so. */
static const char *const of_names[] = {
    "publish_name", "unpublish_name", "lookup_name",   "comm_accept",
    "comm_connect", "comm_join",      "comm_spawn",    "comm_create_from_group",
    "session_init", "open_port",      "intercomm_create_from_groups",
};

/* Functions that bring other code into the process, or start it. */
static const char *const of_other_code[] = {
    "dlopen",  "dlmopen", "dlsym",    "dlvsym", "execl",       "execle",       "execlp", "execv",
    "execve",  "execvp",  "execvpe",  "execveat", "fexecve",   "posix_spawn",  "posix_spawnp",
    "system",  "popen",   "syscall",  "wordexp",
};

/* Libraries of the system have such functions under names that begin so: the runtime of Fortran,
 * what opens libraries for a program, and interpreters, whose scripts can do it. */
static const char *const of_libraries[] = {
    "_gfortran_execute_command_line", "_gfortran_system", "g_module_open", "g_spawn_", "lt_dlopen",
    "JNI_CreateJavaVM", "Py_", "PyRun_", "Rf_initEmbeddedR", "Tcl_", "jl_init", "luaL_", "perl_",
    "ruby_", "scm_",
};

/* Whether a name is one of MPI, as C or Fortran spells it: `PMPI_Lookup_name`, `mpi_lookup_name_`. */
static bool is_of_names(const char *name)
{
    bool is_one = false;
    name += (*name == 'P' || *name == 'p') && !strncasecmp(name + 1, "mpi_", 4);
    if (strncasecmp(name, "mpi_", 4))
        return false;
    name += 4;
    for (size_t n = 0; !is_one && n < sizeof of_names / sizeof *of_names; n++) {
        size_t length = strlen(of_names[n]);
        is_one = !strncasecmp(name, of_names[n], length) && (!name[length] || name[length] == '_');
    }
    return is_one;
}

/* Whether a function of this name is one of PMIx, or of MPI and calls PMIx. */
static bool leads_to_pmix(const char *name) { return begins_with(name, "PMIx_") || is_of_names(name); }

static bool leads_to_other_code(const char *name)
{
    bool is_one = false;
    for (size_t n = 0; !is_one && n < sizeof of_other_code / sizeof *of_other_code; n++)
        is_one = !strcmp(name, of_other_code[n]);
    for (size_t n = 0; !is_one && n < sizeof of_libraries / sizeof *of_libraries; n++)
        is_one = begins_with(name, of_libraries[n]);
    return is_one;
}

/* --- objects --- */

/* Whose an object is: the program's own; a library of the system or the machine, which opens no code
 * that calls PMIx, but may call it itself; or one of MPI, PMIx, the system or the recorder. */
enum standing { OWN, INSTALLED, KNOWN };

/* How the libraries begin by which MPI reaches the machine: they open drivers alone, wherever they
 * are, as in a folder of their own on a cluster. */
static const char *const of_machine[] = {
    "libcuda.so", "libcudart.so", "libfabric.so", "libhwloc.so", "libibverbs.so", "libpsm2.so",
    "librdmacm.so", "libucm.so", "libucp.so", "libucs.so", "libuct.so",
};

static bool is_of_machine(const char *path)
{
    const char *slash = strrchr(path, '/'), *name = slash ? slash + 1 : path;
    bool is_one = false;
    for (size_t n = 0; !is_one && n < sizeof of_machine / sizeof *of_machine; n++)
        is_one = begins_with(name, of_machine[n]);
    return is_one;
}

static bool is_beside_recorder(const char *path)
{
    struct object own;
    return find_object((const void *)(uintptr_t)&note_uses, &own) && is_beside(path, own.path);
}

static enum standing find_standing(const struct dl_phdr_info *object)
{
    const char *path = object->dlpi_name;
    if (!*path)
        return OWN;
    enum owner owner = find_object_owner(path);
    bool is_known = owner != OF_PROGRAM && (is_of_system(path) || is_beside_mpi(path));
    if (is_known || (owner == OF_RECORDER && is_beside_recorder(path)))
        return KNOWN;
    return is_of_system(path) || is_of_machine(path) ? INSTALLED : OWN;
}

/* Finds the function of a relocation that counts; null where it names none. */
static const char *find_use(const struct tables *of, const ElfW(Rela) *it, enum standing standing)
{
    const char *name = of->names + of->symbols[ELF64_R_SYM(it->r_info)].st_name;
    bool is_use = leads_to_pmix(name) || (standing == OWN && leads_to_other_code(name));
    return is_use ? name : NULL;
}

static const char *find_any_use(const struct tables *of, const ElfW(Rela) *list, size_t size,
                                enum standing standing)
{
    const char *found = NULL;
    for (size_t n = 0; !found && list && n < size / sizeof *list; n++)
        found = find_use(of, &list[n], standing);
    return found;
}

/* A function to which an object refers. */
#define MOST_NAME 128
struct use {
    char name[MOST_NAME];
};

static void take_name(struct use *to, const char *name)
{
    *to->name = 0;
    strncat(to->name, name, sizeof to->name - 1);
}

/* Takes the first function that an object refers to. */
static int take_use(struct dl_phdr_info *object, size_t size, void *to)
{
    struct tables of;
    (void)size;
    enum standing standing = find_standing(object);
    if (standing == KNOWN || !read_tables(object, &of))
        return 0;
    const char *name = find_any_use(&of, of.data, of.data_size, standing);
    if (!name)
        name = find_any_use(&of, of.calls, of.calls_size, standing);
    if (name)
        take_name(to, name);
    return name != NULL;
}

/* --- all of them --- */

static bool is_looked_up;

void take_lookup(const char *name)
{
    if (leads_to_pmix(name))
        __atomic_store_n(&is_looked_up, true, __ATOMIC_RELAXED);
}

void note_uses(void)
{
    struct use found = {""};
    struct text what;
    if (is_in_list())
        return;
    if (__atomic_load_n(&is_looked_up, __ATOMIC_RELAXED))
        take_name(&found, "dlsym");
    else
        list_objects(take_use, &found);
    wire_up_text_open(&what);
    wire_up_text_add(&what, "uses ");
    wire_up_text_add_word(&what, *found.name ? found.name : "nothing");
    wire_up_write('=', 0, NULL, &what);
    wire_up_text_close(&what);
}
