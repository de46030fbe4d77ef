/* The MPI library of the process. */
#define _GNU_SOURCE
#include "mpi/library.h"

#include <dlfcn.h>
#include <errno.h>
#include <pthread.h>
#include <stddef.h>
#include <string.h>

struct mpi_library mpi;
char no_tool;

static enum { UNKNOWN, FOUND, LACKING } state;
static void *known_library;
static pthread_mutex_t finding = PTHREAD_MUTEX_INITIALIZER;

static const struct {
    size_t function;
    const char *name;
} wanted[] = {
    {offsetof(struct mpi_library, initialized), "PMPI_Initialized"},
    {offsetof(struct mpi_library, comm_rank), "PMPI_Comm_rank"},
    {offsetof(struct mpi_library, comm_size), "PMPI_Comm_size"},
    {offsetof(struct mpi_library, comm_group), "PMPI_Comm_group"},
    {offsetof(struct mpi_library, comm_test_inter), "PMPI_Comm_test_inter"},
    {offsetof(struct mpi_library, comm_remote_size), "PMPI_Comm_remote_size"},
    {offsetof(struct mpi_library, comm_remote_group), "PMPI_Comm_remote_group"},
    {offsetof(struct mpi_library, group_translate_ranks), "PMPI_Group_translate_ranks"},
    {offsetof(struct mpi_library, group_free), "PMPI_Group_free"},
    {offsetof(struct mpi_library, group_rank), "PMPI_Group_rank"},
    {offsetof(struct mpi_library, group_size), "PMPI_Group_size"},
    {offsetof(struct mpi_library, win_get_group), "PMPI_Win_get_group"},
    {offsetof(struct mpi_library, type_size), "PMPI_Type_size_x"},
    {offsetof(struct mpi_library, test_cancelled), "PMPI_Test_cancelled"},
    {offsetof(struct mpi_library, error_class), "PMPI_Error_class"},
    {offsetof(struct mpi_library, finalized), "PMPI_Finalized"},
    {offsetof(struct mpi_library, query_thread), "PMPI_Query_thread"},
    {offsetof(struct mpi_library, is_thread_main), "PMPI_Is_thread_main"},
    {offsetof(struct mpi_library, iprobe), "PMPI_Iprobe"},
    {offsetof(struct mpi_library, comm_get_errhandler), "PMPI_Comm_get_errhandler"},
    {offsetof(struct mpi_library, errhandler_free), "PMPI_Errhandler_free"},
};

/* Where the library is: it was opened as `opened`, or the program was loaded with it, and it is
 * behind the object that has `wrapper`. */
struct source {
    void *opened;
    const void *wrapper;
};

/* Finds the functions in the library. False where one isn't there. */
static bool find_functions(struct mpi_library *to, const struct source *in)
{
    bool are_there = true;
    for (size_t n = 0; n < sizeof wanted / sizeof *wanted; n++) {
        void *found = in->opened ? wire_up_dlsym()(in->opened, wanted[n].name)
                                 : wire_up_find_first(wanted[n].name, in->wrapper);
        memcpy((char *)to + wanted[n].function, &found, sizeof found);
        are_there = are_there && found;
    }
    return are_there;
}

#ifdef OPEN_MPI
/* Finds an object of the library: the program may have the one copy of it that counts. */
static void *find_object(const struct source *in, const char *name)
{
    if (!in->opened)
        return wire_up_find_first(name, NULL);
    void *found = wire_up_dlsym()(RTLD_DEFAULT, name);
    return found ? found : wire_up_dlsym()(in->opened, name);
}

static bool find_objects(struct mpi_library *to, const struct source *in)
{
    to->world = find_object(in, "ompi_mpi_comm_world");
    to->self = find_object(in, "ompi_mpi_comm_self");
    to->no_comm = find_object(in, "ompi_mpi_comm_null");
    to->no_request = find_object(in, "ompi_request_null");
    to->no_type = find_object(in, "ompi_mpi_datatype_null");
    to->errors_are_fatal = find_object(in, "ompi_mpi_errors_are_fatal");
    to->errors_abort = find_object(in, "ompi_mpi_errors_abort");
    return to->world && to->self && to->no_comm && to->no_request && to->no_type;
}
#else
static bool find_objects(struct mpi_library *to, const struct source *in)
{
    (void)in;
    to->world = MPI_COMM_WORLD;
    to->self = MPI_COMM_SELF;
    to->no_comm = MPI_COMM_NULL;
    to->no_request = MPI_REQUEST_NULL;
    to->no_type = MPI_DATATYPE_NULL;
    to->errors_are_fatal = to->errors_abort = MPI_ERRORS_ARE_FATAL;
#ifdef MPI_ERRORS_ABORT
    to->errors_abort = MPI_ERRORS_ABORT;
#endif
    return true;
}
#endif

/* Whether an object has the functions of MPI's standard interface, whose handles aren't those of the
 * header that the recorder has. */
static bool has_other_handles(const char *object) { return strstr(object, "libmpi_abi") != NULL; }

bool is_mpi_found(void) { return __atomic_load_n(&state, __ATOMIC_ACQUIRE) == FOUND; }

/* Whether this thread may call MPI now, whatever others do. */
static bool may_call(void)
{
    int yes = 0, level = MPI_THREAD_SINGLE;
    if (mpi.initialized(&yes) || !yes || mpi.finalized(&yes) || yes || mpi.query_thread(&level))
        return false;
    if (level == MPI_THREAD_MULTIPLE)
        return true;
    return level <= MPI_THREAD_FUNNELED && !mpi.is_thread_main(&yes) && yes;
}

/* Lets MPI go on: what was sent goes out. It asks for a message that nobody sends. */
static void go_on(void)
{
    int found;
    if (may_call())
        mpi.iprobe(MPI_ANY_SOURCE, MPI_ANY_TAG, mpi.self, &found, MPI_STATUS_IGNORE);
}

/* Keeps what was found in a library, unless another thread just did. */
static void keep_library(void *library, const struct mpi_library *found, bool are_there)
{
    pthread_mutex_lock(&finding);
    if (state == UNKNOWN) {
        mpi = *found;
        __atomic_store_n(&known_library, library, __ATOMIC_RELEASE);
        __atomic_store_n(&state, are_there ? FOUND : LACKING, __ATOMIC_RELEASE);
        if (are_there)
            wire_up_set_progress(go_on);
    }
    pthread_mutex_unlock(&finding);
}

/* Finds all in the library that has `function`, once. No lock is held meanwhile: the system's own
 * is waited for, that of dlopen, and whoever has that may make the first call too. */
static void find_library(const void *function, const char *name, const void *wrapper)
{
    Dl_info it;
    struct mpi_library found;
    struct source in = {.wrapper = wrapper};
    if (__atomic_load_n(&state, __ATOMIC_ACQUIRE) != UNKNOWN || !dladdr(function, &it))
        return;
    if (wire_up_find_first(name, wrapper) != function) {
        in.opened = dlopen(it.dli_fname, RTLD_LAZY | RTLD_NOLOAD);
        if (!in.opened)
            return;
    }
    memset(&found, 0, sizeof found);
    bool is_usable = !has_other_handles(it.dli_fname);
    bool are_there = is_usable && find_functions(&found, &in) && find_objects(&found, &in);
    keep_library(in.opened, &found, are_there);
}

/* Answers the library of MPI: the one that was found, or else the one that has its usual name. */
static void *get_library(void)
{
    void *library = __atomic_load_n(&known_library, __ATOMIC_ACQUIRE);
    return library ? library : dlopen("libmpi.so.40", RTLD_LAZY | RTLD_NOLOAD);
}

/* Finds the function of a name that comes after the recorder's. Where a function ends with a call, the
 * code at `caller` isn't its own: then the library is asked. */
static void *find_next(const char *name, const void *wrapper, void *caller)
{
    void *found = wire_up_find_first(name, wrapper);
    if (!found)
        found = wire_up_dlsym()(RTLD_NEXT, name);
    if (!found)
        found = wire_up_find(name, caller, wrapper);
    void *library = found ? NULL : get_library();
    return library ? wire_up_dlsym()(library, name) : found;
}

void *look_up_function(void **known, const char *name, const void *wrapper, void *caller)
{
    int error = errno;
    void *found = find_next(name, wrapper, caller);
    if (found)
        find_library(found, name, wrapper);
    __atomic_store_n(known, found, __ATOMIC_RELAXED);
    errno = error;
    return found;
}

/* Whether the function that comes next isn't that of MPI's library, which has `own`. */
static bool is_of_tool(const void *next, const void *own)
{
    const struct place *place = wire_up_place(next);
    return place && place->owner <= OF_TOOL && wire_up_base(next) != wire_up_base(own);
}

void *look_up_tool(void **known, const char *name, const void *wrapper, void *caller)
{
    int error = errno;
    void *library = find_next(name, wrapper, caller), *next = find_next(name + 1, wrapper, caller);
    bool is_tool = next && is_of_tool(next, library);
    if (is_tool)
        wire_up_add_tool(next);
    void *found = is_tool ? next : &no_tool;
    __atomic_store_n(known, found, __ATOMIC_RELAXED);
    errno = error;
    return found;
}

long long count_bytes(MPI_Count count, MPI_Datatype type)
{
    MPI_Count size = 0;
    if (count > 0 && type != mpi.no_type)
        mpi.type_size(type, &size);
    return count > 0 ? (long long)count * size : 0;
}
