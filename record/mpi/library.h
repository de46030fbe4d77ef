/* The MPI library of the process. The recorder isn't linked with one, so that processes without MPI
 * can load it; it finds what it calls itself in the library that the program calls. */
#ifndef WIRE_UP_LIBRARY_H
#define WIRE_UP_LIBRARY_H

#define OMPI_OMIT_MPI1_COMPAT_DECLS 1
#include "record.h"

#include <mpi.h>
#include <stdint.h>

/* The functions of MPI that the recorder calls for itself, and the objects that stand for handles
 * where the MPI library has such. */
struct mpi_library {
    __typeof__(&PMPI_Initialized) initialized;
    __typeof__(&PMPI_Comm_rank) comm_rank;
    __typeof__(&PMPI_Comm_size) comm_size;
    __typeof__(&PMPI_Comm_group) comm_group;
    __typeof__(&PMPI_Comm_test_inter) comm_test_inter;
    __typeof__(&PMPI_Comm_remote_size) comm_remote_size;
    __typeof__(&PMPI_Comm_remote_group) comm_remote_group;
    __typeof__(&PMPI_Group_translate_ranks) group_translate_ranks;
    __typeof__(&PMPI_Group_free) group_free;
    __typeof__(&PMPI_Group_rank) group_rank;
    __typeof__(&PMPI_Group_size) group_size;
    __typeof__(&PMPI_Win_get_group) win_get_group;
    int (*type_size)(MPI_Datatype type, MPI_Count *size);
    __typeof__(&PMPI_Test_cancelled) test_cancelled;
    __typeof__(&PMPI_Error_class) error_class;
    __typeof__(&PMPI_Finalized) finalized;
    __typeof__(&PMPI_Query_thread) query_thread;
    __typeof__(&PMPI_Is_thread_main) is_thread_main;
    __typeof__(&PMPI_Iprobe) iprobe;
    __typeof__(&PMPI_Comm_get_errhandler) comm_get_errhandler;
    __typeof__(&PMPI_Errhandler_free) errhandler_free;
    MPI_Comm world, self, no_comm;
    MPI_Request no_request;
    MPI_Datatype no_type;
    MPI_Errhandler errors_are_fatal, errors_abort; /* older libraries have the first alone */
};
extern struct mpi_library mpi;

/* Whether all of it was found. */
bool is_mpi_found(void);

/* Finds MPI's own function of a name and keeps it in `known`; null where there is none. `wrapper`
 * stands before it, and the code at `caller` calls it. */
void *look_up_function(void **known, const char *name, const void *wrapper, void *caller);

/* Finds the function of the program's tool that comes before MPI's own function of a name, and keeps
 * it in `known`: the address of `no_tool` where there is none. */
void *look_up_tool(void **known, const char *name, const void *wrapper, void *caller);
extern char no_tool;

/* Answers a number of so many bits by which a table finds a handle. */
static inline size_t mix_handle(uintptr_t handle, unsigned bits)
{
    return (size_t)(handle * 0x9e3779b97f4a7c15u >> (64 - bits));
}

/* Answers how many bytes so many elements of a type have. */
long long count_bytes(MPI_Count count, MPI_Datatype type);

#endif
