/* Whose code an object has. */
#ifndef WIRE_UP_OWNERS_H
#define WIRE_UP_OWNERS_H

#include "record.h"

/* Finds whose code an object has, by the path of its file. */
enum owner find_object_owner(const char *path);

/* Whether a file stands in a folder of the system's libraries. */
bool is_of_system(const char *path);

/* Whether two files stand in one folder. */
bool is_beside(const char *path, const char *other);

/* Whether a file stands in the folder of a library of MPI or PMIx that is loaded, or in a folder
 * there. */
bool is_beside_mpi(const char *path);

#endif
