/* Programs that start others. */
#ifndef WIRE_UP_LAUNCHER_H
#define WIRE_UP_LAUNCHER_H

#include <stdbool.h>

/* Whether this program has the name of a command, or that with a version, such as mpirun.openmpi. */
bool is_command(const char *command);

#endif
