/* A library that looks functions of MPI up: behind itself, or as any code does. `hidden` is linked with it, and opens a copy of it. */
#define _GNU_SOURCE
#include <dlfcn.h>

void *find_send_behind(void);
void *find_receive_behind(void);
void *find_send(void);
void *find_receive(void);

void *find_send_behind(void)
{
    return dlsym(RTLD_NEXT, "MPI_Send");
}

void *find_receive_behind(void)
{
    return dlsym(RTLD_NEXT, "MPI_Recv");
}

void *find_send(void)
{
    return dlsym(RTLD_DEFAULT, "MPI_Send");
}

void *find_receive(void)
{
    return dlsym(RTLD_DEFAULT, "MPI_Recv");
}
