/* A program of two processes that opens a Python, whose second interpreter runs mpi4py: process 0
 * sends process 1 a message. That interpreter has Python's lock where it begins MPI. The first word
 * is the path of Python's library. */
#include <dlfcn.h>
#include <stdio.h>
#include <string.h>

static const char exchange[] = "from mpi4py import MPI\n"
                               "world = MPI.COMM_WORLD\n"
                               "if world.rank == 0:\n"
                               "    world.send('came', dest=1)\n"
                               "if world.rank == 1:\n"
                               "    print(world.recv(source=0), flush=True)\n"
                               "MPI.Finalize()\n";

static struct {
    void (*begin)(int);
    void *(*begin_second)(void);
    int (*run)(const char *, void *);
    void (*end_second)(void *);
    void *(*current)(void);
    void *(*change)(void *);
    int (*end)(void);
} python;

static const struct {
    void *function;
    const char *name;
} wanted[] = {
    {&python.begin, "Py_InitializeEx"},
    {&python.begin_second, "Py_NewInterpreter"},
    {&python.run, "PyRun_SimpleStringFlags"},
    {&python.end_second, "Py_EndInterpreter"},
    {&python.current, "PyThreadState_Get"},
    {&python.change, "PyThreadState_Swap"},
    {&python.end, "Py_FinalizeEx"},
};

int main(int count, char **words)
{
    void *library = count > 1 ? dlopen(words[1], RTLD_NOW | RTLD_GLOBAL) : NULL;
    for (size_t n = 0; n < sizeof wanted / sizeof *wanted; n++) {
        void *found = library ? dlsym(library, wanted[n].name) : NULL;
        if (!found)
            return 1;
        memcpy(wanted[n].function, &found, sizeof found);
    }
    python.begin(0);
    void *first = python.current(), *second = python.begin_second();
    int has_failed = !second || python.run(exchange, NULL);
    if (second)
        python.end_second(second);
    python.change(first);
    return python.end() || has_failed;
}
