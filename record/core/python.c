/* Places in programs of Python: the line that called mpi4py. */
#define _GNU_SOURCE
#include "core/places.h"

#include <dlfcn.h>
#include <pthread.h>
#include <stdlib.h>
#include <string.h>

/* The functions of Python that say where it is, if the process has a Python. */
static struct {
    int (*is_initialized)(void);
    void *(*this_thread)(void);
    void *(*main_interpreter)(void);
    void *(*last_interpreter)(void);
    int (*take)(void);
    void (*give_back)(int);
    void *(*frame)(void);
    void *(*before)(void *);
    int (*line)(void *);
    void *(*code)(void *);
    void *(*attribute)(void *, const char *);
    const char *(*text)(void *);
    void (*drop)(void *);
} python;
static int (*is_finalizing)(void); /* null where Python can't say so */
static bool has_python;
static pthread_once_t learning = PTHREAD_ONCE_INIT;

static const struct {
    void *function;
    const char *name;
} wanted[] = {
    {&python.is_initialized, "Py_IsInitialized"},
    {&python.this_thread, "PyGILState_GetThisThreadState"},
    {&python.main_interpreter, "PyInterpreterState_Main"},
    {&python.last_interpreter, "PyInterpreterState_Head"},
    {&python.take, "PyGILState_Ensure"},
    {&python.give_back, "PyGILState_Release"},
    {&python.frame, "PyEval_GetFrame"},
    {&python.before, "PyFrame_GetBack"},
    {&python.line, "PyFrame_GetLineNumber"},
    {&python.code, "PyFrame_GetCode"},
    {&python.attribute, "PyObject_GetAttrString"},
    {&python.text, "PyUnicode_AsUTF8"},
    {&python.drop, "Py_DecRef"},
};

static void learn_python(void)
{
    has_python = true;
    for (size_t n = 0; n < sizeof wanted / sizeof *wanted; n++) {
        void *found = dlsym(RTLD_DEFAULT, wanted[n].name);
        memcpy(wanted[n].function, &found, sizeof found);
        has_python = has_python && found;
    }
    void *found = dlsym(RTLD_DEFAULT, "Py_IsFinalizing");
    if (!found)
        found = dlsym(RTLD_DEFAULT, "_Py_IsFinalizing");
    memcpy(&is_finalizing, &found, sizeof found);
}

/* Whether this thread may ask Python for its lock. One that does while Python ends never returns;
 * nor does one that has the lock for another interpreter than the thread's first. */
static bool may_ask(void)
{
    if (!has_python || !python.is_initialized() || (is_finalizing && is_finalizing()))
        return false;
    bool is_one = python.last_interpreter() == python.main_interpreter();
    return is_one && python.this_thread() != NULL;
}

/* --- lines --- */

static struct place *lines;
static pthread_mutex_t adding = PTHREAD_MUTEX_INITIALIZER;

static struct place *find_line(const char *file, size_t line, const char *function)
{
    struct place *it = lines;
    while (it && (it->offset != line || strcmp(it->module, file) ||
                  strcmp(it->function, function)))
        it = it->next;
    return it;
}

/* Makes the place of a line and puts it in the list; null where memory is refused. */
static struct place *make_line(const char *file, size_t line, const char *function)
{
    struct place *made = calloc(1, sizeof *made);
    char *module = strdup(file), *name = strdup(function);
    if (!made || !module || !name) {
        free(made);
        free(module);
        free(name);
        return NULL;
    }
    *made = (struct place){.number = number_place(), .module = module, .function = name,
                           .offset = line, .next = lines};
    lines = made;
    return made;
}

/* Finds or makes the place of a line. */
static struct place *place_line(const char *file, size_t line, const char *function)
{
    pthread_mutex_lock(&adding);
    struct place *it = find_line(file, line, function);
    if (!it)
        it = make_line(file, line, function);
    pthread_mutex_unlock(&adding);
    return it;
}

/* --- frames: all with the lock of Python --- */

static void drop(void *object)
{
    if (object)
        python.drop(object);
}

/* Finds the place of a frame; null for one of Python's own that imports a module. */
static struct place *place_frame(void *frame)
{
    struct place *found = NULL;
    void *code = python.code(frame);
    void *file = code ? python.attribute(code, "co_filename") : NULL;
    void *name = code ? python.attribute(code, "co_name") : NULL;
    const char *path = file ? python.text(file) : NULL;
    const char *function = name ? python.text(name) : NULL;
    if (path && function && *path != '<')
        found = place_line(path, (unsigned)python.line(frame), function);
    drop(name);
    drop(file);
    drop(code);
    return found;
}

/* Finds the place of the innermost frame that has one. */
static struct place *place_innermost(void)
{
    struct place *found = NULL;
    void *frame = python.frame(), *owned = NULL;
    while (frame && !found) {
        found = place_frame(frame);
        void *before = found ? NULL : python.before(frame);
        drop(owned);
        frame = owned = before;
    }
    return found;
}

struct place *wire_up_in_python(struct place *place)
{
    if (!place || !place->is_mpi4py)
        return place;
    pthread_once(&learning, learn_python);
    if (!may_ask())
        return place;
    int lock = python.take();
    struct place *found = place_innermost();
    python.give_back(lock);
    return found ? found : place;
}
