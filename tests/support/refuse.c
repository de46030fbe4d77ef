/* Stands before the C library in a run of the program (LD_PRELOAD), and refuses what the environment tells it to. tests/support/refusing.py
   builds it, for tests/commands/test_refuse.py and tests/commands/test_streams.py.

   WIRE_UP_REFUSE=N         refuses the N-th request for memory, counted from 1. A request is a call of malloc, calloc, realloc or one of
                            their kin, whoever makes it, the C library too, and a start of a thread, which needs a stack.
   WIRE_UP_REFUSE_ON=1      and each later one.
   WIRE_UP_READ_BYTES=N     a read takes at most N bytes.     WIRE_UP_WRITE_BYTES=N     a write to standard output takes at most N bytes.
   WIRE_UP_FAIL_READ=N      the N-th read fails.              WIRE_UP_FAIL_WRITE=N      a write to standard output fails once N bytes
                                                              went out; the write before it takes what is left.
   WIRE_UP_ERROR=N          with this error number; with 0 the read gives nothing, the write takes nothing.
   WIRE_UP_TOLD=N           a file descriptor. Each refusal or failure writes a letter to it, and the end all counts.

   All is counted from the call of main on: what the loader and the C library do before it is no part of the program. */
#define _GNU_SOURCE
#include <dlfcn.h>
#include <errno.h>
#include <pthread.h>
#include <stdatomic.h>
#include <stdint.h>
#include <stdio.h>
#include <stdlib.h>
#include <string.h>
#include <sys/syscall.h>
#include <unistd.h>

extern void *__libc_malloc(size_t);
extern void *__libc_calloc(size_t, size_t);
extern void *__libc_realloc(void *, size_t);
extern void *__libc_memalign(size_t, size_t);

static atomic_int is_counting;
static atomic_long requests, bytes_read, reads, bytes_written, threads;
static long refuse, refuse_on, read_bytes, write_bytes, fail_read, fail_write = -1, error_number, told = -1;
static ssize_t (*real_read)(int, void *, size_t);
static ssize_t (*real_write)(int, const void *, size_t);
static int (*real_create)(pthread_t *, const pthread_attr_t *, void *(*)(void *), void *);
static int (*real_main)(int, char **, char **);

static void tell(const char *what) {
  int kept = errno;
  if (told >= 0 && real_write) real_write((int)told, what, strlen(what));
  errno = kept;
}

/* Whether this request is one to refuse. */
static int is_refused(void) {
  if (!atomic_load(&is_counting)) return 0;
  long number = atomic_fetch_add(&requests, 1) + 1;
  int refused = refuse > 0 && (refuse_on ? number >= refuse : number == refuse);
  if (refused) tell("m");
  return refused;
}

static void *none(void) {
  errno = ENOMEM;
  return NULL;
}

void *malloc(size_t size) { return is_refused() ? none() : __libc_malloc(size); }
void *calloc(size_t count, size_t size) { return is_refused() ? none() : __libc_calloc(count, size); }
void *realloc(void *block, size_t size) { return is_refused() ? none() : __libc_realloc(block, size); }
void *memalign(size_t alignment, size_t size) { return is_refused() ? none() : __libc_memalign(alignment, size); }
void *aligned_alloc(size_t alignment, size_t size) { return is_refused() ? none() : __libc_memalign(alignment, size); }

void *reallocarray(void *block, size_t count, size_t size) {
  if (size && count > SIZE_MAX / size) return none();
  return realloc(block, count * size);
}

int posix_memalign(void **to, size_t alignment, size_t size) {
  if (is_refused()) return ENOMEM;
  void *block = __libc_memalign(alignment, size);
  if (!block) return ENOMEM;
  *to = block;
  return 0;
}

int pthread_create(pthread_t *thread, const pthread_attr_t *how, void *(*start)(void *), void *with) {
  if (!real_create) *(void **)&real_create = dlsym(RTLD_NEXT, "pthread_create");
  if (is_refused()) return EAGAIN;
  atomic_fetch_add(&threads, 1);
  return real_create(thread, how, start, with);
}

static ssize_t fails(void) {
  tell("f");
  if (!error_number) return 0;
  errno = (int)error_number;
  return -1;
}

ssize_t read(int file, void *to, size_t size) {
  if (!real_read) *(void **)&real_read = dlsym(RTLD_NEXT, "read");
  if (!atomic_load(&is_counting)) return real_read(file, to, size);
  if (size) {
    long number = atomic_fetch_add(&reads, 1) + 1;
    if (fail_read && number == fail_read) return fails();
  }
  if (read_bytes && size > (size_t)read_bytes) size = (size_t)read_bytes;
  ssize_t got = real_read(file, to, size);
  if (got > 0) atomic_fetch_add(&bytes_read, got);
  return got;
}

ssize_t write(int file, const void *from, size_t size) {
  if (!real_write) *(void **)&real_write = dlsym(RTLD_NEXT, "write");
  if (file != 1 || !atomic_load(&is_counting)) return real_write(file, from, size);
  long before = atomic_load(&bytes_written);
  if (fail_write >= 0) {
    if (before >= fail_write) return fails();
    if (size > (size_t)(fail_write - before)) size = (size_t)(fail_write - before);
  }
  if (write_bytes && size > (size_t)write_bytes) size = (size_t)write_bytes;
  ssize_t took = real_write(file, from, size);
  if (took > 0) atomic_fetch_add(&bytes_written, took);
  return took;
}

static long number_of(const char *name, long otherwise) {
  const char *text = getenv(name);
  return text ? strtol(text, NULL, 10) : otherwise;
}

static void tell_counts(void) {
  char counts[200];
  atomic_store(&is_counting, 0);
  snprintf(counts, sizeof counts, " requests %ld reads %ld bytes %ld written %ld threads %ld\n", atomic_load(&requests), atomic_load(&reads),
           atomic_load(&bytes_read), atomic_load(&bytes_written), atomic_load(&threads));
  tell(counts);
}

/* The end of the program, where its main doesn't return. */
void _exit(int status) {
  tell_counts();
  for (;;) syscall(SYS_exit_group, status);
}

static int counted_main(int count, char **arguments, char **environment) {
  refuse = number_of("WIRE_UP_REFUSE", 0);
  refuse_on = number_of("WIRE_UP_REFUSE_ON", 0);
  read_bytes = number_of("WIRE_UP_READ_BYTES", 0);
  write_bytes = number_of("WIRE_UP_WRITE_BYTES", 0);
  fail_read = number_of("WIRE_UP_FAIL_READ", 0);
  fail_write = number_of("WIRE_UP_FAIL_WRITE", -1);
  error_number = number_of("WIRE_UP_ERROR", EIO);
  told = number_of("WIRE_UP_TOLD", -1);
  *(void **)&real_read = dlsym(RTLD_NEXT, "read");
  *(void **)&real_write = dlsym(RTLD_NEXT, "write");
  *(void **)&real_create = dlsym(RTLD_NEXT, "pthread_create");
  atomic_store(&is_counting, 1);
  int status = real_main(count, arguments, environment);
  tell_counts();
  return status;
}

int __libc_start_main(int (*its_main)(int, char **, char **), int count, char **arguments, void (*init)(void), void (*fini)(void),
                      void (*rtld_fini)(void), void *stack_end) {
  int (*real)(int (*)(int, char **, char **), int, char **, void (*)(void), void (*)(void), void (*)(void), void *);
  *(void **)&real = dlsym(RTLD_NEXT, "__libc_start_main");
  real_main = its_main;
  return real(counted_main, count, arguments, init, fini, rtld_fini, stack_end);
}
