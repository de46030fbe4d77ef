/* The file of a process, and the lines in it. A line is put in memory that is the file's, so that
 * nothing is lost when the process dies: then zeros may follow the last line. Where a file can't be
 * memory, each line goes out by one `write`. */
#define _GNU_SOURCE
#include "core/recording.h"
#include "core/counters.h"
#include "core/holds.h"
#include "core/lines.h"
#include "core/text.h"

#include <errno.h>
#include <fcntl.h>
#include <limits.h>
#include <pthread.h>
#include <signal.h>
#include <stdio.h>
#include <stdlib.h>
#include <string.h>
#include <sys/mman.h>
#include <sys/resource.h>
#include <sys/stat.h>
#include <time.h>
#include <unistd.h>

/* The program gets the same descriptors as without a recorder: the file's is this at least. */
#define LOWEST_DESCRIPTOR 900
/* How much of the file is memory at first and at most. */
#define LEAST_WINDOW ((size_t)1 << 16)
#define MOST_WINDOW ((size_t)1 << 22)

static struct {
    int file;      /* where the records go; -1 before it is opened and after a failed write */
    pid_t process; /* that opened it: a fork of it isn't the same process of the job */
    const volatile char *mark; /* set in that process, and zero in a fork of it; may be null */
    volatile char *child;      /* set once a fork of it has called PMIx or MPI; may be null */
    dev_t device;
    ino_t inode;
    char path[PATH_MAX];
    struct timespec began;
} recording = {.file = -1};
static unsigned long calls, threads;
static __thread unsigned long own_thread;

/* Whether this thread writes: a signal handler that calls PMIx or MPI meanwhile is told so. */
static __thread volatile bool is_writing;

/* What has been written, and the part of the file that is memory. */
static struct {
    bool is_locked;
    char *window; /* null where there is none */
    off_t start;  /* of the window, in the file */
    size_t room;  /* of the window */
    off_t end;    /* of what is written */
    off_t size;   /* of the file */
    size_t wanted;
    bool has_no_windows;
} written = {.wanted = LEAST_WINDOW};

/* --- the file --- */

/* Stops recording, and says why, once: whoever takes the descriptor away says it. */
static void give_up(const char *why)
{
    if (__atomic_exchange_n(&recording.file, -1, __ATOMIC_ACQ_REL) >= 0)
        fprintf(stderr, "wire_up-record: %s: %s; what follows isn't recorded\n", recording.path,
                why);
}

static void give_up_for(int error)
{
    bool is_full = error == ENOSPC || error == EFBIG || error == EDQUOT;
    give_up(is_full ? "no room" : strerror(error));
}

/* Whether a descriptor is still the file that was opened: a program may close descriptors that it
 * doesn't know. */
static bool is_still_open(int file)
{
    struct stat it;
    return fstat(file, &it) == 0 && it.st_dev == recording.device && it.st_ino == recording.inode;
}

/* Some bytes that are written to a file; or room for so many, if there are none. */
struct piece {
    const char *bytes;
    size_t length;
};

/* Writes a piece at an offset. Answers the error, 0 for none. */
static int change_file(int file, struct piece what, off_t at)
{
    if (!what.bytes)
        return posix_fallocate(file, at, (off_t)what.length);
    ssize_t wrote = pwrite(file, what.bytes, what.length, at);
    if (wrote < 0)
        return errno;
    return (size_t)wrote < what.length ? ENOSPC : 0;
}

/* Writes a piece without the signal that a limit of file sizes brings: the program isn't to see
 * it. Nor is a thread cancelled here, with the lock. */
static int change_quietly(int file, struct piece what, off_t at)
{
    sigset_t of_size, before, pending;
    int state;
    pthread_setcancelstate(PTHREAD_CANCEL_DISABLE, &state);
    sigemptyset(&of_size);
    sigaddset(&of_size, SIGXFSZ);
    pthread_sigmask(SIG_BLOCK, &of_size, &before);
    sigpending(&pending);
    int error;
    do
        error = change_file(file, what, at);
    while (error == EINTR);
    if (error == EFBIG && !sigismember(&pending, SIGXFSZ))
        sigtimedwait(&of_size, NULL, &(struct timespec){0, 0});
    pthread_sigmask(SIG_SETMASK, &before, NULL);
    pthread_setcancelstate(state, NULL);
    return error;
}

/* --- the window: all with the lock --- */

static void close_window(void)
{
    if (written.window)
        munmap(written.window, written.room);
    written.window = NULL;
}

/* Cuts the file behind what is written. */
static void trim(int file)
{
    close_window();
    if (written.size > written.end && is_still_open(file) && ftruncate(file, written.end) == 0)
        written.size = written.end;
}

/* Writes zeros into the file, from one offset up to another. So its pages come many at a time: one
 * by one, each takes as long as many records. Answers the error, 0 for none. */
static int fill(int file, off_t from, off_t to)
{
    static char zeros[LEAST_WINDOW];
    int error = 0;
    for (off_t at = from; !error && at < to; at += (off_t)sizeof zeros) {
        size_t left = (size_t)(to - at);
        size_t length = left < sizeof zeros ? left : sizeof zeros;
        error = change_quietly(file, (struct piece){zeros, length}, at);
    }
    return error;
}

/* Makes the file as long as that, with zeros. Answers the error, 0 for none. */
static int lengthen(int file, off_t size)
{
    off_t before = written.size;
    if (size <= before)
        return 0;
    int error = change_quietly(file, (struct piece){NULL, (size_t)(size - before)}, before);
    if (error)
        return error;
    written.size = size;
    return fill(file, before, size);
}

/* Maps the pages of a window at once, too. */
static void populate(void *window, size_t room)
{
#ifdef MADV_POPULATE_WRITE
    madvise(window, room, MADV_POPULATE_WRITE);
#else
    (void)window;
    (void)room;
#endif
}

/* Makes the file as long as that, and maps it from the page of the end of what is written. Answers
 * the error, 0 for none. */
static int map_up_to(int file, off_t size)
{
    off_t page = (off_t)sysconf(_SC_PAGESIZE);
    int error = lengthen(file, size);
    if (error)
        return error;
    written.start = written.end / page * page;
    written.room = (size_t)(written.size - written.start);
    void *at = mmap(NULL, written.room, PROT_READ | PROT_WRITE, MAP_SHARED, file, written.start);
    if (at == MAP_FAILED)
        return errno;
    populate(at, written.room);
    written.window = at;
    return 0;
}

/* Opens a window with room for so many bytes more: a large one, or where there is no room for that,
 * just what they need. False where there is none; then `error` says why. */
static bool open_window(int file, size_t length, int *error)
{
    close_window();
    size_t large = length > written.wanted ? length : written.wanted;
    *error = map_up_to(file, written.end + (off_t)large);
    if (*error)
        *error = map_up_to(file, written.end + (off_t)length);
    if (!*error && written.wanted < MOST_WINDOW)
        written.wanted *= 2;
    return !*error;
}

static bool has_room(size_t length)
{
    return written.window && (size_t)(written.end - written.start) + length <= written.room;
}

/* Writes bytes at the end by a call of the system. Answers the error, 0 for none. */
static int write_plainly(int file, struct piece it)
{
    if (!it.length)
        return 0;
    int error = change_quietly(file, it, written.end);
    if (!error)
        written.end += (off_t)it.length;
    if (written.size < written.end)
        written.size = written.end;
    return error;
}

/* Makes room for bytes at the end. Answers the error, 0 for none. */
static int make_room(int file, size_t length)
{
    int error = 0;
    if (!is_still_open(file))
        return EBADF;
    if (!written.has_no_windows && !open_window(file, length, &error)) {
        if (error == ENOSPC || error == EFBIG || error == EDQUOT)
            return error;
        written.has_no_windows = true;
    }
    return 0;
}

/* Adds bytes in the window, which has room for them. */
static void add_piece(struct piece it)
{
    memcpy(written.window + (written.end - written.start), it.bytes, it.length);
    written.end += (off_t)it.length;
}

/* Adds two pieces at the end. Answers the error, 0 for none. */
static int add_pieces(int file, struct piece first, struct piece second)
{
    size_t length = first.length + second.length;
    int error = has_room(length) ? 0 : make_room(file, length);
    if (error)
        return error;
    if (written.has_no_windows) {
        error = write_plainly(file, first);
        return error ? error : write_plainly(file, second);
    }
    add_piece(first);
    add_piece(second);
    return 0;
}

/* Begins to write; false, with the end of recording, where this thread writes already. */
static bool begin_writing(void)
{
    if (is_writing) {
        give_up("a signal handler called PMIx or MPI while a record was written");
        return false;
    }
    is_writing = true;
    return true;
}

/* Writes two pieces, or gives up, where writing has begun. It ends then. */
static bool end_writing(int file, struct piece first, struct piece second)
{
    wire_up_lock(&written.is_locked);
    int error = add_pieces(file, first, second);
    if (error)
        trim(file);
    wire_up_unlock(&written.is_locked);
    is_writing = false;
    if (error == EBADF)
        give_up("the program closed it");
    else if (error)
        give_up_for(error);
    return !error;
}

/* Writes two pieces, or gives up. */
static bool write_whole(int file, struct piece first, struct piece second)
{
    return begin_writing() && end_writing(file, first, second);
}

/* --- records --- */

/* Whether this process opened the file. The mark says so without a call of the system. */
static bool is_own_process(void)
{
    return recording.mark ? *recording.mark : getpid() == recording.process;
}

/* Answers the descriptor of the file in this process; -1 where nothing is to be written. */
static int get_file(void)
{
    int file = __atomic_load_n(&recording.file, __ATOMIC_ACQUIRE);
    return file >= 0 && is_own_process() ? file : -1;
}

bool wire_up_is_recording(void) { return get_file() >= 0; }

bool wire_up_takes_calls(void)
{
    if (__atomic_load_n(&recording.file, __ATOMIC_ACQUIRE) < 0)
        return false;
    bool is_own = is_own_process();
    if (!is_own && recording.child)
        *recording.child = 1;
    return is_own;
}

/* Each thread takes some numbers at once. */
#define NUMBERS_AT_ONCE 64
static __thread unsigned long next_number, last_number;

unsigned long wire_up_number(void)
{
    if (next_number == last_number) {
        last_number = __atomic_add_fetch(&calls, NUMBERS_AT_ONCE, __ATOMIC_RELAXED);
        next_number = last_number - NUMBERS_AT_ONCE;
    }
    return ++next_number;
}

/* Answers the number of this thread, which it gets with its first record. */
static unsigned long number_thread(void)
{
    if (!own_thread)
        own_thread = __atomic_add_fetch(&threads, 1, __ATOMIC_RELAXED);
    return own_thread;
}

/* A clock that is read in no time: it goes on every few milliseconds. */
#define CLOCK CLOCK_MONOTONIC_COARSE

/* The number of a thread and the time, as they stand in its records: from ` 1 0.123456` on. */
#define STAMP_ROOM 48
struct stamp {
    struct timespec time;
    char bytes[STAMP_ROOM];
    unsigned start;
};
static __thread struct stamp last_stamp;

/* Writes the number of this thread, and the seconds since the file was opened. */
static void make_stamp(struct stamp *to)
{
    long long since = (to->time.tv_sec - recording.began.tv_sec) * 1000000000LL +
                      to->time.tv_nsec - recording.began.tv_nsec;
    unsigned microseconds = (unsigned)(since / 1000 % 1000000);
    /* The first of seven digits gives way to the point. */
    char *at = put_number(to->bytes + STAMP_ROOM, 1000000 + microseconds);
    *at = '.';
    at = put_number(at, (unsigned long long)since / 1000000000);
    *--at = ' ';
    at = put_number(at, number_thread());
    *--at = ' ';
    to->start = (unsigned)(at - to->bytes);
}

/* Puts the number of this thread and the time. */
static void put_stamp(struct line *it)
{
    struct stamp *last = &last_stamp;
    struct timespec now;
    clock_gettime(CLOCK, &now);
    if (!last->start || now.tv_nsec != last->time.tv_nsec || now.tv_sec != last->time.tv_sec) {
        last->time = now;
        make_stamp(last);
    }
    memcpy(it->at - STAMP_ROOM, last->bytes, STAMP_ROOM);
    it->at -= STAMP_ROOM - last->start;
}

/* Puts what all records begin with: the sign, the number, the thread and the time. */
static void put_start(struct line *it, char sign, unsigned long number)
{
    put_stamp(it);
    it->at = put_number(it->at, number);
    put_byte(it, ' ');
    put_byte(it, sign);
}

/* Answers what is put together as a piece. */
static struct piece take_line(const struct line *it)
{
    return (struct piece){it->at, measure_line(it)};
}

/* Writes one line: what all records begin with, and the text, which ends with its line then. */
static void write_line(int file, char sign, unsigned long number, unsigned place, struct text *what)
{
    struct line start;
    wire_up_text_add(what, "\n");
    if (what->is_lost) {
        write_whole(file, (struct piece){"lost\n", 5}, (struct piece){"", 0});
        return;
    }
    open_line(&start);
    put_place(&start, place);
    put_start(&start, sign, number);
    write_whole(file, take_line(&start), (struct piece){what->at, what->length});
}

/* Writes what a place stands for. */
static void write_place(int file, const struct place *place)
{
    struct text what;
    wire_up_text_open(&what);
    wire_up_text_add(&what, "%s %u ", place->function ? "line" : "place", place->number);
    add_word(&what, place->module, strlen(place->module));
    if (place->function) {
        wire_up_text_add(&what, " %zu ", place->offset);
        add_word(&what, place->function, strlen(place->function));
    } else {
        wire_up_text_add(&what, " %zx", place->offset);
        if (place->outer)
            wire_up_text_add(&what, " %u", place->outer->number);
    }
    write_line(file, '=', 0, 0, &what);
    wire_up_text_close(&what);
}

/* Writes what a place and those at which it was called stand for, each once. */
static void note_place(int file, struct place *place)
{
    while (place && !__atomic_exchange_n(&place->is_noted, true, __ATOMIC_RELAXED)) {
        write_place(file, place);
        place = place->outer;
    }
}

/* Writes how many calls of a function were counted so far. */
static void write_counted(const struct counter *of, unsigned long count)
{
    int file = get_file();
    if (file < 0)
        return;
    struct text what;
    wire_up_text_open(&what);
    wire_up_text_add(&what, "%s %s %lu", of->what, of->function, count);
    write_line(file, '=', 0, 0, &what);
    wire_up_text_close(&what);
}

void wire_up_note_unseen(const char *kind, const char *which)
{
    struct text what;
    wire_up_text_open(&what);
    wire_up_text_add(&what, "unseen %s ", kind);
    wire_up_text_add_word(&what, which);
    wire_up_write('=', 0, NULL, &what);
    wire_up_text_close(&what);
}

void note_thread(void)
{
    static __thread bool is_noted;
    struct text what;
    if (is_noted || get_file() < 0)
        return;
    is_noted = true;
    if (number_thread() == 1)
        return;
    wire_up_text_open(&what);
    wire_up_text_add(&what, "thread");
    wire_up_write('=', 0, NULL, &what);
    wire_up_text_close(&what);
}

void write_all_counts(void)
{
    if (recording.child && *recording.child)
        wire_up_note_unseen("child", "fork");
    count_polls(write_counted);
    write_counts(write_counted);
}

void wire_up_count_alone(struct counter *of)
{
    if (get_file() >= 0)
        count_call(of, write_counted);
}

void wire_up_count(struct counter *of)
{
    if (get_file() < 0)
        return;
    count_polls(write_counted);
    count_call(of, write_counted);
}

void wire_up_pass_polls(void)
{
    if (get_file() >= 0)
        count_passed_polls(write_counted);
}

void trim_recording(void)
{
    int file = get_file();
    if (file < 0 || is_writing)
        return;
    is_writing = true;
    wire_up_lock(&written.is_locked);
    trim(file);
    wire_up_unlock(&written.is_locked);
    is_writing = false;
}

/* What a process writes after this begins a new window. */
__attribute__((destructor)) static void trim_at_exit(void) { trim_recording(); }

/* Writes what comes before a record: the polls of the thread that found nothing, where a call
 * follows, and what its place stands for. */
static void write_what_is_new(int file, char sign, struct place *place)
{
    if (open_polls && sign != '-')
        count_polls(write_counted);
    if (place && !__atomic_load_n(&place->is_noted, __ATOMIC_RELAXED))
        note_place(file, place);
}

void wire_up_write(char sign, unsigned long number, struct place *place, struct text *what)
{
    int file = get_file();
    if (file < 0)
        return;
    write_what_is_new(file, sign, place);
    write_line(file, sign, number, place ? place->number : 0, what);
}

void wire_up_write_numbers(char sign, unsigned long number, struct place *place,
                           const struct numbers *what)
{
    int file = get_file();
    if (file < 0)
        return;
    struct line line;
    if (named_count && sign == '+')
        hold_numbers(what);
    write_what_is_new(file, sign, place);
    if (!begin_writing())
        return;
    open_line(&line);
    put_numbers(&line, what, place ? place->number : 0);
    put_start(&line, sign, number);
    end_writing(file, take_line(&line), (struct piece){"", 0});
}

/* --- opening --- */

bool has_recording(void) { return recording.file >= 0 || recording.process; }

/* Makes the path of the file: its name has the job, the rank, the host and the process. */
static bool make_path(const char *folder, const struct identity *me, const char *host)
{
    struct text job;
    wire_up_text_open(&job);
    add_word(&job, me->job, me->length);
    for (char *at = job.at; !job.is_lost && *at; at++)
        if (*at == '/')
            *at = '_';
    int length = snprintf(recording.path, sizeof recording.path, "%s/%s.%u.%s.%ld.recording",
                          folder, job.at, me->rank, host, (long)getpid());
    wire_up_text_close(&job);
    return length >= 0 && (size_t)length < sizeof recording.path;
}

/* Gives the file the lowest descriptor that the program won't get, or the highest that there is. */
static int move_up(int file)
{
    struct rlimit most;
    int last = LOWEST_DESCRIPTOR, moved = -1;
    if (getrlimit(RLIMIT_NOFILE, &most) == 0 && most.rlim_cur <= LOWEST_DESCRIPTOR)
        last = (int)most.rlim_cur - 1;
    for (; moved < 0 && last > file; last--)
        moved = fcntl(file, F_DUPFD_CLOEXEC, last);
    if (moved < 0)
        return file;
    close(file);
    return moved;
}

/* Creates the file; -1 where it can't be. */
static int create_file(void)
{
    int opened = open(recording.path, O_RDWR | O_CREAT | O_EXCL | O_CLOEXEC, 0666);
    return opened < 0 ? opened : move_up(opened);
}

/* Writes the first lines, which say which process it is. */
static bool write_head(int file, const struct identity *me, const char *host)
{
    struct timespec today;
    struct text head;
    clock_gettime(CLOCK_REALTIME, &today);
    wire_up_text_open(&head);
    wire_up_text_add(&head, "wire_up-recording 1\nprocess ");
    add_word(&head, me->job, me->length);
    wire_up_text_add(&head, " %u ", me->rank);
    add_word(&head, host, strlen(host));
    wire_up_text_add(&head, " %ld\nbegan %lld.%06ld\nlibrary ", (long)recording.process,
                     (long long)today.tv_sec, today.tv_nsec / 1000);
    add_word(&head, me->version, strlen(me->version));
    wire_up_text_add(&head, "\n");
    struct piece whole = {head.at, head.length};
    bool is_written = !head.is_lost && write_whole(file, whole, (struct piece){"", 0});
    wire_up_text_close(&head);
    return is_written;
}

/* Maps a page, which forks share or copy; null where memory is refused. */
static char *map_page(int sharing)
{
    size_t page = (size_t)sysconf(_SC_PAGESIZE);
    char *made = mmap(NULL, page, PROT_READ | PROT_WRITE, sharing | MAP_ANONYMOUS, -1, 0);
    return made == MAP_FAILED ? NULL : made;
}

/* Makes a mark that no fork of this process has; null where the system can't. */
static const char *make_mark(void)
{
#ifdef MADV_WIPEONFORK
    size_t page = (size_t)sysconf(_SC_PAGESIZE);
    char *made = map_page(MAP_PRIVATE);
    if (!made)
        return NULL;
    *made = 1;
    if (madvise(made, page, MADV_WIPEONFORK) == 0)
        return made;
    munmap(made, page);
#endif
    return NULL;
}

/* Begins the recording in a file that was just created. */
static void begin_file(int file, const struct identity *me, const char *host)
{
    struct stat it;
    if (fstat(file, &it) < 0) {
        close(file);
        return;
    }
    recording.device = it.st_dev;
    recording.inode = it.st_ino;
    recording.process = getpid();
    recording.mark = make_mark();
    recording.child = map_page(MAP_SHARED);
    clock_gettime(CLOCK, &recording.began);
    if (write_head(file, me, host)) {
        __atomic_store_n(&recording.file, file, __ATOMIC_RELEASE);
    } else {
        fprintf(stderr, "wire_up-record: %s: can't be written; nothing is recorded\n",
                recording.path);
        close(file);
    }
}

void open_recording(const struct identity *me)
{
    const char *folder = getenv("WIRE_UP_RECORD");
    char host[256] = "";
    if (!folder || !*folder)
        return;
    gethostname(host, sizeof host - 1);
    if (!make_path(folder, me, host)) {
        fprintf(stderr, "wire_up-record: the path of the recordings is too long; nothing is "
                        "recorded\n");
        return;
    }
    read_holds(folder, me);
    int file = create_file();
    if (file < 0)
        fprintf(stderr, "wire_up-record: %s: %s; nothing is recorded\n", recording.path,
                strerror(errno));
    else
        begin_file(file, me, host);
}
