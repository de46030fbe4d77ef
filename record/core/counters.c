/* Calls that are counted. Programs poll millions of times: a poll that found nothing is open until
 * its thread makes another call, and then counted. */
#include "core/counters.h"

#include <pthread.h>
#include <stdlib.h>

/* A poll that is open: the code that made it, and what that asked about. */
struct open_poll {
    const void *site;
    uintptr_t about;
    struct counter *of; /* null where none is */
    bool is_counted;    /* it stays here, so that it isn't counted again */
};

/* The open polls of a thread: each stands at its own place in a table, or behind it where others
 * do. At most half of the table is full. */
#define FEW_BITS 4
static __thread struct open_poll few[1 << FEW_BITS];
static __thread struct {
    struct open_poll *at; /* null before there are any */
    size_t last;          /* the place that was found last */
    unsigned bits;
    volatile bool is_growing; /* a signal may come meanwhile, with a handler that polls */
} table;
__thread unsigned open_polls;
static __thread unsigned uncounted; /* of the open polls */

/* All counters that have counted. */
static struct counter *listed;
static pthread_mutex_t listing = PTHREAD_MUTEX_INITIALIZER;

/* What is done where a thread ends: what it would have done after its polls isn't known. */
static pthread_key_t at_exit;
static pthread_once_t making = PTHREAD_ONCE_INIT;

static void count_quietly(void *of)
{
    (void)of;
    for (size_t n = 0; table.at && n < (size_t)1 << table.bits; n++) {
        if (table.at[n].of && !table.at[n].is_counted)
            __atomic_add_fetch(&table.at[n].of->count, 1, __ATOMIC_RELAXED);
        table.at[n].of = NULL;
    }
    open_polls = uncounted = 0;
    if (table.at != few)
        free(table.at);
    table.at = NULL;
    table.last = 0;
}

static void make_key(void) { pthread_key_create(&at_exit, count_quietly); }

static void list(struct counter *of)
{
    pthread_once(&making, make_key);
    pthread_mutex_lock(&listing);
    if (!of->is_listed) {
        of->next = listed;
        listed = of;
        __atomic_store_n(&of->is_listed, true, __ATOMIC_RELEASE);
    }
    pthread_mutex_unlock(&listing);
}

static void list_once(struct counter *of)
{
    if (!__atomic_load_n(&of->is_listed, __ATOMIC_ACQUIRE))
        list(of);
}

/* --- the table of a thread --- */

static size_t find_own_place(const struct open_poll *it)
{
    uintptr_t bits = ((uintptr_t)it->site ^ it->about * 31) + (uintptr_t)it->of;
    return (size_t)(bits * 0x9e3779b97f4a7c15u >> (64 - table.bits));
}

static size_t step(size_t place) { return (place + 1) & (((size_t)1 << table.bits) - 1); }

/* Answers how many places behind another one is. */
static size_t measure(size_t from, size_t to)
{
    return (to - from) & (((size_t)1 << table.bits) - 1);
}

static bool is_same(const struct open_poll *it, const struct open_poll *other)
{
    return it->site == other->site && it->about == other->about && it->of == other->of;
}

/* Finds the place of a poll, or the free one where it would be. It ends even if none is free. */
static size_t find_place(const struct open_poll *it)
{
    size_t place = find_own_place(it), left = (size_t)1 << table.bits;
    while (--left > 0 && table.at[place].of && !is_same(&table.at[place], it))
        place = step(place);
    return table.last = place;
}

/* Makes a table twice as large. False where memory is refused. */
static bool grow(void)
{
    struct open_poll *before = table.at, *made = calloc((size_t)2 << table.bits, sizeof *made);
    size_t size = (size_t)1 << table.bits;
    if (!made)
        return false;
    table.is_growing = true;
    table.at = made;
    table.bits++;
    for (size_t n = 0; n < size; n++)
        if (before[n].of)
            made[find_place(&before[n])] = before[n];
    table.is_growing = false;
    for (size_t n = 0; before == few && n < size; n++)
        few[n].of = NULL;
    if (before != few)
        free(before);
    return true;
}

/* Opens a poll. One for which there is no memory is counted. */
static void open_poll(const struct open_poll *it)
{
    list_once(it->of);
    if (!open_polls)
        pthread_setspecific(at_exit, few);
    if (2 * ((size_t)open_polls + 1) > (size_t)1 << table.bits && !grow()) {
        __atomic_add_fetch(&it->of->count, 1, __ATOMIC_RELAXED);
        return;
    }
    table.at[find_place(it)] = *it;
    open_polls++;
    uncounted++;
}

/* Closes the poll at a place: those behind it come nearer to their own. */
static void close_poll(size_t place)
{
    size_t first = place;
    uncounted -= uncounted > 0 && !table.at[place].is_counted;
    for (size_t n = step(place); table.at[n].of && n != first; n = step(n))
        if (measure(find_own_place(&table.at[n]), n) >= measure(place, n)) {
            table.at[place] = table.at[n];
            place = n;
        }
    table.at[place].of = NULL;
    open_polls -= open_polls > 0;
}

bool wire_up_has_polls(void) { return uncounted > 0; }

void wire_up_take_poll(struct counter *of, const void *site, uintptr_t about, bool has_found)
{
    const struct open_poll it = {site, about, of, false};
    if ((has_found && !open_polls) || table.is_growing)
        return;
    if (!table.at) {
        table.at = few;
        table.bits = FEW_BITS;
    }
    bool is_last = is_same(&table.at[table.last], &it);
    size_t place = is_last ? table.last : find_place(&it);
    bool is_first = !table.at[place].of;
    if (has_found && !is_first)
        close_poll(place);
    else if (!has_found && is_first)
        open_poll(&it);
}

/* --- counts --- */

void count_call(struct counter *of, write_count *write)
{
    list_once(of);
    unsigned long count = __atomic_add_fetch(&of->count, 1, __ATOMIC_RELAXED);
    if ((count & (count - 1)) == 0)
        write(of, count);
}

void count_polls(write_count *write)
{
    size_t size = (size_t)1 << table.bits, left = open_polls;
    bool are_few = table.bits > FEW_BITS && left < size / 16;
    if (table.is_growing)
        return;
    open_polls = uncounted = 0;
    for (size_t n = 0; left > 0 && n < size; n++) {
        struct counter *of = table.at[n].of;
        table.at[n].of = NULL;
        left -= of != NULL;
        if (of && !table.at[n].is_counted)
            count_call(of, write);
    }
    table.bits -= are_few;
    table.last = 0;
}

void count_passed_polls(write_count *write)
{
    size_t size = (size_t)1 << table.bits, left = uncounted;
    if (table.is_growing)
        return;
    uncounted = 0;
    for (size_t n = 0; left > 0 && n < size; n++) {
        struct open_poll *it = &table.at[n];
        if (!it->of || it->is_counted)
            continue;
        left--;
        it->is_counted = true;
        count_call(it->of, write);
    }
}

void write_counts(write_count *write)
{
    pthread_mutex_lock(&listing);
    for (const struct counter *it = listed; it; it = it->next) {
        unsigned long count = __atomic_load_n(&it->count, __ATOMIC_RELAXED);
        if (count)
            write(it, count);
    }
    pthread_mutex_unlock(&listing);
}
