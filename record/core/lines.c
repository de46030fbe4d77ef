/* Lines of a recording, put together from behind. */
#include "core/lines.h"
#include "core/text.h"

#include <pthread.h>
#include <stdlib.h>
#include <string.h>

/* The text of some numbers at a place: the last `length` of its bytes. Copied whole, it takes fewer
 * instructions than by its length. */
#define ENDING_ROOM 96
struct ending {
    struct numbers what;
    unsigned place;
    size_t length; /* 0 where none is kept */
    char bytes[ENDING_ROOM];
};

/* How many of them a thread keeps. */
#define ENDING_BITS 6
static __thread struct ending *endings;
static pthread_key_t at_exit;
static pthread_once_t making = PTHREAD_ONCE_INIT;

static void forget_endings(void *of)
{
    endings = NULL;
    free(of);
}

static void make_key(void) { pthread_key_create(&at_exit, forget_endings); }

static void put_word(struct line *it, const char *word)
{
    size_t length = strlen(word);
    it->at -= length;
    memcpy(it->at, word, length);
}

static void put_signed(struct line *it, long long number)
{
    if (number == ANY_NUMBER) {
        put_word(it, "any");
    } else if (number < 0) {
        it->at = put_number(it->at, 0ULL - (unsigned long long)number);
        put_byte(it, '-');
    } else {
        it->at = put_number(it->at, (unsigned long long)number);
    }
}

void put_place(struct line *it, unsigned place)
{
    put_byte(it, ' ');
    if (place) {
        it->at = put_number(it->at, place);
        put_byte(it, '@');
        put_byte(it, ' ');
    }
}

/* Puts the text of numbers as if none were kept. */
static void put_newly(struct line *it, const struct numbers *what, unsigned place)
{
    put_byte(it, '\n');
    if (what->last) {
        put_word(it, what->last);
        put_byte(it, ' ');
    }
    for (size_t n = what->count; n > 0; n--) {
        put_signed(it, what->at[n - 1]);
        put_byte(it, ' ');
    }
    put_word(it, what->first);
    put_place(it, place);
}

/* Answers where the text of some numbers is kept, or would be; null where memory is refused. */
static struct ending *find_slot(const struct numbers *what, unsigned place)
{
    if (!endings) {
        pthread_once(&making, make_key);
        endings = calloc((size_t)1 << ENDING_BITS, sizeof *endings);
        pthread_setspecific(at_exit, endings);
    }
    /* (numbers may be as large as any) */
    unsigned long long bits = 11ULL * place + 13ULL * what->count;
    for (size_t n = 0; n < sizeof what->at / sizeof *what->at; n++)
        bits += (2 * n + 1) * (unsigned long long)what->at[n];
    bits *= 0x9e3779b97f4a7c15u;
    return endings ? &endings[bits >> (64 - ENDING_BITS)] : NULL;
}

/* Whether it is the text of these numbers. Words are the same where they stand at one address. */
static bool is_of(const struct ending *it, const struct numbers *what, unsigned place)
{
    return it->length && it->place == place && it->what.count == what->count &&
           it->what.first == what->first && it->what.last == what->last &&
           !memcmp(it->what.at, what->at, sizeof what->at);
}

/* Keeps the text of numbers that a line has alone. */
static void keep(struct ending *it, const struct line *line, const struct numbers *what,
                 unsigned place)
{
    it->what = *what;
    it->place = place;
    it->length = measure_line(line);
    memcpy(it->bytes, line->bytes + LINE_ROOM - ENDING_ROOM, ENDING_ROOM);
}

void put_numbers(struct line *it, const struct numbers *what, unsigned place)
{
    struct ending *kept = find_slot(what, place);
    if (kept && is_of(kept, what, place)) {
        memcpy(it->bytes + LINE_ROOM - ENDING_ROOM, kept->bytes, ENDING_ROOM);
        it->at -= kept->length;
        return;
    }
    put_newly(it, what, place);
    if (kept && measure_line(it) <= ENDING_ROOM)
        keep(kept, it, what, place);
}
