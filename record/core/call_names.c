/* The names by which calls are found again in another run. `name_call` in
 * python/wire_up_tools/record/showing/naming.py makes the same ones. */
#include "core/call_names.h"
#include "core/text.h"

#include <stdio.h>
#include <string.h>

/* Numbers of so many digits are those of ports, processes and namespaces. */
#define DIGITS_OF_RUN 6
#define DIGITS "0123456789"

/* A name that grows; `is_lost` says that there was no room. */
struct name {
    char *at;
    size_t length;
    bool is_lost;
};

static void add_byte(struct name *to, char byte)
{
    to->is_lost = to->is_lost || to->length + 1 >= NAME_ROOM;
    if (!to->is_lost)
        to->at[to->length++] = byte;
}

/* Adds some bytes, with `#` for each long number. */
static void add_masked(struct name *to, const char *bytes, size_t length)
{
    for (size_t n = 0; n < length;) {
        size_t digits = strspn(bytes + n, DIGITS);
        if (digits >= DIGITS_OF_RUN) {
            add_byte(to, '#');
            n += digits;
        } else {
            add_byte(to, bytes[n]);
            n++;
            for (; digits > 1; digits--, n++)
                add_byte(to, bytes[n]);
        }
    }
}

/* Adds an item of a list: what is behind its last colon and before its value. */
static void add_item(struct name *to, const char *item, size_t length)
{
    const char *value = memchr(item, '=', length);
    size_t end = value ? (size_t)(value - item) : length, start = end;
    while (start > 0 && item[start - 1] != ':')
        start--;
    add_masked(to, item + start, end - start);
}

/* Finds the word of a text that has this index, from 0; its length is set. */
static const char *find_word(const char *text, unsigned index, size_t *length)
{
    for (; index && *text; index--) {
        text += strcspn(text, " ");
        text += *text == ' ';
    }
    *length = strcspn(text, " ");
    return text;
}

/* Adds the item of a word of a text that has an index, from 0, behind a space. False where there are
 * not so many. */
static bool add_item_of(struct name *to, const char *text, unsigned word, unsigned index)
{
    size_t left;
    const char *at = find_word(text, word, &left), *comma;
    for (; index && (comma = memchr(at, ',', left)); index--) {
        left -= (size_t)(comma - at) + 1;
        at = comma + 1;
    }
    comma = memchr(at, ',', left);
    add_byte(to, ' ');
    add_item(to, at, comma ? (size_t)(comma - at) : left);
    return !index;
}

bool name_call(char to[NAME_ROOM], const char *what, unsigned index)
{
    struct name made = {.at = to};
    size_t length;
    const char *verb = find_word(what, 0, &length);
    bool is_bare = begins_with(what, "commit") || begins_with(what, "fence");
    bool is_get = begins_with(what, "get "), is_there = !index;
    add_masked(&made, verb, length);
    if (!is_bare)
        is_there = add_item_of(&made, what, 2, index) && !(is_get && index);
    if (is_get)
        add_item_of(&made, what, 3, 0);
    to[made.is_lost ? 0 : made.length] = 0;
    return is_there;
}

void name_send(char to[NAME_ROOM], const struct numbers *what)
{
    char text[NAME_ROOM];
    struct name made = {.at = to};
    snprintf(text, sizeof text, "send %lld %lld %lld", what->at[0], what->at[1], what->at[2]);
    add_masked(&made, text, strlen(text));
    to[made.length] = 0;
}
