/* Lines of a recording, put together from behind. */
#ifndef WIRE_UP_LINES_H
#define WIRE_UP_LINES_H

#include "record.h"

/* A line, from `at` on. */
#define LINE_ROOM 256
struct line {
    char bytes[LINE_ROOM];
    char *at;
};

static inline void open_line(struct line *it) { it->at = it->bytes + sizeof it->bytes; }

static inline void put_byte(struct line *it, char byte) { *--it->at = byte; }

static inline size_t measure_line(const struct line *it)
{
    return (size_t)(it->bytes + sizeof it->bytes - it->at);
}

/* Puts the number of a place if it isn't 0, and the space before what the record says. */
void put_place(struct line *it, unsigned place);

/* Puts what stands behind the time in a record of numbers, with the end of the line, into an empty
 * line. A thread keeps such texts: a loop writes the same ones again and again. */
void put_numbers(struct line *it, const struct numbers *what, unsigned place);

#endif
