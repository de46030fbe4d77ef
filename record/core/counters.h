/* Calls that are counted, and polls that found nothing. */
#ifndef WIRE_UP_COUNTERS_H
#define WIRE_UP_COUNTERS_H

#include "record.h"

/* Writes a count. */
typedef void write_count(const struct counter *of, unsigned long count);

/* Counts a call, and writes the count if it has doubled. */
void count_call(struct counter *of, write_count *write);

/* How many polls of this thread found nothing and aren't counted yet. */
extern __thread unsigned open_polls;

/* Counts them. */
void count_polls(write_count *write);

/* Counts them, and keeps them open, so that they aren't counted again. */
void count_passed_polls(write_count *write);

/* Writes each count. */
void write_counts(write_count *write);

#endif
