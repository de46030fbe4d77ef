/* The file that the records of a process go to. docs/recording.md has its form. */
#ifndef WIRE_UP_RECORDING_H
#define WIRE_UP_RECORDING_H

#include "record.h"

/* Which process writes a recording, and the version of its library. */
struct identity {
    const char *job; /* its namespace, of `length` bytes */
    size_t length;
    unsigned rank;
    const char *version;
};

/* Whether a file was opened in this process or in one that it was forked from. */
bool has_recording(void);

/* Opens the file in the folder that WIRE_UP_RECORD names, if it names one, and writes which process
 * it is of. Says on standard error where this fails. */
void open_recording(const struct identity *me);

/* Notes the first call of each thread but the first. */
void note_thread(void);

/* Writes how many calls of each function were counted, and whether a forked child made any. */
void write_all_counts(void);

/* Cuts the file behind what is written, until more comes. */
void trim_recording(void);

#endif
