/* The words of records of PMIx calls. docs/recording.md has their form. */
#ifndef WIRE_UP_WORDS_H
#define WIRE_UP_WORDS_H

#include "record.h"

#include <pmix.h>

void add_key(struct text *to, const char *key);
void add_process(struct text *to, const pmix_proc_t *process);
void add_value(struct text *to, const pmix_value_t *value);

/* Adds the processes of a fence: all of the job where none is named. */
void add_processes(struct text *to, const pmix_proc_t processes[], size_t count);

/* Adds keys of a lookup or an unpublish: a null list is every key. */
void add_keys(struct text *to, char **keys);

/* Adds directives: KEY=VALUE each, and a dash where there is none. */
void add_directives(struct text *to, const pmix_info_t info[], size_t count);

/* Adds what a publish publishes, KEY=VALUE each, then the reserved keys, which are directives. */
void add_published(struct text *to, const pmix_info_t info[], size_t count);

/* Adds what a lookup found: KEY=VALUE each, and a dash where there is nothing. */
void add_found(struct text *to, const pmix_pdata_t found[], size_t count);

#endif
