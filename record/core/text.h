/* Texts of records, beyond what both recorders need. */
#ifndef WIRE_UP_TEXT_H
#define WIRE_UP_TEXT_H

#include "record.h"

/* Adds bytes as one word: printable ASCII as it is, but for the signs that part words, and each
 * other byte as %XX. No byte at all is %. */
void add_word(struct text *to, const char *bytes, size_t length);

/* Puts a number before `end`, and answers where it begins. */
char *put_number(char *end, unsigned long long number);

/* Whether a text begins with another. */
bool begins_with(const char *text, const char *start);

#endif
