/* Texts that grow. */
#include "core/text.h"

#include <stdarg.h>
#include <stdlib.h>
#include <string.h>

void wire_up_text_open(struct text *to)
{
    to->at = to->first;
    to->length = 0;
    to->room = sizeof to->first;
    to->is_lost = false;
}

void wire_up_text_close(struct text *to)
{
    if (to->at != to->first)
        free(to->at);
}

/* Makes room for `more` bytes and a final zero. False where memory is refused. */
static bool widen(struct text *to, size_t more)
{
    if (to->is_lost)
        return false;
    if (to->length + more < to->room)
        return true;
    bool is_first = to->at == to->first;
    size_t room = 2 * (to->length + more) + 1;
    char *at = is_first ? malloc(room) : realloc(to->at, room);
    if (!at) {
        to->is_lost = true;
        return false;
    }
    if (is_first)
        memcpy(at, to->first, to->length);
    to->at = at;
    to->room = room;
    return true;
}

static void add_bytes(struct text *to, const char *bytes, size_t length)
{
    if (!widen(to, length))
        return;
    memcpy(to->at + to->length, bytes, length);
    to->length += length;
}

static void add_byte(struct text *to, char byte)
{
    if (to->length + 1 < to->room || widen(to, 1))
        to->at[to->length++] = byte;
}

/* The digits of all numbers up to 99. */
static const char pairs[] =
    "00010203040506070809101112131415161718192021222324252627282930313233343536373839404142434445464748"
    "49505152535455565758596061626364656667686970717273747576777879808182838485868788899091929394959697"
    "9899";

char *put_number(char *end, unsigned long long number)
{
    for (; number >= 100; number /= 100)
        memcpy(end -= 2, pairs + 2 * (number % 100), 2);
    if (number >= 10)
        return memcpy(end - 2, pairs + 2 * number, 2);
    *--end = (char)('0' + number);
    return end;
}

static char *put_hexadecimal(char *end, unsigned long long number)
{
    do
        *--end = "0123456789abcdef"[number & 15];
    while (number >>= 4);
    return end;
}

/* Adds a number, with zeros before it up to a width. */
static void add_number(struct text *to, unsigned long long number, bool is_decimal, int width)
{
    char digits[24], *end = digits + sizeof digits;
    char *at = is_decimal ? put_number(end, number) : put_hexadecimal(end, number);
    while (end - at < width && at > digits)
        *--at = '0';
    add_bytes(to, at, (size_t)(end - at));
}

static void add_signed(struct text *to, long long number, int width)
{
    if (number < 0)
        add_byte(to, '-');
    add_number(to, number < 0 ? 0ULL - (unsigned long long)number : (unsigned long long)number,
               true, width);
}

/* How a number is written: from `%06ld`, the zeros, the size, and the letter. */
struct form {
    int width, longs;
    char letter;
};

/* Reads a form behind its percent sign. Answers where it ends. */
static const char *read_form(const char *at, struct form *it)
{
    it->width = it->longs = 0;
    for (; *at >= '0' && *at <= '9'; at++)
        it->width = 10 * it->width + *at - '0';
    for (; *at == 'l' || *at == 'z'; at++)
        it->longs++;
    it->letter = *at;
    return *at ? at + 1 : at;
}

/* A number of the next word that was given. */
#define TAKE(words, longs, type) \
    ((longs) > 1 ? va_arg(words, type long long) : (longs) ? va_arg(words, type long) : va_arg(words, type int))

/* Adds what a form stands for: the next of the words. */
static void add_formed(struct text *to, const struct form *form, va_list *words)
{
    if (form->letter == 'd') {
        add_signed(to, TAKE(*words, form->longs, ), form->width);
    } else if (form->letter == 'u' || form->letter == 'x') {
        add_number(to, TAKE(*words, form->longs, unsigned), form->letter == 'u', form->width);
    } else if (form->letter == 's') {
        const char *word = va_arg(*words, const char *);
        add_bytes(to, word, strlen(word));
    } else {
        add_byte(to, form->letter == 'c' ? (char)va_arg(*words, int) : form->letter);
    }
}

/* A printf of what records need: it is called for each of them. */
void wire_up_text_add(struct text *to, const char *format, ...)
{
    struct form form;
    va_list words;
    va_start(words, format);
    while (*format)
        if (*format == '%') {
            format = read_form(format + 1, &form);
            add_formed(to, &form, &words);
        } else {
            add_byte(to, *format++);
        }
    va_end(words);
    to->at[to->length] = 0;
}

static bool stands_plainly(unsigned char byte)
{
    return byte > 32 && byte < 127 && !strchr("%,:=", byte);
}

void add_word(struct text *to, const char *bytes, size_t length)
{
    static const char digits[] = "0123456789ABCDEF";
    if (!length)
        wire_up_text_add(to, "%%");
    if (!widen(to, 3 * length))
        return;
    for (size_t n = 0; n < length; n++) {
        unsigned char byte = (unsigned char)bytes[n];
        if (stands_plainly(byte)) {
            to->at[to->length++] = bytes[n];
        } else {
            to->at[to->length++] = '%';
            to->at[to->length++] = digits[byte >> 4];
            to->at[to->length++] = digits[byte & 15];
        }
    }
    to->at[to->length] = 0;
}

void wire_up_text_add_word(struct text *to, const char *word)
{
    add_word(to, word, strlen(word));
}

bool begins_with(const char *text, const char *start)
{
    return !strncmp(text, start, strlen(start));
}
