/* The words of records of PMIx calls. */
#include "pmix/words.h"
#include "core/holds.h"
#include "core/text.h"

#include <string.h>

/* The longest text that is noted whole. A plan has values of up to 255 bytes. */
#define LONGEST_TEXT 1024
/* How many letters tell bytes from others. */
#define LETTERS 8

void add_key(struct text *to, const char *key) { add_word(to, key, strnlen(key, PMIX_MAX_KEYLEN)); }

/* --- processes --- */

void add_process(struct text *to, const pmix_proc_t *process)
{
    if (!process) {
        wire_up_text_add(to, "none");
        return;
    }
    add_word(to, process->nspace, strnlen(process->nspace, PMIX_MAX_NSLEN));
    if (process->rank == PMIX_RANK_WILDCARD)
        wire_up_text_add(to, ":*");
    else if (process->rank <= PMIX_RANK_VALID)
        wire_up_text_add(to, ":%u", process->rank);
    else
        wire_up_text_add(to, ":undefined");
}

void add_processes(struct text *to, const pmix_proc_t processes[], size_t count)
{
    if (!processes || !count)
        wire_up_text_add(to, "all");
    for (size_t n = 0; processes && n < count; n++) {
        wire_up_text_add(to, n ? "," : "");
        add_process(to, &processes[n]);
    }
}

/* --- values --- */

/* Adds letters that tell bytes from others (FNV-1a, four bits a letter: digits would look like numbers
 * of a run). */
static void add_letters(struct text *to, const char *bytes, size_t length)
{
    unsigned long long sum = 0xcbf29ce484222325;
    char letters[LETTERS + 1] = "";
    for (size_t n = 0; n < length; n++)
        sum = (sum ^ (unsigned char)bytes[n]) * 0x100000001b3;
    sum ^= sum >> 4 * LETTERS;
    for (int n = 0; n < LETTERS; n++)
        letters[n] = (char)('a' + (sum >> 4 * n & 0xf));
    wire_up_text_add(to, ":%s", letters);
}

/* Adds what is noted of bytes that aren't noted themselves: how many they are. */
static void add_size(struct text *to, const char *kind, const char *bytes, size_t length)
{
    wire_up_text_add(to, "%s:%zu", kind, length);
    if (is_compared && bytes)
        add_letters(to, bytes, length);
}

static void add_string(struct text *to, const char *string)
{
    size_t length = string ? strlen(string) : 0;
    if (!string) {
        wire_up_text_add(to, "none");
    } else if (length > LONGEST_TEXT) {
        add_size(to, "long", string, length);
    } else {
        wire_up_text_add(to, "text:");
        add_word(to, string, length);
    }
}

/* Adds a number after its size in bytes. */
static void add_signed(struct text *to, int size, long long number)
{
    wire_up_text_add(to, "number:%d:%lld", size, number);
}

static void add_unsigned(struct text *to, int size, unsigned long long number)
{
    wire_up_text_add(to, "number:%d:%llu", size, number);
}

/* Adds a real number to millionths: of one that isn't zero at least one. What is too large, or is no
 * number, has its size alone. */
static void add_real(struct text *to, size_t size, double number)
{
    double most = 1e12, millionths = (number < 0 ? -number : number) * 1e6;
    if (!(number > -most && number < most)) {
        wire_up_text_add(to, "other:%zu", size);
        return;
    }
    unsigned long long count = (unsigned long long)millionths;
    count += count == 0 && number != 0;
    wire_up_text_add(to, "real:%zu:%s%llu.%06llu", size, number < 0 ? "-" : "", count / 1000000,
                     count % 1000000);
}

static void add_time(struct text *to, const struct timeval *time)
{
    add_real(to, sizeof *time, (double)time->tv_sec + (double)time->tv_usec / 1e6);
}

/* Adds a value of a type that isn't text or bytes. */
static void add_plain(struct text *to, const pmix_value_t *value)
{
    switch (value->type) {
    case PMIX_BOOL: add_signed(to, 1, value->data.flag); break;
    case PMIX_BYTE:
    case PMIX_UINT8: add_unsigned(to, 1, value->data.uint8); break;
    case PMIX_PERSIST: add_unsigned(to, 1, value->data.persist); break;
    case PMIX_INT8: add_signed(to, 1, value->data.int8); break;
    case PMIX_UINT16: add_unsigned(to, 2, value->data.uint16); break;
    case PMIX_INT16: add_signed(to, 2, value->data.int16); break;
    case PMIX_UINT:
    case PMIX_UINT32:
    case PMIX_PROC_RANK: add_unsigned(to, 4, value->data.uint32); break;
    case PMIX_INT:
    case PMIX_INT32:
    case PMIX_STATUS: add_signed(to, 4, value->data.int32); break;
    case PMIX_SIZE:
    case PMIX_UINT64: add_unsigned(to, 8, value->data.uint64); break;
    case PMIX_INT64: add_signed(to, 8, value->data.int64); break;
    case PMIX_PID: add_signed(to, sizeof value->data.pid, value->data.pid); break;
    case PMIX_DATA_RANGE: add_unsigned(to, 1, value->data.range); break;
    case PMIX_TIME: add_signed(to, sizeof value->data.time, value->data.time); break;
    case PMIX_FLOAT: add_real(to, sizeof value->data.fval, value->data.fval); break;
    case PMIX_DOUBLE: add_real(to, sizeof value->data.dval, value->data.dval); break;
    case PMIX_TIMEVAL: add_time(to, &value->data.tv); break;
    case PMIX_UNDEF: wire_up_text_add(to, "none"); break;
    default: wire_up_text_add(to, "type:%u", (unsigned)value->type);
    }
}

static void add_pair(struct text *to, bool is_first, const char *key, const pmix_value_t *value);

/* Adds an array: of keys and values these too, as one word, where the run is compared. */
static void add_array(struct text *to, const pmix_data_array_t *array)
{
    const pmix_info_t *info = array && array->type == PMIX_INFO ? array->array : NULL;
    struct text inner;
    wire_up_text_add(to, "type:%u", (unsigned)PMIX_DATA_ARRAY);
    if (!is_compared || !info)
        return;
    wire_up_text_open(&inner);
    for (size_t n = 0; n < array->size; n++)
        add_pair(&inner, n == 0, info[n].key, &info[n].value);
    wire_up_text_add(to, ":");
    add_word(to, inner.is_lost ? "" : inner.at, inner.is_lost ? 0 : inner.length);
    wire_up_text_close(&inner);
}

void add_value(struct text *to, const pmix_value_t *value)
{
    if (!value) {
        wire_up_text_add(to, "none");
        return;
    }
    switch (value->type) {
    case PMIX_STRING: add_string(to, value->data.string); break;
    case PMIX_BYTE_OBJECT:
    case PMIX_COMPRESSED_STRING:
    case PMIX_COMPRESSED_BYTE_OBJECT:
    case PMIX_REGEX: add_size(to, "bytes", value->data.bo.bytes, value->data.bo.size); break;
    case PMIX_DATA_ARRAY: add_array(to, value->data.darray); break;
    default: add_plain(to, value);
    }
}

/* --- lists --- */

/* Adds one of a list: a comma before all but the first, the key, and the value. */
static void add_pair(struct text *to, bool is_first, const char *key, const pmix_value_t *value)
{
    wire_up_text_add(to, is_first ? "" : ",");
    add_key(to, key);
    wire_up_text_add(to, "=");
    add_value(to, value);
}

static bool is_reserved(const char *key) { return begins_with(key, "pmix"); }

/* Adds one directive. One without a value is true. */
static void add_directive(struct text *to, bool is_first, const pmix_info_t *info)
{
    static const pmix_value_t is_true = {.type = PMIX_BOOL, .data.flag = true};
    bool has_value = info->value.type != PMIX_UNDEF;
    add_pair(to, is_first, info->key, has_value ? &info->value : &is_true);
}

void add_directives(struct text *to, const pmix_info_t info[], size_t count)
{
    wire_up_text_add(to, " ");
    for (size_t n = 0; info && n < count; n++)
        add_directive(to, n == 0, &info[n]);
    if (!info || !count)
        wire_up_text_add(to, "-");
}

/* Adds the directives of a list whose other keys are published. */
static void add_reserved(struct text *to, const pmix_info_t info[], size_t count)
{
    bool is_first = true;
    wire_up_text_add(to, " ");
    for (size_t n = 0; info && n < count; n++)
        if (is_reserved(info[n].key)) {
            add_directive(to, is_first, &info[n]);
            is_first = false;
        }
    if (is_first)
        wire_up_text_add(to, "-");
}

void add_published(struct text *to, const pmix_info_t info[], size_t count)
{
    bool is_first = true;
    for (size_t n = 0; info && n < count; n++)
        if (!is_reserved(info[n].key)) {
            add_pair(to, is_first, info[n].key, &info[n].value);
            is_first = false;
        }
    wire_up_text_add(to, is_first ? "-" : "");
    add_reserved(to, info, count);
}

void add_found(struct text *to, const pmix_pdata_t found[], size_t count)
{
    for (size_t n = 0; found && n < count; n++)
        add_pair(to, n == 0, found[n].key, &found[n].value);
    if (!found || !count)
        wire_up_text_add(to, "-");
}

void add_keys(struct text *to, char **keys)
{
    if (!keys)
        wire_up_text_add(to, "every");
    else if (!*keys)
        wire_up_text_add(to, "-");
    for (size_t n = 0; keys && keys[n]; n++) {
        wire_up_text_add(to, n ? ",:" : ":");
        add_word(to, keys[n], strlen(keys[n]));
    }
}
