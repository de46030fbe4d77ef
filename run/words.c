/* How statuses, values and keys are written. */
#include "rank.h"

#include <stdio.h>
#include <string.h>

struct named {
    pmix_status_t status;
    const char *name;
};

#define NAMED(status) {status, #status}
static const struct named STATUSES[] = {
    NAMED(PMIX_SUCCESS),
    NAMED(PMIX_ERROR),
    NAMED(PMIX_ERR_NOT_FOUND),
    NAMED(PMIX_ERR_EXISTS_OUTSIDE_SCOPE),
    NAMED(PMIX_ERR_DUPLICATE_KEY),
    NAMED(PMIX_ERR_BAD_PARAM),
    NAMED(PMIX_ERR_TIMEOUT),
    NAMED(PMIX_ERR_INIT),
    NAMED(PMIX_ERR_NOT_SUPPORTED),
    NAMED(PMIX_ERR_UNREACH),
    NAMED(PMIX_ERR_NOMEM),
    NAMED(PMIX_ERR_INVALID_NAMESPACE),
    NAMED(PMIX_ERR_NO_PERMISSIONS),
    NAMED(PMIX_ERR_LOST_CONNECTION),
    NAMED(PMIX_OPERATION_SUCCEEDED),
    NAMED(PMIX_ERR_PARTIAL_SUCCESS),
    NAMED(PMIX_OPERATION_IN_PROGRESS),
    NAMED(PMIX_ERR_TYPE_MISMATCH),
    NAMED(PMIX_ERR_UNPACK_FAILURE),
    NAMED(PMIX_ERR_PACK_FAILURE),
    NAMED(PMIX_ERR_UNPACK_READ_PAST_END_OF_BUFFER),
    NAMED(PMIX_ERR_PROC_TERM_WO_SYNC),
    NAMED(PMIX_ERR_EMPTY),
    NAMED(PMIX_ERR_INVALID_OPERATION),
    NAMED(PMIX_ERR_RESOURCE_BUSY),
    NAMED(PMIX_ERR_OUT_OF_RESOURCE),
    NAMED(PMIX_ERR_COMM_FAILURE),
    NAMED(PMIX_EXISTS),
    NAMED(PMIX_ERR_UNKNOWN_DATA_TYPE),
    NAMED(PMIX_ERR_WOULD_BLOCK),
    NAMED(PMIX_ERR_INVALID_CRED),
};

/* Puts `?` for each character that no word can have. */
static void make_word(char *text)
{
    for (; *text; text++)
        if (*text <= ' ' || *text > '~')
            *text = '?';
}

const char *status_name(pmix_status_t status)
{
    static char text[128];
    for (size_t i = 0; i < sizeof STATUSES / sizeof *STATUSES; i++)
        if (STATUSES[i].status == status)
            return STATUSES[i].name;
    snprintf(text, sizeof text, "PMIX_STATUS(%d,%s)", status, PMIx_Error_string(status));
    make_word(text);
    return text;
}

void write_value(const pmix_value_t *value, char *text, size_t size)
{
    switch (value->type) {
    case PMIX_STRING:
        snprintf(text, size, "%s", value->data.string ? value->data.string : "(null)");
        break;
    case PMIX_PROC_RANK:
        snprintf(text, size, "%u", value->data.rank);
        break;
    case PMIX_UINT16:
        snprintf(text, size, "%u", (unsigned)value->data.uint16);
        break;
    case PMIX_UINT32:
        snprintf(text, size, "%u", value->data.uint32);
        break;
    case PMIX_INT:
        snprintf(text, size, "%d", value->data.integer);
        break;
    case PMIX_INT32:
        snprintf(text, size, "%d", value->data.int32);
        break;
    case PMIX_SIZE:
        snprintf(text, size, "%zu", value->data.size);
        break;
    default:
        snprintf(text, size, "type(%u)", (unsigned)value->type);
    }
    if (!text[0])
        snprintf(text, size, "(empty)");
    make_word(text);
}

const char *library_key(const char *key)
{
    static const char *const spelled[][2] = {
        {"PMIX_RANK", PMIX_RANK},           {"PMIX_LOCAL_RANK", PMIX_LOCAL_RANK},
        {"PMIX_NODE_RANK", PMIX_NODE_RANK}, {"PMIX_JOB_SIZE", PMIX_JOB_SIZE},
        {"PMIX_HOSTNAME", PMIX_HOSTNAME},
    };
    for (size_t i = 0; i < sizeof spelled / sizeof *spelled; i++)
        if (!strcmp(key, spelled[i][0]))
            return spelled[i][1];
    return key;
}
