/* A library that calls PMIx for a program. */
#include <pmix.h>

pmix_status_t plugin_unpublish(char **keys);

pmix_status_t plugin_unpublish(char **keys)
{
    pmix_status_t status = PMIx_Unpublish(keys, NULL, 0);
    return status;
}
