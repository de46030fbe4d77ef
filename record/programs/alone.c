/* Programs without MPI. Without a word: process 0 publishes a name, and each other looks it up behind a fence. With the word `tool`, it is one
 * process, a tool of PMIx that connects to no server, and puts a key.
 */
#include <pmix.h>
#include <pmix_tool.h>
#include <stdint.h>
#include <string.h>

static void look_up(void)
{
    pmix_pdata_t found;
    PMIX_PDATA_CONSTRUCT(&found);
    strncpy(found.key, "port", PMIX_MAX_KEYLEN);
    PMIx_Lookup(&found, 1, NULL, 0);
}

static int meet(void)
{
    pmix_proc_t me;
    pmix_info_t info;
    if (PMIx_Init(&me, NULL, 0) != PMIX_SUCCESS)
        return 1;
    PMIX_INFO_LOAD(&info, "port", "text", PMIX_STRING);
    if (me.rank == 0)
        PMIx_Publish(&info, 1);
    PMIx_Fence(NULL, 0, NULL, 0);
    if (me.rank > 0)
        look_up();
    return PMIx_Finalize(NULL, 0) != PMIX_SUCCESS;
}

static int put_as_tool(void)
{
    pmix_proc_t me;
    pmix_info_t info[3];
    pmix_value_t value = {.type = PMIX_BOOL, .data.flag = true};
    bool is_alone = true;
    pmix_rank_t rank = 0;
    PMIX_INFO_LOAD(&info[0], PMIX_TOOL_DO_NOT_CONNECT, &is_alone, PMIX_BOOL);
    PMIX_INFO_LOAD(&info[1], PMIX_TOOL_NSPACE, "tool", PMIX_STRING);
    PMIX_INFO_LOAD(&info[2], PMIX_TOOL_RANK, &rank, PMIX_PROC_RANK);
    if (PMIx_tool_init(&me, info, 3) != PMIX_SUCCESS)
        return 1;
    PMIx_Put(PMIX_GLOBAL, "key", &value);
    return PMIx_tool_finalize() != PMIX_SUCCESS;
}

int main(int count, char **words)
{
    return count > 1 && !strcmp(words[1], "tool") ? put_as_tool() : meet();
}
