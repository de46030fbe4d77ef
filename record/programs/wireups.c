/* Wire-ups by PMIx alone, on any number of processes. The first word says which. */
#include <pmix.h>
#include <stdio.h>
#include <string.h>

#define MOST 64
#define CARD "card"
static pmix_proc_t me;
static int rank, size;

static pmix_proc_t process(int of)
{
    pmix_proc_t found = me;
    found.rank = (pmix_rank_t)of;
    return found;
}

static void put(const char *key)
{
    char text[MOST];
    pmix_value_t value = {.type = PMIX_STRING, .data.string = text};
    sprintf(text, "v%d", rank);
    PMIx_Put(PMIX_GLOBAL, key, &value);
}

static void put_card(void)
{
    put(CARD);
    PMIx_Commit();
}

static void get(int of, const char *key, size_t is_now)
{
    pmix_proc_t owner = process(of);
    pmix_value_t *value = NULL;
    pmix_info_t info;
    bool is_true = true;
    PMIX_INFO_LOAD(&info, PMIX_IMMEDIATE, &is_true, PMIX_BOOL);
    PMIx_Get(&owner, key, &info, is_now, &value);
    if (value)
        PMIX_VALUE_RELEASE(value);
}

/* A fence of so many processes, or of all if that is 0. */
static void fence(const int *of, int count, size_t collects)
{
    pmix_proc_t members[MOST];
    pmix_info_t info;
    bool is_true = true;
    for (int i = 0; i < count; i++)
        members[i] = process(of[i]);
    PMIX_INFO_LOAD(&info, PMIX_COLLECT_DATA, &is_true, PMIX_BOOL);
    PMIx_Fence(count ? members : NULL, (size_t)count, &info, collects);
}

static void fence_with(int other, size_t collects)
{
    int members[2] = {other < rank ? other : rank, other < rank ? rank : other};
    fence(members, 2, collects);
}

static void publish(const char *name)
{
    pmix_info_t info;
    PMIX_INFO_LOAD(&info, name, "x", PMIX_STRING);
    PMIx_Publish(&info, 1);
}

static void wait_for(const char *name)
{
    pmix_pdata_t found;
    pmix_info_t info;
    bool is_true = true;
    PMIX_PDATA_CONSTRUCT(&found);
    snprintf(found.key, sizeof found.key, "%s", name);
    PMIX_INFO_LOAD(&info, PMIX_WAIT, &is_true, PMIX_BOOL);
    PMIx_Lookup(&found, 1, &info, 1);
}

static void get_of_others(const char *key, size_t is_now)
{
    for (int i = 0; i < size; i++) {
        if (i != rank)
            get(i, key, is_now);
    }
}

static void direct(void)
{
    put_card();
    get_of_others(CARD, 0);
}

static void cards(void)
{
    put_card();
    fence(NULL, 0, 1);
    get_of_others(CARD, 1);
}

static void cards_self(void)
{
    put_card();
    fence(NULL, 0, 1);
    for (int i = 0; i < size; i++)
        get(i, CARD, 1);
}

static void get_neighbours(size_t first_is_now, size_t second_is_now)
{
    get((rank + 1) % size, CARD, first_is_now);
    get((rank + size - 1) % size, CARD, second_is_now);
}

static void ring(void)
{
    put_card();
    get_neighbours(0, 0);
    fence(NULL, 0, 0);
}

static void ring_now(void)
{
    put_card();
    fence(NULL, 0, 1);
    get_neighbours(1, 1);
}

static void ring_early(void)
{
    put_card();
    get_neighbours(0, 1);
}

static void port_of_root(void)
{
    if (rank == 0)
        publish("port");
    else
        wait_for("port");
}

static void number(char *text, const char *word, int of)
{
    sprintf(text, "%s%d", word, of);
}

static void port_of_each(void)
{
    char name[MOST];
    number(name, "port", rank);
    publish(name);
    for (int i = 0; i < size; i++) {
        number(name, "port", i);
        if (i != rank)
            wait_for(name);
    }
}

static void port_of_next(void)
{
    char name[MOST];
    number(name, "port", rank);
    publish(name);
    number(name, "port", (rank + 1) % size);
    wait_for(name);
}

static void key_for_each(void)
{
    char key[MOST];
    for (int i = 0; i < size; i++) {
        number(key, "pair-", i);
        if (i != rank)
            put(key);
    }
    PMIx_Commit();
    fence(NULL, 0, 1);
    number(key, "pair-", rank);
    get_of_others(key, 0);
}

static void tree(void)
{
    put_card();
    if (rank)
        get((rank - 1) / 2, CARD, 0);
    for (int child = 2 * rank + 1; child < 2 * rank + 3 && child < size; child++)
        get(child, CARD, 0);
}

static void pairs(void)
{
    for (int bit = 1; bit < size; bit <<= 1) {
        if ((rank ^ bit) < size)
            fence_with(rank ^ bit, 0);
    }
}

/* Each meets the one before it and the one behind it, the even ones first the one behind. */
static void meet_neighbours(size_t collects)
{
    for (int i = 0; i < 2; i++) {
        int other = (rank + i) % 2 ? rank - 1 : rank + 1;
        if (other < 0 || other >= size)
            continue;
        fence_with(other, collects);
        if (collects)
            get(other, CARD, 1);
    }
}

static void neighbours(void)
{
    meet_neighbours(0);
}

static void neighbours_cards(void)
{
    put_card();
    meet_neighbours(1);
}

/* Those of a pair, and the first of each pair. */
static void pair_up(int *pair, int *in_pair, int *first, int *of_first)
{
    for (int i = 0; i < size && i < MOST; i++) {
        if (i / 2 == rank / 2)
            pair[(*in_pair)++] = i;
        if (i % 2 == 0)
            first[(*of_first)++] = i;
    }
}

static void meet(const int *of, int count)
{
    if (count > 1)
        fence(of, count, 1);
}

static void get_cards(const int *of, int count)
{
    for (int i = 0; i < count; i++) {
        if (of[i] != rank)
            get(of[i], CARD, 1);
    }
}

static void pair_cards(void)
{
    int pair[MOST], first[MOST], in_pair = 0, of_first = 0;
    put_card();
    pair_up(pair, &in_pair, first, &of_first);
    meet(pair, in_pair);
    get_cards(pair, in_pair);
}

static void leader_cards(void)
{
    int pair[MOST], first[MOST], in_pair = 0, of_first = 0;
    put_card();
    pair_up(pair, &in_pair, first, &of_first);
    meet(pair, in_pair);
    if (rank % 2 == 0)
        meet(first, of_first);
    meet(pair, in_pair);
    get_cards(first, of_first);
}

#define WIREUP(name) {#name, name}
static const struct {
    const char *name;
    void (*run)(void);
} wireups[] = {
    WIREUP(direct), WIREUP(cards), WIREUP(cards_self), WIREUP(ring), WIREUP(ring_now), WIREUP(ring_early),
    WIREUP(port_of_root), WIREUP(port_of_each), WIREUP(port_of_next), WIREUP(key_for_each), WIREUP(tree),
    WIREUP(pairs), WIREUP(neighbours), WIREUP(neighbours_cards), WIREUP(pair_cards), WIREUP(leader_cards),
};

int main(int count, char **words)
{
    pmix_value_t *found;
    pmix_proc_t all;
    if (PMIx_Init(&me, NULL, 0) != PMIX_SUCCESS)
        return 1;
    PMIX_LOAD_PROCID(&all, me.nspace, PMIX_RANK_WILDCARD);
    if (PMIx_Get(&all, PMIX_JOB_SIZE, NULL, 0, &found) != PMIX_SUCCESS)
        return 1;
    rank = (int)me.rank;
    size = (int)found->data.uint32;
    for (size_t i = 0; i < sizeof wireups / sizeof *wireups; i++) {
        if (count > 1 && !strcmp(words[1], wireups[i].name))
            wireups[i].run();
    }
    PMIx_Finalize(NULL, 0);
    return 0;
}
