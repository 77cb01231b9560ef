/* Shows old routes being flushed once a prefix is gone everywhere: flush FILE BEFORE GONE.
 * The list GONE names nobody. The routers hold what they settled on for the list BEFORE, but for its routers' own routes, and are
 * activated in the order of their numbers. Prints how many routes they hold after each round of those promised, the highest rank plus
 * two; or the refusal.
 * Build, at the root of the repository and after `./build library`:
 * gcc -O2 -Iinclude examples/flush.c -Ltarget/staticlib -lrrp -o target/flush */
#include <string.h>

#include "read_plan.h"

/* What the routers settle on for a list, nothing if it is suspect, and the highest rank. Returns the refusal. */
static uint8_t settle(const uint8_t *plan, size_t length, size_t list, uint8_t table[RRP_MAX_TABLE], uint64_t *highest)
{
    uint8_t labels[RRP_MAX_ROUTERS], ranks[RRP_MAX_ROUTERS], cycle[RRP_MAX_ROUTERS], stable;
    memset(table, RRP_NONE, RRP_MAX_TABLE);
    return rrp_verdict(plan, length, list, labels, sizeof labels, ranks, sizeof ranks, table, RRP_MAX_TABLE, cycle, sizeof cycle,
                       &stable, highest);
}

/* Takes the routers' own routes out of a table, which is what a router that is not listed may hold. */
static void withdraw_own(uint8_t table[RRP_MAX_TABLE])
{
    for (size_t v = 0; v < RRP_MAX_ROUTERS; v++)
        if (table[2 * v + 1] == v)
            table[2 * v] = table[2 * v + 1] = RRP_NONE;
}

static unsigned routes(const uint8_t table[RRP_MAX_TABLE])
{
    unsigned held = 0;
    for (size_t v = 0; v < RRP_MAX_ROUTERS; v++)
        held += table[2 * v] != RRP_NONE;
    return held;
}

/* Prints a line a round. Returns the refusal. */
static uint8_t flush(const uint8_t *plan, size_t length, size_t list, uint64_t promised, uint8_t table[RRP_MAX_TABLE])
{
    uint8_t sequence[RRP_MAX_ROUTERS], exhausted;
    uint64_t routers, lists, applied, rounds;
    uint8_t refused = rrp_size(plan, length, &routers, &lists);
    for (size_t v = 0; v < RRP_MAX_ROUTERS; v++)
        sequence[v] = (uint8_t)v;
    for (uint64_t round = 0; refused == RRP_OK && round <= promised; round++) {
        printf("%u routes after %llu of %llu rounds\n", routes(table), (unsigned long long)round, (unsigned long long)promised);
        refused = rrp_run(plan, length, list, sequence, routers, routers, table, RRP_MAX_TABLE, &applied, &rounds, &exhausted);
    }
    return refused;
}

int main(int count, char **words)
{
    static uint8_t plan[RRP_MAX_PLAN + 1];
    size_t asked[2];
    if (count != 4 || !read_numbers(words + 2, asked, 2)) {
        fprintf(stderr, "usage: flush FILE BEFORE GONE\n");
        return 2;
    }
    size_t length = read_plan(words[1], plan);

    uint8_t old[RRP_MAX_TABLE], settled[RRP_MAX_TABLE];
    uint64_t start, named, highest;
    /* A list of nobody is told from one that is not there by the refusal: it is an empty part of the plan. */
    uint8_t refused = rrp_list(plan, length, asked[1], &start, &named);
    if (refused == RRP_OK && named > 0) {
        printf("list %zu names %llu\n", asked[1], (unsigned long long)named);
        return 1;
    }
    if (refused == RRP_OK)
        refused = settle(plan, length, asked[0], old, &highest);
    if (refused == RRP_OK)
        refused = settle(plan, length, asked[1], settled, &highest);
    if (refused == RRP_OK) {
        withdraw_own(old);
        refused = flush(plan, length, asked[1], highest + 2, old);
    }
    if (refused != RRP_OK)
        printf("refused %u\n", (unsigned)refused);
    return refused != RRP_OK;
}
