/* Activates routers of a plan file one by one for a list, from a table of nothing: run FILE LIST LIMIT ROUTER..
 * Prints how many activations were applied, how many rounds ended among them and whether the sequence is longer than the limit, then
 * a line a router: the egress that it holds and from whom, or "nothing".
 * Build, at the root of the repository and after `./build library`:
 * gcc -O2 -Iinclude examples/run.c -Ltarget/staticlib -lrrp -o target/run */
#include <inttypes.h>
#include <string.h>

#include "read_plan.h"

enum { MOST_ROUTERS = 1000 };

/* The routers to activate, a byte each; says whether each is a number that a byte holds. */
static int read_sequence(char **words, size_t count, uint8_t *sequence)
{
    for (size_t i = 0; i < count; i++) {
        size_t router;
        if (!read_numbers(words + i, &router, 1) || router > UINT8_MAX)
            return 0;
        sequence[i] = (uint8_t)router;
    }
    return 1;
}

/* The table in which the routers of the list hold their own routes and the others nothing. Returns the refusal. */
static uint8_t start_table(const uint8_t *plan, size_t length, size_t list, uint8_t table[RRP_MAX_TABLE])
{
    uint64_t start, count;
    uint8_t refused = rrp_list(plan, length, list, &start, &count);
    if (refused != RRP_OK)
        return refused;
    memset(table, RRP_NONE, RRP_MAX_TABLE);
    for (uint64_t i = 0; i < count; i++) {
        uint8_t router = plan[start + i];
        table[2 * router] = table[2 * router + 1] = router;
    }
    return RRP_OK;
}

static void print_table(const uint8_t *table, uint64_t routers)
{
    for (uint64_t v = 0; v < routers; v++) {
        if (table[2 * v] == RRP_NONE)
            printf("%" PRIu64 " nothing\n", v);
        else
            printf("%" PRIu64 " holds %u from %u\n", v, (unsigned)table[2 * v], (unsigned)table[2 * v + 1]);
    }
}

int main(int count, char **words)
{
    static uint8_t plan[RRP_MAX_PLAN + 1], sequence[MOST_ROUTERS];
    size_t asked[2], acts = count > 4 ? (size_t)count - 4 : 0;
    if (count < 4 || acts > MOST_ROUTERS || !read_numbers(words + 2, asked, 2) || !read_sequence(words + 4, acts, sequence)) {
        fprintf(stderr, "usage: run FILE LIST LIMIT ROUTER..\n");
        return 2;
    }
    size_t length = read_plan(words[1], plan);

    uint8_t table[RRP_MAX_TABLE], exhausted;
    uint64_t routers, lists, applied, rounds;
    uint8_t refused = start_table(plan, length, asked[0], table);
    if (refused == RRP_OK)
        refused = rrp_run(plan, length, asked[0], sequence, acts, asked[1], table, sizeof table, &applied, &rounds, &exhausted);
    if (refused == RRP_OK)
        refused = rrp_size(plan, length, &routers, &lists);
    if (refused != RRP_OK) {
        printf("refused %u\n", (unsigned)refused);
        return 1;
    }
    printf("applied %" PRIu64 " rounds %" PRIu64 "%s\n", applied, rounds, exhausted ? " exhausted" : "");
    print_table(table, routers);
    return 0;
}
