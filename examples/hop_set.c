/* Names a smallest set of routers that makes a plan stable for a list once they have the hop step: hop_set FILE LIST.
 * Prints the routers, `none` for a list that is stable; then the verdict of the plan in which they have it; or the refusal.
 * Build, at the root of the repository and after `./build library`:
 * gcc -O2 -Iinclude examples/hop_set.c -Ltarget/staticlib -lrrp -o target/hop_set */
#include "grouped.h"
#include "read_plan.h"

/* Where a plan has the role of router 0; each router has five bytes. */
enum { FIRST_ROLE = 26, ROUTER_BYTES = 5 };

/* Gives the routers of the set the hop step, role 4 for 1 and 5 for 3, and prints them. */
static void load(uint8_t *plan, uint64_t set, const uint8_t grouped[RRP_MAX_ROUTERS], unsigned bits)
{
    if (set == 0)
        printf(" none");
    for (unsigned i = 0; i < bits; i++) {
        if ((set >> i & 1) == 0)
            continue;
        uint8_t *role = plan + FIRST_ROLE + ROUTER_BYTES * grouped[i];
        *role = *role == 1 ? 4 : 5;
        printf(" %u", grouped[i]);
    }
}

/* Prints the verdict. */
static void judge(const uint8_t *plan, size_t length, size_t list)
{
    uint8_t labels[RRP_MAX_ROUTERS], ranks[RRP_MAX_ROUTERS], table[RRP_MAX_TABLE], cycle[RRP_MAX_ROUTERS], stable;
    uint64_t size;
    uint8_t refused = rrp_verdict(plan, length, list, labels, sizeof labels, ranks, sizeof ranks, table, sizeof table, cycle,
                                  sizeof cycle, &stable, &size);
    if (refused != RRP_OK)
        printf("refused %u\n", (unsigned)refused);
    else
        printf("%s %u\n", stable ? "stable" : "suspect", (unsigned)size);
}

int main(int count, char **words)
{
    static uint8_t plan[RRP_MAX_PLAN + 1];
    size_t list;
    if (count != 3 || !read_numbers(words + 2, &list, 1)) {
        fprintf(stderr, "usage: hop_set FILE LIST\n");
        return 2;
    }
    size_t length = read_plan(words[1], plan);

    uint8_t grouped[RRP_MAX_ROUTERS];
    unsigned bits;
    uint64_t set;
    uint8_t refused = find_grouped(plan, length, list, grouped, &bits);
    if (refused == RRP_OK)
        refused = rrp_hop_set(plan, length, list, &set);
    if (refused != RRP_OK) {
        printf("refused %u\n", (unsigned)refused);
        return 1;
    }
    printf("%llu:", (unsigned long long)set);
    load(plan, set, grouped, bits);
    printf(", then ");
    judge(plan, length, list);
    return 0;
}
