/* Prints the figures over all lists of a plan file: figures FILE.
 * First how many lists are stable, how many suspect, and the highest rank among the stable ones; then how many stable lists had each
 * rank as their highest, and in how many lists each router was in a group of two or more, where that is not 0. Or the refusal.
 * Build, at the root of the repository and after `./build library`:
 * gcc -O2 -Iinclude examples/figures.c -Ltarget/staticlib -lrrp -o target/figures */
#include "read_plan.h"

/* A line for each count above 0. */
static void print_counts(const char *name, const uint8_t *counts, uint64_t routers)
{
    for (uint64_t i = 0; i < routers; i++)
        if (counts[i] > 0)
            printf("%s %llu: %u\n", name, (unsigned long long)i, (unsigned)counts[i]);
}

int main(int count, char **words)
{
    static uint8_t plan[RRP_MAX_PLAN + 1];
    if (count != 2) {
        fprintf(stderr, "usage: figures FILE\n");
        return 2;
    }
    size_t length = read_plan(words[1], plan);

    uint64_t routers, lists, stable, suspect, highest;
    uint8_t by_rank[RRP_MAX_ROUTERS], by_router[RRP_MAX_ROUTERS], has_highest;
    uint8_t refused = rrp_size(plan, length, &routers, &lists);
    if (refused == RRP_OK)
        refused = rrp_figures(plan, length, by_rank, sizeof by_rank, by_router, sizeof by_router, &stable, &suspect, &has_highest,
                              &highest);
    if (refused != RRP_OK) {
        printf("refused %u\n", (unsigned)refused);
        return 1;
    }
    printf("stable %llu suspect %llu highest rank ", (unsigned long long)stable, (unsigned long long)suspect);
    if (has_highest)
        printf("%llu\n", (unsigned long long)highest);
    else
        puts("none");
    print_counts("rank", by_rank, routers);
    print_counts("router", by_router, routers);
    return 0;
}
