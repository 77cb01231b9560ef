/* Prints the verdicts of a plan file: verdicts FILE.
 * Build, at the root of the repository and after `./build library`:
 * gcc -O2 -Iinclude examples/verdicts.c -Ltarget/staticlib -lrrp -o target/verdicts */
#include "read_plan.h"

/* One line: the list's number, then "suspect", the cycle's length and the cycle, or "stable" and the highest rank. */
static void print_verdict(const uint8_t *plan, size_t length, size_t list)
{
    uint8_t labels[RRP_MAX_ROUTERS], ranks[RRP_MAX_ROUTERS], table[RRP_MAX_TABLE], cycle[RRP_MAX_ROUTERS];
    uint8_t stable;
    uint64_t size;
    uint8_t refused = rrp_verdict(plan, length, list, labels, sizeof labels, ranks, sizeof ranks, table, sizeof table, cycle,
                                  sizeof cycle, &stable, &size);
    if (refused != RRP_OK) {
        printf("%zu refused %u\n", list, (unsigned)refused);
        return;
    }
    printf("%zu %s %llu", list, stable ? "stable" : "suspect", (unsigned long long)size);
    if (!stable)
        for (uint64_t i = 0; i < size; i++)
            printf(" %u", (unsigned)cycle[i]);
    putchar('\n');
}

int main(int count, char **words)
{
    static uint8_t plan[RRP_MAX_PLAN + 1];
    if (count != 2) {
        fprintf(stderr, "usage: verdicts FILE\n");
        return 2;
    }
    size_t length = read_plan(words[1], plan);

    uint64_t routers, lists;
    uint8_t refused = rrp_size(plan, length, &routers, &lists);
    if (refused != RRP_OK) {
        printf("refused %u\n", (unsigned)refused);
        return 1;
    }
    printf("routers %llu lists %llu\n", (unsigned long long)routers, (unsigned long long)lists);
    for (size_t list = 0; list < lists; list++)
        print_verdict(plan, length, list);
    return 0;
}
