/* Lists the tables of a plan for a list that no activation changes: steady FILE LIST.
 * Prints a line a table: its number and, of each router in a group of two or more, whether it holds its best client's own route (own)
 * or another (other). A stable list has one table, number 0, and no such router. Prints `none` if there is no such table; or the refusal.
 * Build, at the root of the repository and after `./build library`:
 * gcc -O2 -Iinclude examples/steady.c -Ltarget/staticlib -lrrp -o target/steady */
#include "grouped.h"
#include "read_plan.h"

int main(int count, char **words)
{
    static uint8_t plan[RRP_MAX_PLAN + 1], numbers[RRP_MAX_STEADY];
    size_t list;
    if (count != 3 || !read_numbers(words + 2, &list, 1)) {
        fprintf(stderr, "usage: steady FILE LIST\n");
        return 2;
    }
    size_t length = read_plan(words[1], plan);

    uint8_t grouped[RRP_MAX_ROUTERS];
    unsigned bits;
    uint64_t tables;
    uint8_t refused = find_grouped(plan, length, list, grouped, &bits);
    if (refused == RRP_OK)
        refused = rrp_steady(plan, length, list, numbers, sizeof numbers, &tables);
    if (refused != RRP_OK) {
        printf("refused %u\n", (unsigned)refused);
        return 1;
    }
    for (uint64_t t = 0; t < tables; t++) {
        unsigned number = numbers[2 * t] + 256u * numbers[2 * t + 1];
        printf("%u:", number);
        for (unsigned i = 0; i < bits; i++)
            printf(" %u %s", grouped[i], number >> i & 1 ? "own" : "other");
        printf("\n");
    }
    if (tables == 0)
        printf("none\n");
    return 0;
}
