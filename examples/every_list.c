/* Prints whether a plan file is stable for every egress list, whatever its own: every_list FILE.
 * If it is not, the router numbers of a list for which it is suspect, rising. Or the refusal.
 * Build, at the root of the repository and after `./build library`:
 * gcc -O2 -Iinclude examples/every_list.c -Ltarget/staticlib -lrrp -o target/every_list */
#include "read_plan.h"

int main(int count, char **words)
{
    static uint8_t plan[RRP_MAX_PLAN + 1];
    if (count != 2) {
        fprintf(stderr, "usage: every_list FILE\n");
        return 2;
    }
    size_t length = read_plan(words[1], plan);

    uint8_t answer, list[RRP_MAX_ROUTERS];
    uint64_t routers;
    uint8_t refused = rrp_every_list(plan, length, &answer, list, sizeof list, &routers);
    if (refused != RRP_OK) {
        printf("refused %u\n", (unsigned)refused);
        return 1;
    }
    if (answer == 1)
        puts("stable for every list");
    else if (answer == 2)
        puts("undecided");
    else {
        printf("suspect with list");
        for (uint64_t i = 0; i < routers; i++)
            printf(" %u", (unsigned)list[i]);
        putchar('\n');
    }
    return 0;
}
