/* Compares the routes of two egress routers of a plan file at a router: compare FILE ROUTER FIRST SECOND FIRST_DIRECT SECOND_DIRECT.
 * The last two are 1 if that egress router itself tells its route, and 0 if a reflector passes it on.
 * Prints which is better, "first", "second" or "neither", and the distance to the first minus that to the second, or "none".
 * Build, at the root of the repository and after `./build library`:
 * gcc -O2 -Iinclude examples/compare.c -Ltarget/staticlib -lrrp -o target/compare */
#include <inttypes.h>

#include "read_plan.h"

int main(int count, char **words)
{
    static const char *const names[] = { "neither", "first", "second" };
    static uint8_t plan[RRP_MAX_PLAN + 1];
    size_t asked[5];
    if (count != 7 || !read_numbers(words + 2, asked, 5)) {
        fprintf(stderr, "usage: compare FILE ROUTER FIRST SECOND FIRST_DIRECT SECOND_DIRECT\n");
        return 2;
    }
    size_t length = read_plan(words[1], plan);

    uint8_t better, has_margin, first_direct = asked[3] != 0, second_direct = asked[4] != 0;
    int64_t margin;
    uint8_t refused = rrp_compare(plan, length, asked[0], asked[1], asked[2], first_direct, second_direct, &better, &has_margin,
                                  &margin);
    if (refused != RRP_OK) {
        printf("refused %u\n", (unsigned)refused);
        return 1;
    }
    if (has_margin)
        printf("%s %" PRId64 "\n", names[better], margin);
    else
        printf("%s none\n", names[better]);
    return 0;
}
