/* Says why one router relies on another for a list of a plan file, or does not: why FILE LIST ROUTER OTHER.
 * Build, at the root of the repository and after `./build library`:
 * gcc -O2 -Iinclude examples/why.c -Ltarget/staticlib -lrrp -o target/why */
#include <inttypes.h>

#include "read_plan.h"

static const char *const rules[] = {
    [RRP_PARENT] = "parent",
    [RRP_PEER_CLIENT] = "peer client",
    [RRP_OWN_BEST_CLIENT] = "own best client",
    [RRP_BETTER_OFFER] = "better offer",
};

static const char *const reasons[] = {
    [RRP_SAME_ROUTER] = "same router",
    [RRP_NOT_NEIGHBOURS] = "not neighbours",
    [RRP_FIRST_LISTED] = "first router listed",
    [RRP_UNLISTED_CLIENT] = "second an unlisted client",
    [RRP_NOT_BEST_CLIENT] = "a client that is not the best one",
    [RRP_NO_OFFER] = "no offer",
    [RRP_NO_WAY_TO_OFFER] = "no way to the offer",
    [RRP_OFFER_NOT_BETTER] = "offer not better",
};

int main(int count, char **words)
{
    static uint8_t plan[RRP_MAX_PLAN + 1];
    size_t asked[3];
    if (count != 5 || !read_numbers(words + 2, asked, 3)) {
        fprintf(stderr, "usage: why FILE LIST ROUTER OTHER\n");
        return 2;
    }
    size_t length = read_plan(words[1], plan);

    uint8_t relies, code, has_own;
    uint64_t offer, own;
    int64_t margin;
    uint8_t refused = rrp_explain(plan, length, asked[0], asked[1], asked[2], &relies, &code, &offer, &has_own, &own,
                                  &margin);
    if (refused != RRP_OK) {
        printf("refused %u\n", (unsigned)refused);
        return 1;
    }
    printf("%s, %s", relies ? "yes" : "no", relies ? rules[code] : reasons[code]);
    if (relies && code == RRP_BETTER_OFFER)
        printf(" %" PRIu64, offer);
    if (has_own)
        printf(" against %" PRIu64 ", margin %" PRId64, own, margin);
    putchar('\n');
    return 0;
}
