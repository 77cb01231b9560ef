/* Works out the distances of a plan from links: distances N [FILE].
 * Reads a link a line, FROM TO WEIGHT, from the file or from standard input, in the order that the library asks for: rising by FROM
 * and then by TO. Prints a line a router: its distance to each router, or "none" where it has no way.
 * Build, at the root of the repository and after `./build library`:
 * gcc -O2 -Iinclude examples/distances.c -Ltarget/staticlib -lrrp -o target/distances */
#include "read_plan.h"

/* Reads at most one link more than a sheet may have, so that a longer one is refused and not cut. Says whether each line is a link
 * of numbers that its four bytes hold. */
static int read_links(FILE *file, uint8_t links[4 * (RRP_MAX_LINKS + 1)], size_t *length)
{
    unsigned from, to, weight;
    int found = 0;
    for (*length = 0; *length < 4 * (RRP_MAX_LINKS + 1); *length += 4) {
        found = fscanf(file, "%9u %9u %9u", &from, &to, &weight);
        if (found != 3)
            return found == EOF;
        if (from > UINT8_MAX || to > UINT8_MAX || weight > UINT16_MAX)
            return 0;
        uint8_t *link = links + *length;
        link[0] = (uint8_t)from;
        link[1] = (uint8_t)to;
        link[2] = (uint8_t)(weight % 256);
        link[3] = (uint8_t)(weight / 256);
    }
    return 1;
}

static void print_distances(const uint8_t *out, size_t n)
{
    for (size_t u = 0; u < n; u++)
        for (size_t e = 0; e < n; e++) {
            const uint8_t *at = out + 2 * (n * u + e);
            unsigned distance = at[0] + 256u * at[1];
            if (distance == RRP_NO_WAY)
                printf("none");
            else
                printf("%u", distance);
            putchar(e + 1 < n ? ' ' : '\n');
        }
}

int main(int count, char **words)
{
    static uint8_t links[4 * (RRP_MAX_LINKS + 1)], out[RRP_MAX_DISTANCES];
    size_t n, length;
    if (count < 2 || count > 3 || !read_numbers(words + 1, &n, 1)) {
        fprintf(stderr, "usage: distances N [FILE]\n");
        return 2;
    }
    FILE *file = count == 3 ? fopen(words[2], "r") : stdin;
    if (file == NULL) {
        perror(words[2]);
        return 2;
    }
    if (!read_links(file, links, &length)) {
        fprintf(stderr, "distances: link %zu is not FROM TO WEIGHT, of 0 to 255, 0 to 255 and 0 to 65535\n", length / 4);
        return 2;
    }
    uint8_t refused = rrp_distances(n, links, length, out, sizeof out);
    if (refused != RRP_OK) {
        printf("refused %u\n", (unsigned)refused);
        return 1;
    }
    print_distances(out, n);
    return 0;
}
