/* Turns an RRP1 plan file into an RRP2 plan, or an RRP2 plan file into an RRP1 plan: convert FILE OUT.
 * Prints the mark and the length of what it wrote, or the refusal.
 * Build, at the root of the repository and after `./build library`:
 * gcc -O2 -Iinclude examples/convert.c -Ltarget/staticlib -lrrp -o target/convert */
#include <string.h>

#include "read_plan.h"

/* Writes a file whole; says whether that went well. */
static int write_plan(const char *path, const uint8_t *plan, size_t length)
{
    FILE *file = fopen(path, "wb");
    if (file == NULL)
        return 0;
    int whole = fwrite(plan, 1, length, file) == length;
    return fclose(file) == 0 && whole;
}

int main(int count, char **words)
{
    static uint8_t plan[RRP_MAX_PLAN + 1], out[RRP_MAX_PLAN];
    if (count != 3) {
        fprintf(stderr, "usage: convert FILE OUT\n");
        return 2;
    }
    size_t length = read_plan(words[1], plan);
    uint64_t written;
    uint8_t refused = memcmp(plan, "RRP2", 4) == 0 ? rrp_narrow(plan, length, out, sizeof out, &written)
                                                   : rrp_widen(plan, length, out, sizeof out, &written);
    if (refused != RRP_OK) {
        printf("refused %u\n", (unsigned)refused);
        return 1;
    }
    if (!write_plan(words[2], out, written)) {
        perror(words[2]);
        return 2;
    }
    printf("%.4s, %llu bytes\n", (const char *)out, (unsigned long long)written);
    return 0;
}
