/* Reads a plan file and numbers, for the examples. */
#ifndef READ_PLAN_H
#define READ_PLAN_H

#include <stdio.h>
#include <stdlib.h>

#include "rrp.h"

/* Reads at most one byte more than the longest plan has, so that a longer file is refused and not cut. Returns how many, or 0 for a
 * file that cannot be read, which the library refuses as it does an empty one. */
static inline size_t read_plan(const char *path, uint8_t plan[RRP_MAX_PLAN + 1])
{
    FILE *file = fopen(path, "rb");
    if (file == NULL) {
        perror(path);
        return 0;
    }
    size_t length = fread(plan, 1, RRP_MAX_PLAN + 1, file);
    fclose(file);
    return length;
}

/* Reads so many numbers, a word each; says whether they are numbers. */
static inline int read_numbers(char **words, size_t *numbers, size_t count)
{
    for (size_t i = 0; i < count; i++) {
        char *end;
        numbers[i] = strtoull(words[i], &end, 10);
        if (end == words[i] || *end != '\0')
            return 0;
    }
    return 1;
}

#endif
