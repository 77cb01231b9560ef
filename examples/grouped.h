/* The routers in groups of two or more, for the examples that read their bits. */
#ifndef GROUPED_H
#define GROUPED_H

#include "rrp.h"

/* The routers in groups of two or more, lowest first: those that share their label with another. Returns how many. */
static inline unsigned grouped_routers(const uint8_t labels[RRP_MAX_ROUTERS], uint64_t routers, uint8_t grouped[RRP_MAX_ROUTERS])
{
    unsigned count = 0;
    for (uint64_t v = 0; v < routers; v++) {
        unsigned sharing = 0;
        for (uint64_t w = 0; w < routers; w++)
            sharing += labels[v] == labels[w];
        if (sharing > 1)
            grouped[count++] = (uint8_t)v;
    }
    return count;
}

/* Finds those routers by the verdict. Returns the refusal. */
static inline uint8_t find_grouped(const uint8_t *plan, size_t length, size_t list, uint8_t grouped[RRP_MAX_ROUTERS],
                                   unsigned *count)
{
    uint8_t labels[RRP_MAX_ROUTERS], ranks[RRP_MAX_ROUTERS], table[RRP_MAX_TABLE], cycle[RRP_MAX_ROUTERS], stable;
    uint64_t routers, lists, size;
    uint8_t refused = rrp_size(plan, length, &routers, &lists);
    if (refused == RRP_OK)
        refused = rrp_verdict(plan, length, list, labels, sizeof labels, ranks, sizeof ranks, table, sizeof table, cycle,
                              sizeof cycle, &stable, &size);
    if (refused == RRP_OK)
        *count = grouped_routers(labels, routers, grouped);
    return refused;
}

#endif
