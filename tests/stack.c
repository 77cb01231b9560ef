/* Measures the stack that each call of the library uses: on a plan and its list 0, or on 512 links among 64 routers. A call runs on a stack
 * of its own that was filled with a pattern; what it uses is all from the first changed byte to the caller's frame, its return address and
 * the arguments handed over on the stack included. Each call is made for every router of the plan, and the most is printed. The two calls
 * that convert have the plan as RRP1 and as RRP2, whichever it is.
 * usage: stack PLAN        Prints a line for the verdict found, then one a call, in bytes. Fails if a call is refused. */
#include <stdio.h>
#include <stdlib.h>
#include <string.h>
#include <ucontext.h>
#include "rrp.h"

enum { STACK = 1 << 16, PATTERN = 0xa5, ACTIVATIONS = 1000, LINKS = 512 };

static unsigned char stack[STACK];
static ucontext_t caller, callee;

/* One byte more than the longest plan, so that a longer file is refused and not cut. */
static uint8_t plan[RRP_MAX_PLAN + 1];
static size_t length, router, other;
static uint8_t labels[RRP_MAX_ROUTERS], ranks[RRP_MAX_ROUTERS], settled[RRP_MAX_TABLE], cycle[RRP_MAX_ROUTERS];
static uint8_t table[RRP_MAX_TABLE], sequence[ACTIVATIONS], numbers[RRP_MAX_STEADY];
static uint8_t by_rank[RRP_MAX_ROUTERS], by_router[RRP_MAX_ROUTERS], clients[RRP_MAX_ROUTERS];
static uint8_t links[4 * LINKS], body[2 * RRP_MAX_ROUTERS * RRP_MAX_ROUTERS];
static uint8_t rrp1[RRP_MAX_PLAN], rrp2[RRP_MAX_PLAN], result[RRP_MAX_PLAN];
static uint64_t rrp1_length, rrp2_length, written;
static uint8_t refused, better, has_margin, relied, code, has_own, stable, graded, exhausted, has_highest, answer;
static uint64_t routers, lists, start, count, offer, own, found, tables, set, applied, rounds;
static uint64_t stable_lists, suspect_lists, highest, named;
static int64_t margin;

static void nothing(void) {}
static void check(void) { refused = rrp_check(plan, length); }
static void plan_size(void) { refused = rrp_size(plan, length, &routers, &lists); }
static void list(void) { refused = rrp_list(plan, length, 0, &start, &count); }
static void compare(void) { refused = rrp_compare(plan, length, router, router, other, 1, 0, &better, &has_margin, &margin); }
static void relies(void) { refused = rrp_relies(plan, length, 0, router, other, &relied); }
static void explain(void)
{
    refused = rrp_explain(plan, length, 0, router, other, &relied, &code, &offer, &has_own, &own, &margin);
}
static void verdict(void)
{
    refused = rrp_verdict(plan, length, 0, labels, sizeof labels, ranks, sizeof ranks, settled, sizeof settled, cycle, sizeof cycle,
                          &stable, &found);
}
static void steady(void) { refused = rrp_steady(plan, length, 0, numbers, sizeof numbers, &tables); }
static void hop_set(void) { refused = rrp_hop_set(plan, length, 0, &set); }
static void grade(void) { refused = rrp_grade(plan, length, 0, &graded, &rounds); }
static void figures(void)
{
    refused = rrp_figures(plan, length, by_rank, sizeof by_rank, by_router, sizeof by_router, &stable_lists, &suspect_lists,
                          &has_highest, &highest);
}
static void every_list(void) { refused = rrp_every_list(plan, length, &answer, clients, sizeof clients, &named); }
static void activate(void) { refused = rrp_activate(plan, length, 0, router, table, sizeof table); }
static void run(void)
{
    refused = rrp_run(plan, length, 0, sequence, ACTIVATIONS, ACTIVATIONS, table, sizeof table, &applied, &rounds, &exhausted);
}
static void distances(void) { refused = rrp_distances(RRP_MAX_ROUTERS, links, sizeof links, body, sizeof body); }
static void widen(void) { refused = rrp_widen(rrp1, rrp1_length, result, sizeof result, &written); }
static void narrow(void) { refused = rrp_narrow(rrp2, rrp2_length, result, sizeof result, &written); }

static const struct {
    const char *name;
    void (*make)(void);
} calls[] = {
    { "rrp_check", check },         { "rrp_size", plan_size },  { "rrp_list", list },         { "rrp_compare", compare },
    { "rrp_relies", relies },       { "rrp_explain", explain }, { "rrp_verdict", verdict },   { "rrp_steady", steady },
    { "rrp_hop_set", hop_set },     { "rrp_grade", grade },     { "rrp_figures", figures },   { "rrp_activate", activate },
    { "rrp_run", run },             { "rrp_distances", distances }, { "rrp_widen", widen },   { "rrp_narrow", narrow },
    { "rrp_every_list", every_list },
};

/* Ends the program if the last call was refused. */
static void accept(const char *name)
{
    if (refused == RRP_OK)
        return;
    fprintf(stderr, "stack: %s was refused with %u\n", name, (unsigned)refused);
    exit(1);
}

/* The bytes of the stack from the first one that a call changed to the top. */
static size_t used(void (*make)(void))
{
    memset(stack, PATTERN, STACK);
    getcontext(&callee);
    callee.uc_stack.ss_sp = stack;
    callee.uc_stack.ss_size = STACK;
    callee.uc_link = &caller;
    makecontext(&callee, make, 0);
    swapcontext(&caller, &callee);
    size_t at = 0;
    while (at < STACK && stack[at] == PATTERN)
        at++;
    return STACK - at;
}

/* The most that a call uses, over all routers, beyond what an empty function uses. */
static size_t most(const char *name, void (*make)(void))
{
    size_t highest = 0, none = used(nothing);
    for (router = 0; router < routers; router++) {
        other = (router + 1) % routers;
        size_t bytes = used(make);
        accept(name);
        if (bytes > highest)
            highest = bytes;
    }
    return highest - none;
}

/* The table in which the listed routers hold their own routes and the others nothing. */
static void start_table(void)
{
    memset(table, RRP_NONE, sizeof table);
    for (uint64_t at = start; at < start + count; at++)
        table[2 * plan[at]] = table[2 * plan[at] + 1] = plan[at];
}

/* The plan as RRP1 and as RRP2: as it was read, and converted. */
static void convert_plan(void)
{
    if (memcmp(plan, "RRP1", 4) == 0) {
        memcpy(rrp1, plan, rrp1_length = length);
        refused = rrp_widen(plan, length, rrp2, sizeof rrp2, &rrp2_length);
    } else {
        memcpy(rrp2, plan, rrp2_length = length);
        refused = rrp_narrow(plan, length, rrp1, sizeof rrp1, &rrp1_length);
    }
    accept("the conversion");
}

/* Eight links of weight 1 from each router, to those of the next number modulo 8, so that there is a walk between any two. */
static void fill_links(void)
{
    for (size_t i = 0; i < LINKS; i++) {
        links[4 * i] = (uint8_t)(i / 8);
        links[4 * i + 1] = (uint8_t)(8 * (i % 8) + (i / 8 + 1) % 8);
        links[4 * i + 2] = 1;
    }
}

int main(int words, char **word)
{
    FILE *file = words == 2 ? fopen(word[1], "rb") : NULL;
    if (file == NULL) {
        fprintf(stderr, "usage: stack PLAN\n");
        return 2;
    }
    length = fread(plan, 1, sizeof plan, file);
    fclose(file);

    plan_size();
    accept("rrp_size");
    list();
    accept("rrp_list");
    start_table();
    convert_plan();
    fill_links();
    for (size_t i = 0; i < ACTIVATIONS; i++)
        sequence[i] = (uint8_t)(i % routers);
    /* Each call once unmeasured: what the program's loader does at a first call is no part of it. */
    for (size_t i = 0; i < sizeof calls / sizeof calls[0]; i++) {
        calls[i].make();
        accept(calls[i].name);
    }
    start_table();
    printf("%.4s, %zu bytes, %llu routers, list 0 %s %llu\n", (const char *)plan, length, (unsigned long long)routers,
           stable ? "stable" : "suspect", (unsigned long long)found);
    for (size_t i = 0; i < sizeof calls / sizeof calls[0]; i++)
        printf("%s %zu\n", calls[i].name, most(calls[i].name, calls[i].make));
    return 0;
}
