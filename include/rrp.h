/* Checks BGP route-reflection plans: which routers rely on which for an egress list, whether the plan is stable for that
 * list, and what the routers hold as they are activated one by one. And works out a plan's distances from weighted links.
 *
 * A plan starts with a mark, RRP1 or RRP2. A distance has two bytes in an RRP1 plan and goes up to 65,534; in an RRP2 plan it has
 * four and goes up to 4,294,967,294. All else is the same, and every call takes both, but for the two that turn a plan of one mark
 * into a plan of the other.
 *
 * Every call takes the bytes of a plan, or of a link sheet, and returns a number of enum rrp_refusal: 0 if it is not refused,
 * else that of the first check in order that fails. A refused call writes nothing, neither to a buffer nor to a result variable.
 * Otherwise bytes of a buffer beyond those named below are left as they are.
 *
 * Routers and lists are numbered from 0, in the plan's order; n is the plan's number of routers. A buffer may be longer than
 * needed: RRP_MAX_ROUTERS bytes are enough for labels, ranks, cycle and counts, and RRP_MAX_TABLE bytes for a table.
 *
 * A list names 0 to n routers. One that names nobody is for a prefix that is gone everywhere: every call takes it as any other.
 *
 * A router's role is 1 for a reflector, 2 for a client, 3 for a reflector that does not reflect between its clients; 4 and 5 are as 1
 * and 3, with the hop step. At a reflector with the hop step a route told by its own egress router is better than one passed on by a
 * reflector, and only then distances and numbers count. At every other router it does not count who tells a route.
 *
 * A table of held routes has two bytes a router: the egress router of the route that it holds and the neighbour that it has the
 * route from, or RRP_NONE twice if it holds none. A router of the list holds its own route: its number twice. To start from
 * nothing, put those in and RRP_NONE everywhere else.
 *
 * Routers are activated one at a time. A round ends as soon as every router has been activated since the last one ended.
 *
 * Pointers are not null, even with a length of 0. The plan or links, the sequence, the buffers and the result variables of one
 * call do not overlap one another. The library is built for a 64-bit machine. It keeps nothing between calls and allocates
 * nothing, so calls may run at once in several threads. */
#ifndef RRP_H
#define RRP_H

#include <stddef.h>
#include <stdint.h>

#ifdef __cplusplus
extern "C" {
#endif

/* A size_t must have 64 bits: elsewhere this line does not compile. */
typedef char rrp_size_t_has_64_bits[sizeof(size_t) == 8 ? 1 : -1];

/* What a call returns: 0, or the number of the first check that fails, which need not be the lowest that applies. The order of
 * the checks is, for a plan, 1, 2, 3, 4, 5, 13, 6, 7, 14, 8, 15, 9, 10; for a link sheet, 2, 11, 12, 9. Check 14 is that of rrp_narrow
 * alone, and check 15 that of rrp_steady, rrp_hop_set and rrp_grade. */
enum rrp_refusal {
    /* not refused */
    RRP_OK = 0,
    /* the plan does not start RRP1 or RRP2, is shorter than 26 bytes or longer than 16,731 (RRP1) or 24,923 (RRP2), or byte 5 is
     * not 4; or it has the wrong mark to be converted */
    RRP_NOT_A_PLAN = 1,
    /* the number of routers is 0 or above 64 */
    RRP_BAD_ROUTER_COUNT = 2,
    /* a kind, an offset or a length in the table of contents is wrong */
    RRP_BAD_CONTENTS = 3,
    /* a role is not 1 to 5, or the identifiers do not rise strictly */
    RRP_BAD_ROUTERS = 4,
    /* a session is not two routers, the lower number first, or the sessions do not rise strictly */
    RRP_BAD_SESSIONS = 5,
    /* the distance from a router to itself is not 0 */
    RRP_BAD_DISTANCES = 6,
    /* there are not 1 to 64 lists, the routers of each rising strictly, up to the plan's end */
    RRP_BAD_LISTS = 7,
    /* a list or a router asked for is not in the plan; a run asks for its whole sequence */
    RRP_NOT_IN_PLAN = 8,
    /* a buffer is shorter than the call needs */
    RRP_SHORT_BUFFER = 9,
    /* the table breaks its rule: own route if listed, else nothing or an egress from a neighbour */
    RRP_BAD_TABLE = 10,
    /* the sheet is not 0 to 512 whole links of two routers and a weight above 0, rising strictly */
    RRP_BAD_LINKS = 11,
    /* from some router there are walks to another, and their least sum of weights is above 65,534 */
    RRP_TOO_FAR = 12,
    /* a client has sessions with five or more reflectors */
    RRP_TOO_MANY_PARENTS = 13,
    /* a distance that is not no way is above 65,534, too far for two bytes */
    RRP_TOO_FAR_TO_NARROW = 14,
    /* more than 12 routers lie in groups of two or more */
    RRP_TOO_MANY_GROUPED = 15
};

/* By which rule a router relies on another. */
enum rrp_rule {
    /* the router is an unlisted client, and the other a neighbouring reflector */
    RRP_PARENT = 1,
    /* the router is an unlisted client, and the other a neighbouring client of the list */
    RRP_PEER_CLIENT = 2,
    /* the router is a reflector, and the other its best client: of the clients of the list that it neighbours and has a way to, the
     * one that is best at the router */
    RRP_OWN_BEST_CLIENT = 3,
    /* the other, a neighbouring reflector, offers a route that is better at the router than its own best client's, if it has one: the
     * route of the other itself if it is in the list, else that of its best client, which it passes on */
    RRP_BETTER_OFFER = 4
};

/* Why a router does not rely on another: the first of these that applies. 5 is never given. */
enum rrp_reason {
    RRP_SAME_ROUTER = 1,
    RRP_NOT_NEIGHBOURS = 2,
    /* the router is in the list */
    RRP_FIRST_LISTED = 3,
    /* the other is a client that is not in the list */
    RRP_UNLISTED_CLIENT = 4,
    /* the other is a client of the list, but not the router's best one */
    RRP_NOT_BEST_CLIENT = 6,
    /* the other, a reflector, is not in the list and has no best client */
    RRP_NO_OFFER = 7,
    /* the router has no way to what the other offers */
    RRP_NO_WAY_TO_OFFER = 8,
    /* what the other offers is not better at the router than its own best client; so it is, whatever the distances, where the router
     * has the hop step and the other passes the route on */
    RRP_OFFER_NOT_BETTER = 9
};

/* What rrp_grade says of a list. */
enum rrp_grade_number {
    /* whatever the order, the routers come to rest: install it, and give it the rounds that rrp_grade names */
    RRP_RESTS = 1,
    /* from every table some activations lead to rest, but the routers may also keep moving: not for a network in service */
    RRP_CAN_REST = 2,
    /* from some table no activations lead to rest, though there is a table to rest in: do not install it */
    RRP_MAY_NEVER_REST = 3,
    /* there is no table to rest in: the routers keep moving for ever */
    RRP_NO_STEADY = 4
};

enum {
    /* the most routers, egress lists and bytes of a plan; so many bytes has an RRP2 plan, and an RRP1 plan at most 16,731 */
    RRP_MAX_ROUTERS = 64,
    RRP_MAX_LISTS = 64,
    RRP_MAX_PLAN = 24923,
    /* the bytes of the largest table */
    RRP_MAX_TABLE = 128,
    /* the most links of a sheet, four bytes each, and the most bytes that rrp_distances writes, those of 64 routers */
    RRP_MAX_LINKS = 512,
    RRP_MAX_DISTANCES = 8192,
    /* the most routers in groups of two or more that rrp_steady, rrp_hop_set and rrp_grade take, and bytes enough for what rrp_steady
     * writes of them: two for each of as many numbers as have so many bits */
    RRP_MAX_GROUPED = 12,
    RRP_MAX_STEADY = 8192,
    /* the distance, of two bytes, from a router to another that it has no way to */
    RRP_NO_WAY = 65535,
    /* no router, in a table */
    RRP_NONE = 255
};

/* The distance, of four bytes, from a router to another that it has no way to, in an RRP2 plan. No enum constant, as C has these
 * fit an int. */
#define RRP_NO_WAY_WIDE UINT32_C(4294967295)

/* Checks a plan. Refusals 1 to 7 and 13. */
uint8_t rrp_check(const uint8_t *plan, size_t plan_len);

/* Gives the size of a plan: *routers is n, and *lists the number of its egress lists. Refusals 1 to 7 and 13. */
uint8_t rrp_size(const uint8_t *plan, size_t plan_len, uint64_t *routers, uint64_t *lists);

/* Finds a list in the plan: the routers of the list are the bytes plan[*start] to plan[*start + *count - 1]. Of a list of nobody
 * *count is 0, and *start is the list's own place all the same, after the byte that has the count; it is plan_len if no list
 * follows. That is not refused: RRP_OK is returned, as of any other list. Refusals 1 to 8 and 13. */
uint8_t rrp_list(const uint8_t *plan, size_t plan_len, size_t list, uint64_t *start, uint64_t *count);

/* Compares the routes of two egress routers at a router: *better is 1 if the first is better, 2 if the second is, 0 if neither is.
 * first_direct says that the first egress router itself tells its route to the router, and second_direct that the second does so; else
 * a reflector passes the route on. A flag handed in counts as yes if it is not 0. Of what the router itself
 * holds in a table the flag is yes exactly if egress and sender are the same; of an offer, exactly if the offering reflector is in the
 * list; of a best client, always.
 * One that the router has a way to is better than one that it has none to. Neither is better if they are the same, or if the router
 * has no way to either. So it is whatever the flags. Else, at a reflector with the hop step and if just one of the flags is yes, the
 * route of that one is better, whatever the distances: the step decides. Else the better one is nearer to the router or, if both are
 * as near, has the lower number.
 * *has_margin is 1 if the router has a way to both, else 0. *margin is then the distance to the first minus the distance to the
 * second, from -4,294,967,294 to 4,294,967,294, which in an RRP1 plan is from -65,534 to 65,534; the flags count for nothing in it.
 * Below 0 the first is nearer, above 0 the second; at 0 both are as near, and the lower number decides, or they are the same, or at a
 * reflector with the hop step the step decided. So where it decides, *better and not the sign says which is better. Without a margin
 * *margin is 0. Refusals 1 to 8 and 13. */
uint8_t rrp_compare(const uint8_t *plan, size_t plan_len, size_t router, size_t first, size_t second, uint8_t first_direct,
                    uint8_t second_direct, uint8_t *better, uint8_t *has_margin, int64_t *margin);

/* Says whether a router relies on another for a list: *relies is 1 if it does, else 0. Refusals 1 to 8 and 13. */
uint8_t rrp_relies(const uint8_t *plan, size_t plan_len, size_t list, size_t router, size_t other, uint8_t *relies);

/* Says why a router relies on another for a list, or does not. *relies is what rrp_relies gives; *code is the rule, a number of enum
 * rrp_rule, if it relies, and else the reason, one of enum rrp_reason. With RRP_BETTER_OFFER *offer is the egress router of the route
 * that the other offers; *has_own is 1 if the router has a best client of its own, *own is then that client and *margin the distance to
 * the offer minus the distance to it, as rrp_compare gives it. What an answer does not have is 0. Refusals 1 to 8 and 13. */
uint8_t rrp_explain(const uint8_t *plan, size_t plan_len, size_t list, size_t router, size_t other, uint8_t *relies, uint8_t *code,
                    uint64_t *offer, uint8_t *has_own, uint64_t *own, int64_t *margin);

/* Gives the verdict of the plan for a list. Needs n bytes of labels, n of ranks, 2n of table and n of cycle, whatever the
 * verdict. labels[v] becomes the lowest router of v's group: v itself and every router that v reaches by reliances and that
 * reaches v.
 * Stable, if every group is of one router: *stable is 1, and *size the highest rank. ranks[v] becomes v's rank: 0 if v relies on
 * no router, else one more than the highest rank of those that it relies on. The table becomes the one that no activation changes;
 * activations in any order lead to it from every table for this plan and list, within *size + 2 rounds. cycle is left as it is.
 * A list of nobody is stable: *size is 1 if some client neighbours a reflector, else 0, and the table has RRP_NONE everywhere, so
 * that old routes are flushed within three rounds, or two.
 * Suspect: *stable is 0, and *size the number of routers of a cycle. cycle[0] to cycle[*size - 1] become those routers, each
 * relying on the next and the last on the first; ranks and table are left as they are.
 * Refusals 1 to 9 and 13. */
uint8_t rrp_verdict(const uint8_t *plan, size_t plan_len, size_t list, uint8_t *labels, size_t labels_len, uint8_t *ranks,
                    size_t ranks_len, uint8_t *table, size_t table_len, uint8_t *cycle, size_t cycle_len, uint8_t *stable,
                    uint64_t *size);

/* Lists the tables of the plan for a list that no activation changes. *count becomes how many they are: a stable list has one, the
 * table of its verdict, and a suspect one may have none, one or several. Each has a number. Bit i of it is for the i-th router, lowest
 * first, of those in groups of two or more, which are the routers that share their label of rrp_verdict with another: it is set if that
 * router holds its best client's own route, from that client itself. No two of the tables have one number. Needs two bytes of out for
 * each number. out[2 * i] and the byte after it become the i-th number, low byte first, the numbers rising. The table of a stable list
 * has the number 0. That a suspect list's table is listed is no promise that activations lead to it. Refusals 1 to 9, 13 and 15; 15
 * comes before 9. */
uint8_t rrp_steady(const uint8_t *plan, size_t plan_len, size_t list, uint8_t *out, size_t out_len, uint64_t *count);

/* Names a smallest set of routers that makes the plan stable for a list once their roles 1 and 3 become 4 and 5. Bit i of *set is for the
 * i-th router, lowest first, of those in groups of two or more, as in rrp_steady: it is set if that router is in the set. No smaller set
 * of reflectors, wherever they are in the plan, makes the list stable, and no lower number of as many bits does. *set is 0 if the list
 * is stable, and else not: some set always makes it stable. Of router w the role is byte 26 + 5 * w of the plan. Refusals 1 to 8, 13 and
 * 15. */
uint8_t rrp_hop_set(const uint8_t *plan, size_t plan_len, size_t list, uint64_t *set);

/* How sure it is that the routers come to rest for a list, whatever the order in which they are activated. *grade becomes RRP_RESTS,
 * RRP_CAN_REST, RRP_MAY_NEVER_REST or RRP_NO_STEADY. *rounds becomes, for RRP_RESTS, a number of rounds within which the routers come
 * to rest from any table, left-over entries included, and stay so; for the others 0. A stable list is RRP_RESTS, with its highest rank
 * plus two rounds. Refusals 1 to 8, 13 and 15. */
uint8_t rrp_grade(const uint8_t *plan, size_t plan_len, size_t list, uint8_t *grade, uint64_t *rounds);

/* Gives the figures over all lists of the plan. *stable is the number of stable lists and *suspect that of suspect ones; together they
 * are all lists. *has_highest is 1 if some list is stable, else 0; *highest is then the highest rank among the stable lists, and else
 * 0. Needs n bytes of by_rank and n of by_router. by_rank[r] becomes the number of stable lists whose highest rank is r, and
 * by_router[v] the number of lists for which v is in a group of two or more, that is, another router has its label. So the counts by
 * rank sum to *stable, and those by router to the sizes of all groups of two or more over all lists. Each is what rrp_verdict gives,
 * list by list. Refusals 1 to 7, 9 and 13. */
uint8_t rrp_figures(const uint8_t *plan, size_t plan_len, uint8_t *by_rank, size_t by_rank_len, uint8_t *by_router,
                    size_t by_router_len, uint64_t *stable, uint64_t *suspect, uint8_t *has_highest, uint64_t *highest);

/* Says whether the plan is stable for every egress list, whatever its own lists. *answer is 1 if it is: with every list, listed
 * reflectors and the empty list among them, rrp_verdict says stable. It is 0 if a list was found for which the plan is suspect:
 * list[0] to list[*count - 1] are then its router numbers, rising, all of clients. It is 2 if that is undecided; this happens only
 * where a client has two parents without the hop step that are not alike. *count is 0 unless *answer is 0. Needs n bytes of list, and
 * leaves those after the list as they were. Refusals 1 to 7, 9 and 13. */
uint8_t rrp_every_list(const uint8_t *plan, size_t plan_len, uint8_t *answer, uint8_t *list, size_t list_len, uint64_t *count);

/* Activates one router, in the table's 2n bytes: a router of the list keeps its own route, and any other then holds the best route
 * that a neighbour advertises to it at that moment, of those whose egress it has a way to, or none. No other router's entry
 * changes. Refusals 1 to 10 and 13. */
uint8_t rrp_activate(const uint8_t *plan, size_t plan_len, size_t list, size_t router, uint8_t *table, size_t table_len);

/* Activates the routers of a sequence, one byte each, in order, at most limit of them, in the table's 2n bytes. *applied is the
 * number of activations made, *rounds the number of rounds that ended among them, counted from the first of them (with two
 * routers, 0 0 1 1 makes one round), and *exhausted 1 if the sequence is longer than the limit, else 0. The whole sequence is asked
 * for, also past the limit. Refusals 1 to 10 and 13. */
uint8_t rrp_run(const uint8_t *plan, size_t plan_len, size_t list, const uint8_t *sequence, size_t sequence_len, uint64_t limit,
                uint8_t *table, size_t table_len, uint64_t *applied, uint64_t *rounds, uint8_t *exhausted);

/* Works out the distances between n routers from a sheet of links, two bytes each: what is written is the body of distances of an
 * RRP1 plan. A link has four bytes: the router that it leads from, the one that it leads to, and its weight, 1 to 65,535, low byte
 * first. Links rise strictly, by the first router and then by the second. A link leads one way; where traffic goes both ways there
 * are two. Needs 2 * n * n bytes of out. out[2 * (n * u + e)] and the byte after it become the least sum of weights over all walks
 * from router u to router e, low byte first, or RRP_NO_WAY if there is no walk; it is 0 from a router to itself. For an RRP2 plan,
 * make the RRP1 plan and hand it to rrp_widen. Refusals 2, 11, 12 and 9, in this order. */
uint8_t rrp_distances(size_t n, const uint8_t *links, size_t links_len, uint8_t *out, size_t out_len);

/* Turns an RRP1 plan into the RRP2 plan of the same distances; no way stays no way, RRP_NO_WAY becomes RRP_NO_WAY_WIDE. The other
 * bodies are the same. Every call but this and rrp_narrow answers the same of both plans; rrp_list finds a list 2 * n * n bytes on.
 * Needs plan_len + 2 * n * n bytes of out, at most RRP_MAX_PLAN. *length becomes that number, and out[0] to out[*length - 1] the
 * plan. A plan that starts RRP2 has the wrong mark, refusal 1. Refusals 1 to 7, 9 and 13. */
uint8_t rrp_widen(const uint8_t *plan, size_t plan_len, uint8_t *out, size_t out_len, uint64_t *length);

/* Turns an RRP2 plan into the RRP1 plan of the same distances: the way back from rrp_widen, to identical bytes. Refused with 14 if a
 * distance other than RRP_NO_WAY_WIDE is above 65,534; so is one of 65,535, which in two bytes is no way. Needs
 * plan_len - 2 * n * n bytes of out, at most 16,731. *length becomes that number, and out[0] to out[*length - 1] the plan. A plan
 * that starts RRP1 has the wrong mark, refusal 1. Refusals 1 to 7, 9, 13 and 14. */
uint8_t rrp_narrow(const uint8_t *plan, size_t plan_len, uint8_t *out, size_t out_len, uint64_t *length);

#ifdef __cplusplus
}
#endif

#endif
