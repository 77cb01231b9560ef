/* Says whether the routers of a plan come to rest for a list, whatever the order in which they are activated: grade FILE LIST.
 * Prints the grade, in words and with the rounds for one that always rests; or the refusal.
 * Build, at the root of the repository and after `./build library`:
 * gcc -O2 -Iinclude examples/grade.c -Ltarget/staticlib -lrrp -o target/grade */
#include "rrp.h"
#include "read_plan.h"

int main(int count, char **words)
{
    static uint8_t plan[RRP_MAX_PLAN + 1];
    size_t list;
    if (count != 3 || !read_numbers(words + 2, &list, 1)) {
        fprintf(stderr, "usage: grade FILE LIST\n");
        return 2;
    }
    size_t length = read_plan(words[1], plan);

    uint8_t grade;
    uint64_t rounds;
    uint8_t refused = rrp_grade(plan, length, list, &grade, &rounds);
    if (refused != RRP_OK) {
        printf("refused %u\n", (unsigned)refused);
        return 1;
    }
    switch (grade) {
    case RRP_RESTS:
        printf("1: comes to rest whatever the order, within %llu rounds\n", (unsigned long long)rounds);
        break;
    case RRP_CAN_REST:
        printf("2: can come to rest from every table, and can keep moving\n");
        break;
    case RRP_MAY_NEVER_REST:
        printf("3: from some table never comes to rest\n");
        break;
    case RRP_NO_STEADY:
        printf("4: never comes to rest\n");
        break;
    }
    return 0;
}
