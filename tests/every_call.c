/* Refers to every call of the library and does nothing else, so that what is linked beside it is the library's own. */
#include "rrp.h"

typedef void (*call)(void);

static const volatile call calls[] = {
    (call)rrp_check,   (call)rrp_size,    (call)rrp_list,      (call)rrp_compare, (call)rrp_relies,   (call)rrp_explain,
    (call)rrp_verdict, (call)rrp_steady,  (call)rrp_hop_set,   (call)rrp_grade,   (call)rrp_figures,  (call)rrp_activate,
    (call)rrp_run,     (call)rrp_distances, (call)rrp_widen, (call)rrp_narrow, (call)rrp_every_list,
};

int main(void)
{
    return calls[0] == 0;
}
