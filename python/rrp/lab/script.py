"""The script of a lab: `up`, `show` and `down`. What differs between implementations of BGP is the
functions `up`, `show_router` and `namespaces`."""

from __future__ import annotations

from ..plan import Plan
from .addresses import PREFIX, SESSIONS, labels, one_line

#: The script's name.
SCRIPT = "lab"

_TEXT = """\
#!/bin/sh
# The list {name} of {source}, as {count} routers of {daemons}.
#
#   ./lab up [ROUTER ..]    starts all routers, or these in this order
#   ./lab show [ROUTER]     what each router holds, or all that one router hears
#   ./lab down              ends the daemons and removes their namespaces
#
# ROUTER is a name below. It needs root, {daemons} (Debian: package {package}) and ip (iproute2).
{where}
set -eu
cd "$(dirname "$0")"
namespace=${{NAMESPACE:-rrp-lab}}
pause=${{PAUSE:-0}}    # seconds between the start of one router and of the next
routers="{routers}"

{functions}
show() {{
    for router in ${{*:-$routers}}; do
        echo "== $router"
        show_router "$router" $#
    done
}}

down() {{
    # Daemons end when they are asked to, or after five seconds without being asked.
    for turn in 1 2 3 4 5 6 7 8 9 10 11; do
        daemons=$(for each in $(namespaces); do ip netns pids "$each" 2>/dev/null || true; done)
        if [ -z "$daemons" ]; then break; fi
        if [ "$turn" -lt 11 ]; then signal=TERM; else signal=KILL; fi
        kill -s "$signal" $daemons 2>/dev/null || true
        sleep 0.5
    done
    for each in $(namespaces); do
        ip netns delete "$each" 2>/dev/null || true
    done
}}

case ${{1:-}} in
up | show | down)
    "$@"
    ;;
*)
    sed -n 's/^# *\\(\\.\\/lab \\)/\\1/p' "$0"
    exit 2
    ;;
esac
"""


def script(
    plan: Plan, egress_list: str, daemons: str, package: str, where: str, functions: str
) -> str:
    """The script that runs the routers of a list. `where` says where a router has its files. In the
    functions SESSIONS stands for the range of session addresses, and PREFIX for the prefix."""
    return _TEXT.format(
        name=egress_list,
        source=one_line(plan.source),
        count=len(plan.routers),
        daemons=daemons,
        package=package,
        where=where,
        routers=" ".join(labels(plan)),
        functions=functions.replace("SESSIONS", SESSIONS).replace("PREFIX", PREFIX),
    )
