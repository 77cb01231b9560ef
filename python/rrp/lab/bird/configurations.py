"""The configuration of each router's BIRD 2 daemon, with comments that say what of the plan each
part stands for."""

from __future__ import annotations

from collections.abc import Iterable, Iterator

from ...columns import left, widest
from ...plan import Plan
from ..addresses import (
    AUTONOMOUS_SYSTEM,
    PREFIX,
    identifier_words,
    labels,
    next_hop,
    router_id,
    session_address,
    title,
)

#: The static protocol that a listed router has its own route from.
OWN_ROUTE = "own_route"

_SESSION = """\
# What all sessions of this router have in common.
template bgp session {{
    local {address} as {autonomous_system};
    multihop;
    strict bind;                # listen on this router's own address alone
    connect delay time 1;       # connect at once, and try again every second
    connect retry time 1;
    error wait time 1, 2;
    hold time 240;              # no session ends because the machine is busy
    graceful restart off;       # what a lost neighbour told is gone at once
    ipv4 {{
        igp table igp_routes;   # how far a next hop is, is looked up there
        import filter heard;
        export all;
{hop}    }};
}}
"""

_OWN_ROUTE = """\
# This router is in the list: it has an external route, which it prefers to all that it hears.
protocol static {name} {{
    ipv4;
    route {prefix} blackhole;
}}
"""

_TO_CLIENTS = """\
# What clients are told: nothing that a client told, as this router does not reflect between them.
filter to_clients {
    if proto ~ "client_*" then reject;
    accept;
}
"""


def configuration(plan: Plan, egress_list: str, router: str) -> str:
    """The configuration of a router for a list."""
    return "\n".join(_parts(plan, egress_list, router))


def protocol_name(plan: Plan, router: str) -> str:
    """What its neighbours call their session with a router. The first word is its role, by which a
    reflector without reflection between its clients knows what they told."""
    return f"{plan.role(router)}_{labels(plan)[plan.router_number(router)]}"


def _parts(plan: Plan, egress_list: str, router: str) -> Iterator[str]:
    listed = router in plan.egresses(egress_list)
    yield _head(plan, egress_list, router)
    yield _distances(plan, router)
    if listed:
        yield _OWN_ROUTE.format(name=OWN_ROUTE, prefix=PREFIX)
    yield _heard(plan, router)
    if plan.skips_clients(router):
        yield _TO_CLIENTS
    yield _session(plan, router, listed)
    for neighbour in plan.neighbours(router):
        yield _neighbour(plan, router, neighbour)


def _head(plan: Plan, egress_list: str, router: str) -> str:
    number = plan.router_number(router)
    return f"""\
# {title(plan, egress_list, router)}

router id {router_id(plan, number)};    # {identifier_words(plan)}
log "{labels(plan)[number]}.log" all;
protocol device {{ }}
"""


def _distances(plan: Plan, router: str) -> str:
    """The distances as routes to next hops, in a table of their own."""
    return _with_lines(
        "# The IGP: how far each other router is, as the metric of a route to its next hop.\n"
        "# Nothing is forwarded in the lab, so that these routes lead nowhere.\n"
        "ipv4 table igp_routes;\n"
        "protocol static distances {\n"
        "    ipv4 { table igp_routes; };\n",
        (
            (f"route {next_hop(number)}/32 blackhole {{ igp_metric = {way}; }};", name)
            for number, name, way in _ways(plan, router)
            if way is not None
        ),
        "}\n",
    )


def _heard(plan: Plan, router: str) -> str:
    """What of the neighbours' routes counts."""
    return _with_lines(
        "# What is heard counts, but for routes to an egress router that there is no way to.\n"
        "filter heard {\n",
        (
            (f"if bgp_next_hop = {next_hop(number)} then reject;", f"no way to {name}")
            for number, name, way in _ways(plan, router)
            if way is None
        ),
        "    accept;\n}\n",
    )


def _ways(plan: Plan, router: str) -> Iterator[tuple[int, str, int | None]]:
    """The number and the name of each other router, and how far it is."""
    for number, name in enumerate(plan.routers):
        if name != router:
            yield number, name, plan.distance(router, name)


def _with_lines(head: str, lines: Iterable[tuple[str, str]], end: str) -> str:
    """Statements with their comments below one another, between a head and an end."""
    stated = list(lines)
    columns = widest(["", *(statement for statement, _ in stated)])
    body = (f"    {left(statement, columns)}  # {comment}\n" for statement, comment in stated)
    return head + "".join(body) + end


def _session(plan: Plan, router: str, listed: bool) -> str:
    number = plan.router_number(router)
    hop = f"        next hop address {next_hop(number)};    # of its own route\n"
    return _SESSION.format(
        address=session_address(number),
        autonomous_system=AUTONOMOUS_SYSTEM,
        hop=hop if listed else "",
    )


def _neighbour(plan: Plan, router: str, neighbour: str) -> str:
    """The session with a neighbour. A reflector says which neighbours are its clients."""
    address = session_address(plan.router_number(neighbour))
    lines = [
        f"protocol bgp {protocol_name(plan, neighbour)} from session {{    # {neighbour}",
        f"    neighbor {address} as {AUTONOMOUS_SYSTEM};",
    ]
    if plan.role(router) == "reflector" and plan.role(neighbour) == "client":
        lines.append("    rr client;")
        if plan.skips_clients(router):
            lines.append("    ipv4 { export filter to_clients; };")
    return "\n".join([*lines, "}", ""])
