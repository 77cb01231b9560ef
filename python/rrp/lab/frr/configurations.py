"""The files of each router of a lab of FRR: the configuration of its daemon bgpd, and its network,
with comments that say what of the plan each part stands for."""

from __future__ import annotations

from collections.abc import Iterator

from ...plan import Plan
from ..addresses import (
    AUTONOMOUS_SYSTEM,
    PREFIX,
    identifier_words,
    next_hop,
    one_line,
    router_id,
    session_address,
    title,
)

#: The most that FRR takes of a kernel route's metric: the byte above it is a distance of its own.
LONGEST = (1 << 24) - 1

_SETTINGS = """\
frr defaults traditional
!
router bgp {autonomous_system}
 ! {whence}
 bgp router-id {identifier}
 no bgp network import-check"""

_NO_REFLECTION = """\
 ! this router does not reflect between its clients
 no bgp client-to-client reflection"""

_OWN_ROUTE = """\
  ! this router is in the list: it has an external route, which it prefers to all that it hears
  network {prefix}"""

_NEXT_HOP = """\
!
! The next hop of its own route: each router has its distance to it in file network.
route-map own_route permit 10
 set ip next-hop {hop}"""


def configuration(plan: Plan, egress_list: str, router: str) -> str:
    """The configuration of a router's daemon bgpd for a list."""
    head = f"! {title(plan, egress_list, router)}"
    listed = router in plan.egresses(egress_list)
    return "\n".join([head, *_parts(plan, router, listed), ""])


def _parts(plan: Plan, router: str, listed: bool) -> Iterator[str]:
    number = plan.router_number(router)
    yield _SETTINGS.format(
        autonomous_system=AUTONOMOUS_SYSTEM,
        whence=identifier_words(plan),
        identifier=router_id(plan, number),
    )
    if plan.skips_clients(router):
        yield _NO_REFLECTION
    for neighbour in plan.neighbours(router):
        yield from _neighbour(plan, neighbour)
    yield " address-family ipv4 unicast"
    if listed:
        yield _OWN_ROUTE.format(prefix=PREFIX)
    for neighbour in plan.neighbours(router):
        yield from _family(plan, router, neighbour, listed)
    yield " exit-address-family"
    if listed:
        yield _NEXT_HOP.format(hop=next_hop(number))


def _neighbour(plan: Plan, neighbour: str) -> Iterator[str]:
    address = session_address(plan.router_number(neighbour))
    yield f" ! {neighbour}, a {plan.role(neighbour)}"
    yield f" neighbor {address} remote-as {AUTONOMOUS_SYSTEM}"
    yield f" neighbor {address} timers connect 1"


def _family(plan: Plan, router: str, neighbour: str, listed: bool) -> Iterator[str]:
    """What is told to a neighbour. A reflector says which neighbours are its clients."""
    address = session_address(plan.router_number(neighbour))
    if plan.role(router) == "reflector" and plan.role(neighbour) == "client":
        yield f"  neighbor {address} route-reflector-client"
    if listed:
        yield f"  neighbor {address} route-map own_route out"


def network(plan: Plan, router: str) -> str:
    """The network of a router, as `ip -batch` reads it: its session address, and for each router
    that it has a way to a route to the next hop, whose metric is the distance. Where on the link
    its neighbours are is stated: what routers find out by asking, they keep in a table of the
    kernel that all namespaces share, and that is too small for many sessions."""
    number = plan.router_number(router)
    ways = ((each, plan.distance(number, each)) for each in range(len(plan.routers)))
    near = [plan.router_number(neighbour) for neighbour in plan.neighbours(router)]
    lines = [
        f"# {one_line(router)}: its address, and how far it is to the next hop of each router",
        f"link set eth0 address {_link_address(number)}",
        "link set eth0 up",
        f"address add {session_address(number)}/24 dev eth0",
        *(
            f"route add {next_hop(each)}/32 dev eth0 metric {way}"
            for each, way in ways
            if each != number and way is not None
        ),
        "# where its neighbours are on the link",
        *(
            f"neighbor add {session_address(each)} lladdr {_link_address(each)} dev eth0"
            for each in near
        ),
    ]
    return "\n".join([*lines, ""])


def _link_address(number: int) -> str:
    """A link address that is of this lab alone, as its second lowest bit says."""
    return f"02:00:00:00:00:{number + 1:02x}"
