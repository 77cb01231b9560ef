"""Whether what the daemons hold is what the verdict says.

Of a stable list they come to rest in its settled table. A suspect list promises nothing but that,
where its routers rest, they rest in one of its steady tables. Senders may be others than the
table's: where a router hears its egress from two reflectors, the model takes the lower number and
daemons the shorter CLUSTER_LIST (RFC 4456, section 9).
"""

from __future__ import annotations

from typing import NamedTuple

from ..plan import Plan, TooManyGrouped, Verdict
from ..steady import steady_tables
from ..tables import Route, Table
from .hearing import Heard, Hearing, held_by

#: What is seen of a boot.
AGREES = "agrees"
SENDERS = "agrees but for senders"
DIFFERS = "differs"
RESTS = "rests"
MOVES = "moves"


class OtherSender(NamedTuple):
    """A router that holds its egress from another neighbour than the table has, as the CLUSTER_LIST
    of that route is shorter than that of the table's, which it hears too."""

    router: str
    held: Heard
    due: Heard


class Comparison(NamedTuple):
    """How what is held differs from a table: in senders by CLUSTER_LIST, and otherwise."""

    senders: tuple[OtherSender, ...]
    differing: tuple[str, ...]


class Finding(NamedTuple):
    """What was seen, of the kinds above, and whether it is as the verdict promises.

    `number` is that of the steady table that a suspect list rests in, None where the tables are not
    worked out. `due` is the table that was compared with, and `comparison` how it differs; None
    where there is none to compare with.
    """

    kind: str
    as_promised: bool
    number: int | None = None
    due: Table | None = None
    comparison: Comparison = Comparison((), ())


def finding(plan: Plan, verdict: Verdict, hearing: Hearing | None) -> Finding:
    """What is to be said of what all routers hear at rest, None if they do not come to rest."""
    if hearing is None:
        return Finding(MOVES, not verdict.stable)
    if not verdict.stable:
        return _rest(plan, verdict, hearing)
    found = compare(verdict.table, hearing)
    kind = DIFFERS if found.differing else SENDERS if found.senders else AGREES
    return Finding(kind, not found.differing, None, verdict.table, found)


def _rest(plan: Plan, verdict: Verdict, hearing: Hearing) -> Finding:
    """What is to be said of a suspect list whose routers rest."""
    try:
        listed = steady_tables(plan, verdict.name).tables
    except TooManyGrouped:
        return Finding(RESTS, True)
    for each in listed:
        found = compare(each.table, hearing)
        if not found.differing:
            return Finding(RESTS, True, each.number, each.table, found)
    return Finding(DIFFERS, False)


def compare(due: Table, hearing: Hearing) -> Comparison:
    """How what the routers hold differs from a table."""
    senders, differing = [], []
    for router, route in due.items():
        held = held_by(hearing[router])
        if (held and held.route) == route:
            continue
        other = _other_sender(router, route, hearing[router])
        if other is None:
            differing.append(router)
        else:
            senders.append(other)
    return Comparison(tuple(senders), tuple(differing))


def _other_sender(router: str, route: Route | None, heard: tuple[Heard, ...]) -> OtherSender | None:
    """Why a router does not hold the route of a table, if that is by CLUSTER_LIST."""
    held = held_by(heard)
    due = next((each for each in heard if each.route == route), None)
    if held is None or due is None or held.egress != due.egress:
        return None
    return OtherSender(router, held, due) if held.cluster_list < due.cluster_list else None
