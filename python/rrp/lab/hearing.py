"""What daemons say of themselves, whatever their implementation: which sessions are established,
how many updates there were, and which routes a router hears."""

from __future__ import annotations

from collections.abc import Mapping
from typing import Dict, NamedTuple, Tuple

from ..library import NONE
from ..plan import Plan
from ..tables import Route, Table


class Heard(NamedTuple):
    """A route that a router hears: its egress router, the neighbour that told it, and the length of
    its CLUSTER_LIST. `held` says whether it is the one that the router holds."""

    egress: str
    sender: str
    cluster_list: int
    held: bool

    @property
    def route(self) -> Route:
        """The route as tables have it."""
        return Route(self.egress, self.sender)


class Sessions(NamedTuple):
    """Whether the session with each neighbour is established, and how many updates and withdrawals
    there were, in counts of which any change says that there was another."""

    established: Dict[str, bool]
    counts: Tuple[int, ...]


#: The routes that each router hears, by name.
Hearing = Mapping[str, Tuple[Heard, ...]]


def held_by(heard: tuple[Heard, ...]) -> Heard | None:
    """Of what a router hears, the route that it holds."""
    return next((each for each in heard if each.held), None)


def table_of(plan: Plan, hearing: Hearing) -> Table:
    """The table of what all routers hold."""
    table = Table(bytes([NONE]) * (2 * len(plan.routers)), plan.routers)
    for router, heard in hearing.items():
        held = held_by(heard)
        table = table.with_route(router, held and held.route)
    return table
