"""Routing tables by name."""

from __future__ import annotations

from collections.abc import Iterator, Mapping, Sequence
from typing import NamedTuple, Optional

from .library import NONE


class Route(NamedTuple):
    """A route that a router holds: its egress router, and the neighbour that advertised it."""

    egress: str
    sender: str


class Table(Mapping[str, Optional[Route]]):
    """Which route each router holds: `table["lon-a"]` is a `Route`, or None for nothing.

    A table does not change, and can be put into a set. `data` is its bytes, as the library's calls
    have them.
    """

    def __init__(self, data: bytes, routers: Sequence[str]) -> None:
        self.data = bytes(data)
        self.routers = tuple(routers)

    def __getitem__(self, router: str) -> Route | None:
        place = 2 * self._number(router)
        egress, sender = self.data[place : place + 2]
        return None if egress == NONE else Route(self.routers[egress], self.routers[sender])

    def __iter__(self) -> Iterator[str]:
        return iter(self.routers)

    def __len__(self) -> int:
        return len(self.routers)

    def __eq__(self, other: object) -> bool:
        if not isinstance(other, Table):
            return NotImplemented
        return (self.data, self.routers) == (other.data, other.routers)

    def __hash__(self) -> int:
        return hash((self.data, self.routers))

    def __repr__(self) -> str:
        return f"Table({dict(self)})"

    def with_route(self, router: str, route: Route | None) -> Table:
        """The table in which the router holds another route, or nothing."""
        place = 2 * self._number(router)
        held = [NONE, NONE] if route is None else [self._number(name) for name in route]
        return Table(self.data[:place] + bytes(held) + self.data[place + 2 :], self.routers)

    def _number(self, router: str) -> int:
        try:
            return self.routers.index(router)
        except ValueError:
            raise KeyError(router) from None
