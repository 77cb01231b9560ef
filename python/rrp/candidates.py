"""The changes that are worth trying where a list is suspect: another weight of a link, or another
distance where the plan has no links.

Verdicts turn on which of two listed routers is nearer to a router, and on ways that are there or
not. A number that is changed crosses such a comparison only where two distances meet, so that
numbers between two meetings are alike. Tried are the meetings, the numbers before and after each,
and, of a distance, no way. So for one change none that matters is left out.

What a weight makes of the distances is for the library to say (rrp_distances). The distances
without the link tell which weights are worth asking about.
"""

from __future__ import annotations

import struct
from collections.abc import Iterable, Iterator
from typing import NamedTuple, Union

from . import encoding, library
from .encoding import longest
from .plan import Plan
from .remedies import Change
from .text.statements import NUMBERS

_, _LEAST, _MOST = NUMBERS["link"]

#: A distance that meets no other. Which number it is does not matter.
_ANY = 1


class WeightChange(NamedTuple):
    """Another weight of a link, one way or both ways: `becomes` in place of `was`."""

    start: str
    end: str
    one_way: bool
    was: int
    becomes: int

    @property
    def size(self) -> int:
        """By how much the weight changes."""
        return abs(self.becomes - self.was)

    @property
    def statement(self) -> str:
        """The change as `rrp check --set` takes it."""
        way = " > " if self.one_way else " "
        return f"link {self.start}{way}{self.end} {self.becomes}"


AnyChange = Union[Change, WeightChange]


class State(NamedTuple):
    """The bytes of a plan, and the sheet of the links that it has its distances from."""

    data: bytes
    sheet: bytes = b""


class Distances:
    """A plan of which distances to listed routers are changed. `cost` is how much it takes to find
    the changes that are worth trying, beside a plan that is tried."""

    noun = "distance"

    def __init__(self, plan: Plan, listed: Iterable[str]) -> None:
        self.plan = plan
        self.listed = [plan.router_number(name) for name in listed]
        self.start = State(plan.data)
        self.cost = 1

    def changes(self, state: State, routers: Iterable[int]) -> Iterator[Change]:
        """The changes of a distance from one of some routers that are worth trying."""
        most, rows = longest(self.plan.width), encoding.decode(state.data).distances
        for router in routers:
            ways = {end: rows[router][end] for end in self.listed if end != router}
            for end, way in ways.items():
                met = [other for name, other in ways.items() if name != end and other is not None]
                names = self.plan.routers[router], self.plan.routers[end]
                for value in around(met or [_ANY], 0, most) | {None}:
                    if value != way:
                        yield Change(*names, way, value)

    def applied(self, state: State, change: Change) -> State:
        """The plan with a change."""
        ends = self.plan.router_number(change.start), self.plan.router_number(change.end)
        return State(encoding.with_distance(state.data, *ends, change.becomes))


class Weights:
    """A plan of which weights of links are changed. Distances that are stated stay. `cost` is as
    that of `Distances`."""

    noun = "weight"

    def __init__(self, plan: Plan, listed: Iterable[str]) -> None:
        self.plan, draft = plan, plan.draft
        self.listed = [plan.router_number(name) for name in listed]
        up, number = draft.links_up, plan.router_number
        weights = {(number(start), number(end)): weight for (start, end), weight in up.items()}
        self.start = State(plan.data, encoding.encode_links(weights))
        self._places = {ends: 4 * place for place, ends in enumerate(sorted(weights))}
        self._links = list(_links(weights))
        self.cost = 2 * len(self._links)
        self._stated = {
            (number(start), number(end)): way.value for (start, end), way in draft.distances.items()
        }

    def changes(self, state: State, routers: Iterable[int]) -> Iterator[WeightChange]:
        """The changes of a weight that are worth trying for what some routers compare."""
        routers = tuple(routers)
        for ways in self._links:
            was = self._weight(state, ways[0])
            names = [self.plan.routers[end] for end in ways[0]]
            for value in self._values(state, ways, routers) - {was}:
                yield WeightChange(*names, len(ways) == 1, was, value)

    def applied(self, state: State, change: WeightChange) -> State | None:
        """The plan with a change, None where a sum of weights is then too far."""
        ends = self.plan.router_number(change.start), self.plan.router_number(change.end)
        sheet = bytearray(state.sheet)
        for way in [ends] if change.one_way else [ends, ends[::-1]]:
            struct.pack_into("<H", sheet, self._places[way] + 2, change.becomes)
        try:
            body = library.distances(len(self.plan.routers), bytes(sheet))
        except library.Refused:
            return None
        data = encoding.with_distances(state.data, body, self._stated)
        return State(data, bytes(sheet))

    def _weight(self, state: State, way: tuple[int, int]) -> int:
        return struct.unpack_from("<H", state.sheet, self._places[way] + 2)[0]

    def _values(
        self, state: State, ways: tuple[tuple[int, int], ...], routers: Iterable[int]
    ) -> set[int]:
        """The weights of a link that are worth trying. `far` has the distances without it, and
        `through` those along it but for its own weight."""
        count, sheet = len(self.plan.routers), state.sheet
        for place in sorted((self._places[way] for way in ways), reverse=True):
            sheet = sheet[:place] + sheet[place + 4 :]
        try:
            body = library.distances(count, sheet)
        except library.Refused:
            return set()
        rows = {at: encoding.decode_row(body, count, at) for at in {*routers, *sum(ways, ())}}
        met = set()
        for router in routers:
            far = {end: self._stated.get((router, end), rows[router][end]) for end in self.listed}
            free = [end for end in self.listed if (router, end) not in self._stated]
            through = {end: _through(rows, router, end, ways) for end in free}
            met |= set(_meetings(far, through))
        return around(met, _LEAST, _MOST)


def around(met: Iterable[int], least: int, most: int) -> set[int]:
    """Some numbers, with those before and after each, as far as they are in a range."""
    numbers = {number + step for number in met for step in (-1, 0, 1)}
    return {number for number in numbers if least <= number <= most}


def _links(weights: dict[tuple[int, int], int]) -> Iterator[tuple[tuple[int, int], ...]]:
    """The ways of each link: two where it has the same weight both ways, else one."""
    for start, end in weights:
        if weights.get((end, start)) != weights[start, end]:
            yield ((start, end),)
        elif start < end:
            yield (start, end), (end, start)


def _through(
    rows: dict[int, list[int | None]], router: int, end: int, ways: tuple[tuple[int, int], ...]
) -> int | None:
    """How far it is along a link, but for its weight; None where that is no way."""
    sums = []
    for near, far in ways:
        before, behind = rows[router][near], rows[far][end]
        if before is not None and behind is not None:
            sums.append(before + behind)
    return min(sums) if sums else None


def _meetings(far: dict[int, int | None], through: dict[int, int | None]) -> Iterator[int]:
    """The weights with which it is as far to a listed router along the link as to another without
    it. Where every weight makes it farther along the link, the link does not matter."""
    for end, along in through.items():
        if along is None or (far[end] is not None and along + _LEAST >= far[end]):
            continue
        for other, way in far.items():
            if other != end and way is not None:
                yield way - along
