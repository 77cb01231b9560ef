"""The smallest change of one distance that ends a reliance, found by trying.

A change is made in the bytes of the plan, and the library is asked again. Only what was tried is
given.

What is tried: a reliance turns on the distances from the relying router to what it is offered and
to its clients in the list, and on those from the other router to its clients in the list, which
decide what that one offers. A change of one of them matters only where it meets another distance of
the same router. So that one, the next lower and the next higher are tried, if the plan's bytes hold
them, and no way, which counts as a larger change than any other; the smallest change comes first.
"""

from __future__ import annotations

from collections.abc import Iterator
from itertools import groupby
from typing import NamedTuple

from .encoding import WIDE, longest, with_distance
from .output import verdict_values
from .plan import Explanation, Plan, Verdict, Which


class Change(NamedTuple):
    """Another distance from a router to another: `becomes` in place of `was`. None is no way."""

    start: str
    end: str
    was: int | None
    becomes: int | None

    @property
    def size(self) -> int:
        """By how much the distance changes. To or from no way is a larger change than any other."""
        if self.becomes is None or self.was is None:
            return longest(WIDE) + 1
        return abs(self.becomes - self.was)

    @property
    def statement(self) -> str:
        """The change as `rrp check --set` takes it."""
        becomes = "none" if self.becomes is None else self.becomes
        return f"distance {self.start} > {self.end} {becomes}"

    def applied(self, plan: Plan) -> Plan:
        """The plan with this change."""
        ends = plan.router_number(self.start), plan.router_number(self.end)
        changed = with_distance(plan.data, *ends, self.becomes)
        return Plan(changed, plan.routers, plan.lists, plan.source)


class Remedy(NamedTuple):
    """A change that ends a reliance, and what the library then says of the two routers and of the
    list."""

    change: Change
    explanation: Explanation
    verdict: Verdict

    def values(self) -> dict[str, object]:
        """The remedy as plain values."""
        return {
            "statement": self.change.statement,
            "from": self.change.start,
            "to": self.change.end,
            "was": self.change.was,
            "becomes": self.change.becomes,
            "reason": self.explanation.words,
            "then": verdict_values(self.verdict),
        }


def smallest_remedy(plan: Plan, egress_list: Which, router: str, other: str) -> Remedy | None:
    """The smallest change of one distance that ends a reliance, None if none does.

    Of several, one that makes the list stable is taken, and one of the distance to the offer.
    """
    changes = sorted(_changes(plan, egress_list, router, other), key=_size)
    for _, alike in groupby(changes, key=_size):
        tried = [_tried(plan, egress_list, router, other, change) for change in alike]
        remedies = [remedy for remedy in tried if remedy is not None]
        if remedies:
            return min(remedies, key=lambda remedy: not remedy.verdict.stable)
    return None


def _size(change: Change) -> int:
    return change.size


def _tried(
    plan: Plan, egress_list: Which, router: str, other: str, change: Change
) -> Remedy | None:
    """The remedy that a change is, None if the reliance is still there."""
    changed = change.applied(plan)
    explanation = changed.explain(egress_list, router, other)
    if explanation.relies:
        return None
    return Remedy(change, explanation, changed.verdict(egress_list))


def _changes(plan: Plan, egress_list: Which, router: str, other: str) -> Iterator[Change]:
    """The changes to try, those of the distance to the offer first."""
    offer = plan.explain(egress_list, router, other).offer
    for start in (router, other):
        ends = _listed_neighbours(plan, egress_list, start)
        if start == router and offer is not None:
            ends = [offer, *(end for end in ends if end != offer)]
        distances = {end: plan.distance(start, end) for end in ends}
        ways = {end: way for end, way in distances.items() if way is not None}
        for end, way in ways.items():
            met = [distance for name, distance in ways.items() if name != end]
            values = _values(way, met, longest(plan.width))
            yield from (Change(start, end, way, value) for value in values)


def _listed_neighbours(plan: Plan, egress_list: Which, router: str) -> list[str]:
    """The routers of the list that a router has sessions with."""
    neighbours = plan.neighbours(router)
    return [egress for egress in plan.egresses(egress_list) if egress in neighbours]


def _values(way: int, met: list[int], most: int) -> list[int | None]:
    """What a distance may become: one of those that it meets, the next to it, or no way."""
    around = {distance + step for distance in met for step in (-1, 0, 1)}
    return [*sorted(value for value in around - {way} if 0 <= value <= most), None]
