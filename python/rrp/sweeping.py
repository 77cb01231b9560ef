"""Every failure of a plan judged: one at a time, or two at once.

The library judges the plan without what fails, for every list, and gives its distances anew. What
it says is compared here with what it says of the plan as it is.
"""

from __future__ import annotations

from collections.abc import Iterable, Iterator, Sequence
from itertools import combinations
from typing import NamedTuple

from . import library
from .always import always_values
from .cores import on_all_cores
from .failures import ROUTER, Failure, without
from .library import NONE, Assessed
from .plan import ALWAYS_RESTS, EVERY_LIST, YES, EveryList, Plan
from .rest import Rest, rest_in
from .text.assembly import bytes_of

#: What a failure does, worst first: a list that was stable is suspect; routers that had a route
#: have none; routers have another egress; or every router keeps its egress.
SUSPECT, CUT, MOVED, KEPT = "suspect", "without_route", "moved", "kept"
CLASSES = (SUSPECT, CUT, MOVED, KEPT)


class Move(NamedTuple):
    """A router that settles on another egress."""

    router: str
    before: str
    after: str


class Outcome(NamedTuple):
    """What a failure does to a list. `cycle` has routers where the list is suspect after it, and
    `rest` says whether and where it then comes to rest.
    `lost` has the routers that end without a route, and that had one where the list was stable
    before; `moved` those that have another egress. Where the list is suspect before or after,
    nothing is said of moves. The routers that fail are never among them."""

    name: str
    was_stable: bool
    cycle: tuple[str, ...] = ()
    lost: tuple[str, ...] = ()
    moved: tuple[Move, ...] = ()
    rest: Rest | None = None

    @property
    def kind(self) -> str:
        """What the failure does to the list, the worst of it."""
        if self.cycle and self.was_stable:
            return SUSPECT
        return CUT if self.lost else MOVED if self.moved else KEPT

    def values(self) -> dict[str, object]:
        """The outcome as plain values."""
        return {
            "list": self.name,
            "kind": self.kind,
            "stable_before": self.was_stable,
            "stable": not self.cycle,
            "cycle": self.cycle,
            **({} if self.rest is None else self.rest.values()),
            "without_route": self.lost,
            "moved": [each._asdict() for each in self.moved],
        }


class Judged(NamedTuple):
    """What fails, and what that does to the lists: to each that was suspect before, and to those
    whose verdict or egresses are others with it. And whether any list makes the plan suspect then,
    if that is asked."""

    failures: tuple[Failure, ...]
    outcomes: tuple[Outcome, ...]
    every_list: EveryList | None = None

    @property
    def words(self) -> str:
        """What fails."""
        return " and ".join(each.words for each in self.failures)

    @property
    def kind(self) -> str:
        """What the failure does, the worst of it over all lists."""
        kinds = {each.kind for each in self.outcomes}
        return next((kind for kind in CLASSES if kind in kinds), KEPT)

    def passes(self, resting: bool) -> bool:
        """Whether no stable list is suspect then or, if that is enough, those that are come to rest
        whatever the order."""
        suspect = [each.rest for each in self.outcomes if each.kind == SUSPECT]
        return all(resting and rest and rest.number == ALWAYS_RESTS for rest in suspect)

    def weight(self) -> tuple[int, ...]:
        """The worst first: by what it does, then by how many lists and routers it does it to."""
        suspect = sum(each.kind == SUSPECT for each in self.outcomes)
        lost, moved = (
            sum(len(getattr(each, name)) for each in self.outcomes) for name in ("lost", "moved")
        )
        return CLASSES.index(self.kind), -suspect, -lost, -moved

    def values(self) -> dict[str, object]:
        """What fails and what that does, as plain values."""
        return {
            "failures": [each.values() for each in self.failures],
            "kind": self.kind,
            "lists": [each.values() for each in self.outcomes],
            **({} if self.every_list is None else always_values(self.every_list)),
        }


class NotJudged(NamedTuple):
    """What fails, and why the plan without it is not judged."""

    failures: tuple[Failure, ...]
    why: str

    @property
    def words(self) -> str:
        """What fails."""
        return " and ".join(each.words for each in self.failures)

    def values(self) -> dict[str, object]:
        """What fails and why it is not judged, as plain values."""
        return {"failures": [each.values() for each in self.failures], "why": self.why}


class Sweep:
    """A plan whose failures are judged, for some of its lists and, if that is asked, for every list
    whatever."""

    def __init__(self, plan: Plan, lists: Sequence[int], always: bool = False) -> None:
        self.plan, self.lists, self.always = plan, lists, always
        self.draft = plan.draft
        self.before = {number: library.verdict(plan.data, number) for number in lists}

    def judge(self, failures: tuple[Failure, ...]) -> Judged | NotJudged:
        """What failures do, all of them at once."""
        try:
            data = bytes_of(without(self.draft, failures))
        except library.Refused as refused:
            return NotJudged(failures, f"refused {refused.number}: {refused.sentence}")
        failed = {
            self.plan.router_number(each.routers[0]) for each in failures if each.kind == ROUTER
        }
        found = (self._outcome(number, data, failed) for number in self.lists)
        outcomes = tuple(each for each in found if each is not None)
        return Judged(failures, outcomes, self._every_list(data) if self.always else None)

    def judge_all(
        self, failures: Sequence[tuple[Failure, ...]], processes: int | None = None
    ) -> Iterator[Judged | NotJudged]:
        """What each of some failures does, on all cores. It comes in any order."""
        return on_all_cores(self.judge, list(failures), processes)

    def _every_list(self, data: bytes) -> EveryList:
        """Whether any list makes the plan suspect whose bytes without what fails are these."""
        found = library.every_list(data)
        routers = tuple(self.plan.routers[each] for each in found.routers)
        return EveryList(EVERY_LIST[found.answer], routers)

    def _outcome(self, number: int, data: bytes, failed: set[int]) -> Outcome | None:
        """What failures do to a list of the plan, whose bytes without them are these; None if it
        is stable, and every router keeps its egress."""
        before, after = self.before[number], library.verdict(data, number)
        if before == after and before.stable:
            return None
        name, routers = self.plan.lists[number], self.plan.routers
        cycle = tuple(routers[each] for each in after.cycle)
        lost, moved = _routes(before, after, failed) if after.stable else ((), ())
        outcome = Outcome(
            name,
            before.stable,
            cycle,
            tuple(routers[each] for each in lost),
            tuple(Move(*(routers[each] for each in move)) for move in moved),
            None if after.stable else rest_in(data, number, _grouped(after)),
        )
        return None if before.stable and outcome.kind == KEPT else outcome


def _grouped(answer: Assessed) -> int:
    """How many routers lie in groups of two or more."""
    return sum(answer.labels.count(label) > 1 for label in answer.labels)


def _routes(
    before: Assessed, after: Assessed, failed: set[int]
) -> tuple[list[int], list[tuple[int, int, int]]]:
    """The routers that end without a route, and that had one if that is known; and those that have
    another egress, with both."""
    new = after.table[::2]
    old = before.table[::2] if before.stable else new
    lost, moved = [], []
    for router, (was, now) in enumerate(zip(old, new)):
        if router in failed:
            continue
        if now == NONE and (was != NONE or not before.stable):
            lost.append(router)
        elif now != was and NONE not in (was, now):
            moved.append((router, was, now))
    return lost, moved


def loses(judged: Judged) -> bool:
    """Whether with what fails it is not known that no list makes the plan suspect."""
    return judged.every_list is not None and judged.every_list.answer != YES


def pairs_of(failures: Iterable[Failure]) -> list[tuple[Failure, ...]]:
    """Each two of some failures."""
    return list(combinations(failures, 2))


def beyond(pair: Judged, alone: Sequence[Judged]) -> Judged:
    """What two failures do at once that neither does alone: lists that neither makes suspect,
    routers that neither leaves without a route, and moves of routers that neither moves. Of a list
    that one of the two makes suspect, nothing is left."""
    found = []
    for outcome in pair.outcomes:
        singles = [each for one in alone for each in one.outcomes if each.name == outcome.name]
        if any(each.kind == SUSPECT for each in singles):
            continue
        lost = {router for each in singles for router in each.lost}
        moved = lost | {move.router for each in singles for move in each.moved}
        left = outcome._replace(
            lost=tuple(router for router in outcome.lost if router not in lost),
            moved=tuple(move for move in outcome.moved if move.router not in moved),
        )
        if left.kind != KEPT:
            found.append(left)
    return Judged(pair.failures, tuple(found))
