"""Changes that make a suspect list stable, found by trying: one and, where none serves, two.

Where the plan has links, weights are changed, as a weight can be configured and a distance cannot;
else distances. `candidates` has those that are worth trying. Each plan that is tried is judged by
the library. A change that serves is then made as `rrp check --set` makes it, and all lists of the
plan are judged with it, before it is shown.

The search is bounded, and says how much was tried. Of single changes all that matter are tried,
unless they are too many. Of pairs those are tried whose first change ends the cycle of the verdict
and whose second one is at a router of the cycle that is left, so that where none serves, two others
still may.
"""

from __future__ import annotations

from collections import deque
from collections.abc import Iterable, Iterator, Sequence
from heapq import heappop, heappush
from math import inf
from typing import NamedTuple

from . import library
from .candidates import AnyChange, Distances, State, Weights
from .hop_sets import Tried, became, judged_lines
from .output import verdict_values
from .plan import Plan, Verdict

#: So many plans are tried at most with one change. To look for a pair goes on for as many steps:
#: one for a plan that is tried, and two for a link whose weights are looked at.
MOST_TRIED = 20_000

#: So many repairs are given, and of one link or distance so many are judged for all lists.
MOST_GIVEN = 3
_MOST_ALIKE = 6

_KINDS = ("single", "pairs")

#: What to do where nothing was found.
_NOT_FOUND = (
    "make one of the changes above in the plan, and show the list again for the cycle that is",
    "left; or change a session or the list",
)


class Repair(NamedTuple):
    """Changes that make a list stable, with the verdict that it then has, and what becomes of the
    other lists of the plan."""

    changes: tuple[AnyChange, ...]
    verdict: Verdict
    others: Tried

    @property
    def statements(self) -> tuple[str, ...]:
        """The changes as `rrp check --set` takes them."""
        return tuple(change.statement for change in self.changes)

    @property
    def words(self) -> str:
        """The changes, each with what is there now."""
        return " and ".join(
            f"{each.statement} (now {'none' if each.was is None else each.was})"
            for each in self.changes
        )

    @property
    def harms(self) -> bool:
        """Whether it makes another list suspect."""
        return bool(self.others.become_suspect)

    @property
    def order(self) -> tuple[int, int, int]:
        """Which repair goes before which: first one that makes fewer other lists suspect, then one
        that leaves fewer routers without a route, then one that changes less."""
        lacking = len(self.verdict.without_route)
        return len(self.others.become_suspect), lacking, _size(self.changes)

    def lines(self, path: str, changes: Sequence[str] = ()) -> list[str]:
        """What was tried, and how to see all that it changes in the plan of a file, which has
        changes already."""
        statements = [*changes, *self.statements]
        return judged_lines(self.verdict, self.others, path, statements)

    def values(self) -> dict[str, object]:
        """The repair as plain values."""
        changes = [
            {"statement": each.statement, "was": each.was, "becomes": each.becomes}
            for each in self.changes
        ]
        then = verdict_values(self.verdict)
        return {"changes": changes, "then": then, "other_lists": self.others._asdict()}


class Repairs(NamedTuple):
    """What was found for a list. `noun` is what was changed, a weight or a distance. `single` has
    repairs of one change and `pairs` those of two, the best first; pairs are sought only where
    every single one makes another list suspect, or there is none. `tried` plans were tried with one
    change and `pairs_tried` with two; `all_tried` says whether the first are all that matter, and
    `all_pairs_tried` whether the second are all that the search goes by, but for larger ones than
    one that was found."""

    noun: str
    single: tuple[Repair, ...]
    pairs: tuple[Repair, ...]
    tried: int
    all_tried: bool
    pairs_tried: int
    all_pairs_tried: bool

    @property
    def pairs_sought(self) -> bool:
        """Whether no single change serves without harm to another list."""
        return all(each.harms for each in self.single)

    def values(self) -> dict[str, object]:
        """What was found as plain values."""
        counts = {name: value for name, value in self._asdict().items() if "tried" in name}
        found = {name: [each.values() for each in getattr(self, name)] for name in _KINDS}
        return {"of": f"{self.noun}s", **found, **counts}

    def lines(self, path: str, changes: Sequence[str] = ()) -> list[str]:
        """What was found, with how much was tried, for the plan of a file with changes."""
        heads = [self._single_head(), *[self._pairs_head()] * self.pairs_sought]
        letters, said = iter("abcdef"), []
        for head, repairs in zip(heads, (self.single, self.pairs)):
            said.append(head)
            for repair in repairs:
                said.append(f"{next(letters)}. {repair.words}")
                said += [f"   {line}" for line in repair.lines(path, changes)]
        return said if self.single or self.pairs else [*said, *_NOT_FOUND]

    def _single_head(self) -> str:
        """Whether one change serves, and how many were tried."""
        tried = f"the {self.tried:,} smallest that matter were tried"
        if self.all_tried:
            tried = f"all {self.tried:,} that matter were tried"
        if not self.single:
            return f"no change of one {self.noun} makes the list stable: {tried}"
        harm = " and another list suspect" if self.pairs_sought else ""
        return f"a change of one {self.noun} makes the list stable{harm}; {tried}:"

    def _pairs_head(self) -> str:
        """Whether a pair serves, and how many were tried."""
        tried = f"{self.pairs_tried:,} pairs were tried, the smallest first"
        if not self.pairs:
            return f"no two {self.noun}s that were tried do: {tried}"
        return f"two {self.noun}s do; {tried}:"


def find_repairs(plan: Plan, verdict: Verdict, most: int = MOST_TRIED) -> Repairs:
    """Searches for changes that make a suspect list of a plan stable."""
    search = _Search(plan, verdict, most)
    changes = sorted(search.changes(), key=_order)
    single = search.singles(changes[:most])[:MOST_GIVEN]
    pairs = search.pairs()[:MOST_GIVEN] if all(each.harms for each in single) else []
    for repair in [*single, *pairs]:
        _hold(plan, repair)
    tried = min(most, len(changes)), len(changes) <= most, search.tried, search.steps > 0
    return Repairs(search.of.noun, tuple(single), tuple(pairs), *tried)


class _Pair(NamedTuple):
    """A pair that is to be tried: a first change, the plan with it, and the place of the second one
    among those that go with it, the smallest first. Each first change has a number of its own."""

    size: int
    number: int
    place: int
    first: AnyChange
    state: State
    seconds: list[AnyChange]

    @property
    def second(self) -> AnyChange:
        """The second change."""
        return self.seconds[self.place]


def _pair(
    number: int, first: AnyChange, state: State, seconds: list[AnyChange], place: int
) -> _Pair:
    return _Pair(first.size + seconds[place].size, number, place, first, state, seconds)


class _Search:
    """The search for one list. `steps` are left to look for a pair, of which `tried` plans were
    tried; `bound` is the size of the smallest pair that harms no other list."""

    def __init__(self, plan: Plan, verdict: Verdict, most: int) -> None:
        listed = verdict.egresses
        self.of = Weights(plan, listed) if plan.draft.links_up else Distances(plan, listed)
        self.plan, self.number = plan, plan.list_number(verdict.name)
        self.cycle = [plan.router_number(router) for router in verdict.cycle]
        self.grouped = [plan.router_number(router) for router in verdict.grouped]
        self.before = self._stable_lists(self.of.start)
        self.steps, self.tried, self.bound = most, 0, inf

    def changes(self) -> Iterator[AnyChange]:
        """The single changes that are worth trying. A cycle lies within a group, and what a router
        of a group relies on within it turns on the distances from routers of the group."""
        return self.of.changes(self.of.start, self.grouped)

    def singles(self, changes: Iterable[AnyChange]) -> list[Repair]:
        """The repairs of one change, the best one of each link or distance."""
        serving: dict[tuple[str, str], list[Repair]] = {}
        for change in changes:
            alike = serving.setdefault((change.start, change.end), [])
            if len(alike) < _MOST_ALIKE and not any(each.order[:2] == (0, 0) for each in alike):
                state = self.of.applied(self.of.start, change)
                if self._serves(state):
                    alike.append(self._repair(state, change))
        return sorted((min(each, key=_best) for each in serving.values() if each), key=_best)

    def pairs(self) -> list[Repair]:
        """The repairs of two changes that are found, one for each two links or distances."""
        found: dict[frozenset[tuple[str, str]], Repair] = {}
        for state, *changes in self._serving_pairs():
            repair = self._repair(state, *changes)
            place = frozenset((each.start, each.end) for each in changes)
            found[place] = min(found.get(place, repair), repair, key=_best)
            if not repair.harms:
                self.bound = min(self.bound, _size(changes))
        return sorted(found.values(), key=_best)

    def _serving_pairs(self) -> Iterator[tuple[State, AnyChange, AnyChange]]:
        """The pairs that make the list stable, of those that are tried, the smallest first: a
        change that ends the cycle, and one that is worth trying for the cycle that is left."""
        firsts, begun = deque(self._aimed(self.of.start, self.cycle)), []
        while self.steps > 0:
            self._begin(firsts, begun)
            if not begun or begun[0].size > self.bound:
                return
            pair = heappop(begun)
            state = self.of.applied(pair.state, pair.second)
            self.steps, self.tried = self.steps - 1, self.tried + 1
            if self._serves(state):
                yield state, pair.first, pair.second
            if len(pair.seconds) > pair.place + 1:
                heappush(begun, _pair(pair.number, pair.first, *pair[-2:], pair.place + 1))

    def _begin(self, firsts: deque[AnyChange], begun: list[_Pair]) -> None:
        """Takes up the first changes with which a pair may be as small as the smallest that is to
        be tried, each with the second ones."""
        while firsts and self.steps > 0:
            if begun and firsts[0].size >= begun[0].size:
                return
            first = firsts.popleft()
            state = self.of.applied(self.of.start, first)
            if state is None or self._has_cycle(state):
                continue
            left = library.verdict(state.data, self.number)
            seconds = [] if left.stable else self._aimed(state, left.cycle)
            if seconds:
                heappush(begun, _pair(-len(firsts), first, state, seconds, 0))

    def _aimed(self, state: State, routers: Iterable[int]) -> list[AnyChange]:
        """The changes that are worth trying for some routers, the smallest first."""
        self.steps -= self.of.cost
        return sorted(self.of.changes(state, routers), key=_order)

    def _has_cycle(self, state: State) -> bool:
        """Whether the routers of the cycle still rely on one another as they did."""
        pairs = zip(self.cycle, [*self.cycle[1:], self.cycle[0]])
        return all(library.relies(state.data, self.number, *pair) for pair in pairs)

    def _serves(self, state: State | None) -> bool:
        return state is not None and library.verdict(state.data, self.number).stable

    def _stable_lists(self, state: State) -> dict[str, bool]:
        """Whether each list is stable."""
        names = enumerate(self.plan.lists)
        return {name: library.verdict(state.data, number).stable for number, name in names}

    def _repair(self, state: State, *changes: AnyChange) -> Repair:
        """What changes do to all lists, as they were tried."""
        changed = Plan(state.data, self.plan.routers, self.plan.lists, self.plan.source)
        others = became(self.before, self._stable_lists(state), self.plan.lists[self.number])
        return Repair(changes, changed.verdict(self.number), others)


def _hold(plan: Plan, repair: Repair) -> None:
    """Makes the changes as `rrp check --set` makes them: the verdict must be the one found."""
    name = repair.verdict.name
    if plan.changed(*repair.statements).verdict(name) != repair.verdict:
        raise RuntimeError(f"{', '.join(repair.statements)} do not make {name} stable")


def _size(changes: Iterable[AnyChange]) -> int:
    return sum(change.size for change in changes)


def _order(change: AnyChange) -> tuple[int, str]:
    """The smallest change first; of several, by what they say."""
    return change.size, change.statement


def _best(repair: Repair) -> tuple[int, int, int]:
    return repair.order
