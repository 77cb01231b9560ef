"""What a change of a plan does to a list: to its verdict, and to the route and the rank of each
router.

The verdicts before and after are the library's. They are compared here, router by router.
"""

from __future__ import annotations

from collections.abc import Iterable, Iterator
from typing import NamedTuple

from .output import routers_do, verdict_values, verdict_words, without_route_lines
from .plan import Plan, Verdict
from .rest import Rest, rest_of
from .table_files import route_values
from .tables import Route


class Moved(NamedTuple):
    """A router, with the route that it settles on before a change and the one after it."""

    router: str
    before: Route | None
    after: Route | None

    @property
    def kind(self) -> str:
        """What becomes of the route: `lost`, `gained`, another `egress`, or another `sender`."""
        if self.after is None:
            return "lost"
        if self.before is None:
            return "gained"
        return "sender" if self.before.egress == self.after.egress else "egress"

    def values(self) -> dict[str, object]:
        """The router and its routes as plain values."""
        routes = {"before": route_values(self.before), "after": route_values(self.after)}
        return {"router": self.router, **routes}


class Ranked(NamedTuple):
    """A router, with its rank before a change and after it."""

    router: str
    before: int
    after: int


class Members(NamedTuple):
    """The routers that a change adds to a list, and those that it takes from it."""

    added: tuple[str, ...] = ()
    taken: tuple[str, ...] = ()

    def lines(self) -> Iterator[str]:
        """Who is added, and who is taken away."""
        if self.added:
            yield f"added to the list: {', '.join(self.added)}"
        if self.taken:
            yield f"taken from the list: {', '.join(self.taken)}"


class Effect(NamedTuple):
    """What a change does to a list. `before` is None where the list was not there. `moved` has the
    routers that settle on another route and `ranked` those of another rank; both are None where
    there is nothing to compare, as the list is not stable both times. `members` is None where the
    list was not there. `rest` says where the list may rest where it is suspect after the change,
    and `rested` where it might before; None where it is stable."""

    before: Verdict | None
    after: Verdict
    moved: list[Moved] | None
    ranked: list[Ranked] | None
    members: Members | None = Members()
    rest: Rest | None = None
    rested: Rest | None = None

    @property
    def as_before(self) -> bool | None:
        """Whether every rank and route is as before. None where that is not known: of a list that
        is suspect both times, the cycle and the groups may be the same and routes are not
        compared."""
        return None if self.same_groups else self._same()

    @property
    def same_groups(self) -> bool:
        """Whether the list is suspect both times, with the same cycle and the same groups."""
        return not self.after.stable and self._same()

    def _same(self) -> bool:
        """Whether the verdicts are the same, by name, in all but the routers of the list, which are
        no part of what is settled; `members` has what changes of them."""
        if self.before is None or not _same_verdict(self.before, self.after):
            return False
        if self.moved or self.ranked:
            return False
        return _group_sets(self.before) == _group_sets(self.after)

    @property
    def label(self) -> str | None:
        """What is as before, in two words; None where the verdict is another."""
        if self.before is None or not _same_verdict(self.before, self.after):
            return None
        if self.as_before:
            return "as before"
        return "same verdict" if self.after.stable else "same cycle"

    def rows(self) -> list[tuple[str, ...]]:
        """The list with its verdict: one row if that is the same, else one for it before and one
        after. What changes beside it is below."""
        name, new = self.after.name, verdict_words(self.after)
        rows = [(name, self.label or "after", new)]
        if self.label is None:
            old = "not there" if self.before is None else verdict_words(self.before)
            rows = [(name, "before", old), ("", "after", new)]
        return [*rows, *(("", "", line) for line in self.lines())]

    def lines(self) -> list[str]:
        """Where a suspect list may rest, what changes beside the verdict, and who ends without a
        route."""
        changes = [*self._rest_lines(), *self._group_lines()]
        changes += [*_route_lines(self.moved or []), *self._rank_lines()]
        if self.moved is None and self.members is not None:
            changes += self.members.lines()
        if self.label is not None and not self.after.stable:
            changes.append("routes are not compared: a suspect list has no settled table")
        return [*changes, *without_route_lines(self.after)]

    def _rest_lines(self) -> Iterator[str]:
        """Where a suspect list may rest and, if that was said otherwise before, what was."""
        if self.rest is not None:
            other = self.rested is not None and self.rested.brief != self.rest.brief
            yield f"{self.rest.words} (before: {self.rested.brief})" if other else self.rest.words

    def _group_lines(self) -> Iterator[str]:
        if self.before is None or self.before.stable or self.after.stable:
            return
        if _group_sets(self.before) != _group_sets(self.after):
            for when, verdict in (("before", self.before), ("after", self.after)):
                for group in verdict.groups:
                    yield f"routers that rely on one another {when}: {', '.join(group)}"

    def _rank_lines(self) -> Iterator[str]:
        if self.ranked:
            ranks = [f"{each.router} ({each.before} -> {each.after})" for each in self.ranked]
            yield f"{routers_do(ranks, 'change')} rank: {', '.join(ranks)}"

    def values(self) -> dict[str, object]:
        """The routers of the list after the change, the verdicts and what changes, as plain
        values."""
        return {
            "routers": self.after.egresses,
            "before": None if self.before is None else verdict_values(self.before, self.rested),
            "after": verdict_values(self.after, self.rest),
            "same_verdict": self.label is not None,
            "as_before": self.as_before,
            "routes": None if self.moved is None else _route_values(self.moved),
            "ranks": None if self.ranked is None else [each._asdict() for each in self.ranked],
            "members": None if self.members is None else self.members._asdict(),
        }


def effect_on(name: str, plan: Plan, changed: Plan) -> Effect:
    """What a change does to a list of the changed plan."""
    after = changed.verdict(name)
    rest = rest_of(changed, after)
    if name not in plan.lists:
        return effect(None, after, None)._replace(rest=rest)
    before, old, new = plan.verdict(name), plan.egresses(name), changed.egresses(name)
    added = tuple(router for router in new if router not in old)
    taken = tuple(router for router in old if router not in new)
    found = effect(before, after, Members(added, taken))
    return found._replace(rest=rest, rested=rest_of(plan, before))


def effect(before: Verdict | None, after: Verdict, members: Members | None = Members()) -> Effect:
    """What a change does to a list, of which these are the verdicts. Routers that only one of them
    has are not compared."""
    if before is None or before.table is None or after.table is None:
        return Effect(before, after, None, None, members)
    both = [router for router in after.ranks if router in before.ranks]
    moved = [Moved(router, before.table[router], after.table[router]) for router in both]
    ranked = [Ranked(router, before.ranks[router], after.ranks[router]) for router in both]
    return Effect(
        before,
        after,
        [each for each in moved if each.before != each.after],
        [each for each in ranked if each.before != each.after],
        members,
    )


def _same_verdict(before: Verdict, after: Verdict) -> bool:
    """Whether two verdicts are the same: the highest rank, or the cycle, wherever it starts."""
    if before.highest != after.highest or len(before.cycle) != len(after.cycle):
        return False
    turns = [before.cycle[start:] + before.cycle[:start] for start in range(len(before.cycle))]
    return after.cycle in (turns or [()])


def _group_sets(verdict: Verdict) -> set[frozenset[str]]:
    """The groups of two or more, whatever the order of the routers."""
    return set(map(frozenset, verdict.groups))


def _of(moved: Iterable[Moved], kind: str) -> list[Moved]:
    return [each for each in moved if each.kind == kind]


def _route_values(moved: list[Moved]) -> dict[str, object]:
    kinds = ("egress", "lost", "gained", "sender")
    return {kind: [each.values() for each in _of(moved, kind)] for kind in kinds}


def _route_lines(moved: list[Moved]) -> Iterator[str]:
    """Who settles on another route, and on which."""
    yield from _egress_lines(_of(moved, "egress"))
    lost, gained = _of(moved, "lost"), _of(moved, "gained")
    if lost:
        its = "its" if len(lost) == 1 else "their"
        yield f"{routers_do(lost, 'lose')} {its} route: {_names(lost)}"
    if gained:
        yield f"{routers_do(gained, 'gain')} a route: {_names(gained)}"
    yield from _sender_lines(_of(moved, "sender"))


def _egress_lines(moved: list[Moved]) -> Iterator[str]:
    """How many change egress, and for each two egresses a line on who moves between them."""
    if moved:
        yield f"{routers_do(moved, 'change')} egress:"
    pairs = [(each.before.egress, each.after.egress) for each in moved]
    for pair in dict.fromkeys(pairs):
        alike = [each for each, its in zip(moved, pairs) if its == pair]
        yield f"  from {' to '.join(pair)}: {_names(alike)}"


def _sender_lines(moved: list[Moved]) -> Iterator[str]:
    """Who keeps the egress, and has it from another neighbour."""
    if moved:
        has = "its egress, but has" if len(moved) == 1 else "their egress, but have"
        pairs = [f"{each.router} ({each.before.sender} -> {each.after.sender})" for each in moved]
        yield f"{routers_do(moved, 'keep')} {has} it from another neighbour: {', '.join(pairs)}"


def _names(moved: Iterable[Moved]) -> str:
    return ", ".join(each.router for each in moved)
