"""All lists of a plan in figures, and those of several plans summed.

The library counts the lists of a plan. Sums over plans are made here. There routers are taken for
one exactly if name and identifier are the same. A name that only says the number, as r0, says
nothing of another plan: beside others such a router is known by its identifier alone.
"""

from __future__ import annotations

from collections import Counter
from collections.abc import Iterable, Sequence
from itertools import zip_longest
from typing import NamedTuple

from . import library
from .plan import ALWAYS_RESTS, Plan
from .rest import grade_values, grades_in
from .text.writing import identifier_text


class Figures(NamedTuple):
    """All lists of a plan in figures: how many are stable, how many suspect, and the highest rank
    among the stable ones, None if no list is stable. `by_rank` has for each rank, from 0 on, how
    many stable lists have it as their highest, and `by_router` for each router in how many lists it
    is in a group of two or more, which suspect lists alone have. `by_grade` has how many suspect
    lists have each grade that some has, by its number, None for those that are not graded."""

    stable: int
    suspect: int
    highest: int | None
    by_rank: tuple[int, ...]
    by_router: dict[str, int]
    by_grade: dict[int | None, int]

    @property
    def lists(self) -> int:
        """How many lists the plan has."""
        return self.stable + self.suspect


class Counted(NamedTuple):
    """A plan that was counted, by its file: its figures, how many of its lists name nobody, and the
    identifiers of its routers, in their order."""

    path: str
    figures: Figures
    nobody: int
    identifiers: tuple[int, ...]

    def values(self) -> dict[str, object]:
        """The plan and its lists as plain values."""
        return {
            "plan": self.path,
            "lists": self.figures.lists,
            "stable_lists": self.figures.stable,
            "suspect_lists": self.figures.suspect,
            **grade_values(self.figures.by_grade),
            "nobody_lists": self.nobody,
            "highest_rank": self.figures.highest,
        }


class RouterSum(NamedTuple):
    """A router over all plans that have it, so many and with so many lists: in how many of these it
    is in a group of two or more. It has no name where only numbers tell it."""

    name: str | None
    identifier: int
    plans: int
    lists: int
    grouped: int

    def values(self) -> dict[str, object]:
        """The router and its lists as plain values."""
        return {
            "router": self.name,
            "identifier": identifier_text(self.identifier),
            "plans": self.plans,
            "lists": self.lists,
            "grouped_lists": self.grouped,
        }


class Sums(NamedTuple):
    """The figures of all plans that were counted, summed. `highest` is the highest rank among their
    stable lists, None if there is none. `by_rank` goes as far as the plan with most routers does.
    `by_router` has the routers most often in groups first."""

    plans: tuple[Counted, ...]
    stable: int
    suspect: int
    nobody: int
    highest: int | None
    by_rank: tuple[int, ...]
    by_router: tuple[RouterSum, ...]
    by_grade: dict[int | None, int]

    @property
    def lists(self) -> int:
        """How many lists the plans have."""
        return self.stable + self.suspect

    def values(self) -> dict[str, object]:
        """The sums as plain values, without those by rank, by router and by plan."""
        return {
            "plans": len(self.plans),
            "lists": self.lists,
            "stable_lists": self.stable,
            "suspect_lists": self.suspect,
            **grade_values(self.by_grade),
            "nobody_lists": self.nobody,
            "highest_rank": self.highest,
        }


def figures_of(plan: Plan) -> Figures:
    """All lists of a plan in figures."""
    found = library.figures(plan.data)
    by_router = dict(zip(plan.routers, found.by_router))
    ranks, grades = tuple(found.by_rank), _by_grade(plan, found)
    return Figures(found.stable, found.suspect, found.highest, ranks, by_router, grades)


def _by_grade(plan: Plan, found: library.Counted) -> dict[int | None, int]:
    """How many suspect lists have which grade. Every stable list has the first, and none else."""
    if not found.suspect:
        return {}
    counts = Counter(grades_in(plan.data, range(len(plan.lists))))
    counts[ALWAYS_RESTS] -= found.stable
    return dict(+counts)


def counted(plan: Plan) -> Counted:
    """A plan that was read, counted."""
    nobody = sum(not plan.egresses(name) for name in plan.lists)
    return Counted(plan.source, plan.figures(), nobody, tuple(plan.model.identifiers))


def sums_of(plans: Sequence[Counted]) -> Sums:
    """The figures of plans, summed."""
    figures = [each.figures for each in plans]
    ranks = [each.highest for each in figures if each.highest is not None]
    columns = zip_longest(*(each.by_rank for each in figures), fillvalue=0)
    return Sums(
        plans=tuple(plans),
        stable=sum(each.stable for each in figures),
        suspect=sum(each.suspect for each in figures),
        nobody=sum(each.nobody for each in plans),
        highest=max(ranks, default=None),
        by_rank=tuple(map(sum, columns)),
        by_router=_by_router(plans),
        by_grade=dict(sum((Counter(each.by_grade) for each in figures), Counter())),
    )


def _by_router(plans: Sequence[Counted]) -> tuple[RouterSum, ...]:
    """The routers of plans, most often in groups first, then by identifier and name."""
    found: dict[tuple[str | None, int], RouterSum] = {}
    for plan in plans:
        for name, identifier, grouped in _routers(plan, alone=len(plans) == 1):
            before = found.get((name, identifier), RouterSum(name, identifier, 0, 0, 0))
            found[name, identifier] = before._replace(
                plans=before.plans + 1,
                lists=before.lists + plan.figures.lists,
                grouped=before.grouped + grouped,
            )
    return tuple(
        sorted(found.values(), key=lambda each: (-each.grouped, each.identifier, each.name or ""))
    )


def _routers(plan: Counted, alone: bool) -> Iterable[tuple[str | None, int, int]]:
    """The routers of a plan: name, identifier, and in how many lists it is in a group. Beside other
    plans, a name that only says the number is none."""
    rows = zip(plan.figures.by_router.items(), plan.identifiers)
    for number, ((name, grouped), identifier) in enumerate(rows):
        yield None if name == f"r{number}" and not alone else name, identifier, grouped
