"""Where to load the hop step: a smallest set of reflectors that makes a list stable once they have
it.

The library names the set. The step is then put into the bytes of the plan, and the library is asked
for the verdict again: only a set that was tried is given. A set is for one list, and what it does
to the other lists is tried too.
"""

from __future__ import annotations

from collections.abc import Iterable, Mapping, Sequence
from typing import NamedTuple

from .library import REFUSALS, TOO_MANY_GROUPED
from .output import set_command, verdict_lines, verdict_values
from .plan import Plan, TooManyGrouped, Verdict, Which
from .text.statements import HOP_STEP, NO_REFLECTION


class HopSet(NamedTuple):
    """A smallest set of reflectors that makes a list stable once they have the hop step: those in
    `routers`. `verdict` is that of the list with the step there, and `statements` has the changes
    as `rrp check --set` takes them.

    `grouped` has the routers in groups of two or more, from which the set is drawn. Bit i of
    `number` is that of the i-th of them, and is set if it is in the set. No smaller set of
    reflectors makes the list stable, wherever they are in the plan, and of the sets of this size
    that are drawn from `grouped` and do, this one has the lowest number. A stable list has the
    empty set, and no other list has.
    """

    name: str
    number: int
    grouped: tuple[str, ...]
    routers: tuple[str, ...]
    statements: tuple[str, ...]
    verdict: Verdict

    def then_lines(self) -> list[str]:
        """What its list was found to be with the step there."""
        return _then_lines(self.verdict)

    def values(self) -> dict[str, object]:
        """The set and the verdict for its list as plain values."""
        return {
            "routers": self.routers,
            "number": self.number,
            "grouped": self.grouped,
            "statements": self.statements,
            "then": verdict_values(self.verdict),
        }


class Tried(NamedTuple):
    """What became of lists, by name, when a change or the hop step was tried."""

    become_suspect: tuple[str, ...]
    stay_suspect: tuple[str, ...]
    become_stable: tuple[str, ...]
    stay_stable: tuple[str, ...]

    @property
    def words(self) -> str:
        """How many lists became or stayed what, by name unless they are stable as before."""
        parts = []
        for kind, names in self._asdict().items():
            if names:
                verb, what = kind.split("_")
                count = f"1 {verb}s" if len(names) == 1 else f"{len(names)} {verb}"
                who = "" if kind == "stay_stable" else f": {', '.join(names)}"
                parts.append(f"{count} {what}{who}")
        return "; ".join(parts)


def smallest_set(plan: Plan, egress_list: Which) -> HopSet:
    """A smallest set of reflectors that makes a list stable once they have the hop step."""
    number, before = plan.hop_set_number(egress_list), plan.verdict(egress_list)
    places = enumerate(before.grouped)
    routers = tuple(router for place, router in places if number >> place & 1)
    verdict = plan.with_hop_step(routers).verdict(before.name)
    if not verdict.stable or number >> len(before.grouped):
        raise RuntimeError(f"the set of number {number} does not make {before.name} stable")
    statements = step_statements(plan, routers)
    return HopSet(before.name, number, before.grouped, routers, statements, verdict)


def set_if_few(plan: Plan, egress_list: Which) -> HopSet | None:
    """A smallest set, None where it is not worked out: more than 12 routers lie in groups."""
    try:
        return plan.hop_set(egress_list)
    except TooManyGrouped:
        return None


def not_worked_out(verdict: Verdict) -> str:
    """Why a set for a list is not worked out."""
    return f"not worked out: {REFUSALS[TOO_MANY_GROUPED]} ({len(verdict.grouped)} do)"


def step_statements(plan: Plan, routers: Iterable[str]) -> tuple[str, ...]:
    """The hop step at some reflectors, as `rrp check --set` takes it. Whether they reflect between
    their clients stays as it is."""
    statements = []
    for router in routers:
        skips = [NO_REFLECTION] * plan.skips_clients(router)
        statements.append(" ".join(["reflector", router, *skips, HOP_STEP]))
    return tuple(statements)


def none_needed(plan: Plan) -> str:
    """Who needs the hop step for a stable list. Those that have it may be why it is stable."""
    return "no further reflector" if any(map(plan.has_hop_step, plan.routers)) else "no reflector"


def tried_on(plan: Plan, routers: Sequence[str], lists: Iterable[str]) -> Tried:
    """What becomes of lists with the hop step at some reflectors, by trying."""
    changed, names = plan.with_hop_step(routers), list(lists)
    before, after = (
        {name: each.verdict(name).stable for name in names} for each in (plan, changed)
    )
    return became(before, after)


def became(
    before: Mapping[str, bool], after: Mapping[str, bool], leave_out: str | None = None
) -> Tried:
    """What becomes of lists that are stable, or not, before and after a change."""
    found: dict[tuple[bool, bool], list[str]] = {}
    for name in (name for name in before if name != leave_out):
        found.setdefault((before[name], after[name]), []).append(name)
    kinds = [(True, False), (False, False), (False, True), (True, True)]
    return Tried(*(tuple(found.get(kind, ())) for kind in kinds))


def tried_values(plan: Plan, hop_set: HopSet) -> dict[str, object]:
    """A set, with what was tried on its list and on the others, as plain values."""
    return {**hop_set.values(), "other_lists": _on_others(plan, hop_set)._asdict()}


def tried_lines(plan: Plan, hop_set: HopSet, path: str) -> list[str]:
    """What was tried with the step at the routers of a set, and how to see all that it changes in
    the plan of a file."""
    statements = [*plan.changes, *hop_set.statements]
    return judged_lines(hop_set.verdict, _on_others(plan, hop_set), path, statements)


def judged_lines(
    verdict: Verdict, others: Tried, path: str, statements: Iterable[str]
) -> list[str]:
    """What was tried with changes: the verdict for a list, and what became of the other lists, if
    there are any. And how to see all that they change in the plan of a file."""
    tried = [f"tried on the other lists: {others.words}"] if others.words else []
    return [*_then_lines(verdict), *tried, judge_line(path, statements)]


def _then_lines(verdict: Verdict) -> list[str]:
    first, *more = verdict_lines(verdict)
    return [f"tried: the list is then {first}", *more]


def judge_line(path: str, statements: Iterable[str]) -> str:
    """How to see what changes do in the plan of a file, for all lists. Routes may move also in
    lists that stay stable."""
    return f"to judge it for all lists, routes too: {set_command(path, statements)}"


def _on_others(plan: Plan, hop_set: HopSet) -> Tried:
    others = (name for name in plan.lists if name != hop_set.name)
    return tried_on(plan, hop_set.routers, others)
