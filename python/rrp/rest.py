"""Where the routers of a suspect list may come to rest, and whether they do, in words.

That there is a table to rest in is no promise that the routers get there: the grade says how far
that is promised. No word here may say more than the grade does.
"""

from __future__ import annotations

from collections.abc import Iterable, Mapping
from typing import NamedTuple

from . import library
from .library import REFUSALS, TOO_MANY_GROUPED
from .plan import ALWAYS_RESTS, CAN_REST, CANNOT_REST, NO_TABLE, Grade, Plan, Verdict

#: What is said once, where a suspect list has a table to rest in and need not get there.
NO_PROMISE = "a table to rest in is no promise that the routers get there"

#: What is said once, where a suspect list comes to rest whatever the order.
AS_THEY_STAND = (
    "coming to rest is promised of routers that read one another as they stand, not where updates "
    "take time"
)

#: What lists of each grade do, one and several; None stands for those that are not graded.
GRADES = {
    ALWAYS_RESTS: ("comes to rest whatever the order", "come to rest whatever the order"),
    CAN_REST: ("can always come to rest", "can always come to rest"),
    CANNOT_REST: ("cannot come to rest from some tables", "cannot come to rest from some tables"),
    NO_TABLE: ("never comes to rest", "never come to rest"),
    None: ("is not graded", "are not graded"),
}


class Rest(NamedTuple):
    """The numbers of the tables that a suspect list may rest in, and its grade. Both are None where
    they are not worked out, as more than 12 routers lie in groups of two or more; so many do."""

    numbers: tuple[int, ...] | None
    grouped: int
    grade: Grade | None

    @property
    def number(self) -> int | None:
        """The number of the grade."""
        return None if self.grade is None else self.grade.number

    @property
    def words(self) -> str:
        """Whether the list comes to rest, and where."""
        several = self.numbers is not None and len(self.numbers) > 1
        if self.number == ALWAYS_RESTS:
            return f"{self.brief}; which one is not promised" if several else self.brief
        if self.number == CAN_REST:
            return f"{self.brief}; that every order brings it there is not promised"
        if self.number == CANNOT_REST:
            order = ", by the order of activations" if several else ""
            return f"from some tables no order brings it to rest; it may rest {self.place}{order}"
        if self.number == NO_TABLE:
            return "rests in no table: its routers never come to rest"
        why = f"{REFUSALS[TOO_MANY_GROUPED]} ({self.grouped} do)"
        return f"not graded, and where it may rest is not worked out: {why}"

    @property
    def brief(self) -> str:
        """The same in the fewest words."""
        does = GRADES[self.number][0]
        if self.number == ALWAYS_RESTS:
            return f"{does}, within {self.grade.rounds} rounds, {self.place}"
        if self.number == CANNOT_REST:
            return f"{does}, can from others, {self.place}"
        return f"{does}, {self.place}" if self.numbers else does

    @property
    def place(self) -> str:
        """Where the list may rest. It has a table to rest in."""
        count = len(self.numbers or ())
        return "in one table only" if count == 1 else f"in one of {count} tables"

    def values(self) -> dict[str, object]:
        """The tables and the grade as plain values."""
        rounds = None if self.grade is None else self.grade.rounds
        return {"steady_numbers": self.numbers, "grade": self.number, "rest_rounds": rounds}


def rest_of(plan: Plan, verdict: Verdict) -> Rest | None:
    """Where a suspect list may rest. None for a stable list, whose verdict has the table."""
    if verdict.stable:
        return None
    return rest_in(plan.data, plan.list_number(verdict.name), len(verdict.grouped))


def rest_in(data: bytes, number: int, grouped: int) -> Rest:
    """Where a suspect list of a plan in bytes may rest, of which so many routers lie in groups."""
    found = grade_in(data, number)
    if found is None:
        return Rest(None, grouped, None)
    rounds = found.rounds if found.grade == ALWAYS_RESTS else None
    return Rest(library.steady(data, number), grouped, Grade(found.grade, rounds))


def grade_in(data: bytes, number: int) -> library.Graded | None:
    """The grade of a list of a plan in bytes, None where too many routers lie in groups."""
    try:
        return library.grade(data, number)
    except library.Refused as refused:
        if refused.number != TOO_MANY_GROUPED:
            raise
        return None


def pass_all(rests: Iterable[Rest | None], resting: bool) -> bool:
    """Whether all lists are stable or, if that is enough, come to rest whatever the order."""
    return all(rest is None or resting and rest.number == ALWAYS_RESTS for rest in rests)


def any_table(rests: Iterable[Rest | None]) -> bool:
    """Whether some suspect list has a table to rest in."""
    return any(rest is not None and rest.numbers for rest in rests)


def promise_lines(rests: Iterable[Rest | None]) -> list[str]:
    """What is said once of suspect lists: what their grades do not promise."""
    found = {rest.number for rest in rests if rest is not None}
    short = [NO_PROMISE] if found & {CAN_REST, CANNOT_REST} else []
    return [*short, *standing_lines(found)]


def standing_lines(numbers: Iterable[int | None]) -> list[str]:
    """What is said once where some of these grades promise rest."""
    return [AS_THEY_STAND] if ALWAYS_RESTS in numbers else []


def grade_words(counts: Mapping[int | None, int]) -> str:
    """How many suspect lists have which grade."""
    found = [(counts[each], words) for each, words in GRADES.items() if counts.get(each)]
    return ", ".join(f"{count:,} {words[count != 1]}" for count, words in found)


def grade_values(counts: Mapping[int | None, int]) -> dict[str, int]:
    """The same as plain values."""
    names = {each: "not_graded_lists" if each is None else f"grade_{each}_lists" for each in GRADES}
    return {name: counts.get(each, 0) for each, name in names.items()}


def grades_in(data: bytes, numbers: Iterable[int]) -> tuple[int | None, ...]:
    """The grades of some lists of a plan in bytes, None where too many routers lie in groups."""
    found = (grade_in(data, number) for number in numbers)
    return tuple(None if each is None else each.grade for each in found)
