"""Whether a filed verdict is the one that is due and, if not, how it differs: list by list and
router by router, or line by line where what is filed is no verdict."""

from __future__ import annotations

import re
from collections.abc import Iterator, Sequence
from itertools import zip_longest
from typing import NamedTuple

from .output import count_words, cycle_words
from .verdict_files import DIGEST, GROUP, PLAN, ROUTER, VERDICT, Entry, Key
from .verdict_files import digest_of, facts, lines_of

#: What may be said of a filed verdict: it is right; it is, but is the lines alone; it is right but
#: for being that of another plan; or it is false.
RIGHT, LINES, CHANGED, FALSE = "right", "lines", "changed", "false"

#: The values of a router, as differences name them.
RANK, ROUTE = "rank", "route"

#: So many differences are shown, and so much of a line.
_MOST_SHOWN = 3
_MOST_LETTERS = 80

_ALONE = (
    "its lines are right, but nothing more is filed: an edit of the plan may go unseen",
    "rrp file adds the ranks, routes and groups, and the SHA-256 of the plan",
)
_OTHER_PLAN = "another plan than the one filed, or its SHA-256 was altered"
_SAME = "every verdict, rank and route is the same"
_SAME_REFUSAL = "it is refused with the same number"
_LOOK = "look at what was edited, then file it anew with rrp file"


#: Numbers of another plan may be those of other routers and lists.
_NAMES_NOW = " (names are those of the plan as it is now)"


class Names(NamedTuple):
    """The names of the routers and of the lists by number, which a plan in bytes has not."""

    routers: Sequence[str] = ()
    lists: Sequence[str] = ()


class Difference(NamedTuple):
    """A value that is filed otherwise than it is: of the plan, of a list, or of a router for a
    list. It is None where there is no line with it."""

    number: int | None
    router: int | None
    value: str
    filed: str | None
    due: str | None

    def words(self, names: Names, same_plan: bool = True) -> str:
        """The difference in words. The names are those of the plan as it is now: where another one
        was filed, what is filed has its numbers alone."""
        place = "" if self.number is None else f"list {_with_name(self.number, names.lists)}"
        if self.router is not None and self.value != GROUP:
            place += f", router {_with_name(self.router, names.routers)}"
        filed, due = (_words(self.value, text, Names()) for text in (self.filed, self.due))
        if filed == due:
            filed, due = repr(self.filed), repr(self.due)
        elif same_plan:
            filed, due = (_words(self.value, text, names) for text in (self.filed, self.due))
        else:
            due = _words(self.value, self.due, names, numbered=True)
        return f"{place}{': ' if place else ''}filed {filed}, is {due}"

    def values(self, names: Names, same_plan: bool = True) -> dict[str, object]:
        """The difference as plain values. Names are null where the plan has none, and where another
        plan was filed and only what is filed has the number."""
        routers = names.routers if same_plan or self.due is not None else ()
        return {
            "list": self.number,
            "list_name": _name(self.number, names.lists),
            "router": self.router,
            "router_name": _name(self.router, routers),
            "value": self.value,
            "filed": self.filed,
            "is": self.due,
        }


class Comparison(NamedTuple):
    """What is found of a filed verdict, in words and value by value, and whether it is known to be
    filed for this very plan."""

    kind: str
    details: tuple[str, ...] = ()
    differences: tuple[Difference, ...] = ()
    same_plan: bool = True


def compare(filed: str, due: Entry, names: Names = Names()) -> Comparison:
    """Whether what is filed is what is due."""
    if filed == due.text:
        return Comparison(RIGHT)
    if filed == due.program:
        return Comparison(LINES, _ALONE)
    digest = digest_of(filed)
    if digest is not None and filed == due._replace(digest=f"sha256 {digest}\n").text:
        same = _SAME_REFUSAL if due.refused else _SAME
        return Comparison(CHANGED, (_OTHER_PLAN, f"{same}: {_LOOK}"))
    expected = due.program if _alone(filed) else due.text
    found = differences(filed, expected)
    same = due.digest == f"sha256 {digest}\n"
    shown = [each.words(names, same) for each in found] or _line_differences(filed, expected)
    details = shown[:_MOST_SHOWN]
    if len(shown) > len(details):
        details.append(f".. and {count_words(len(shown) - len(details), 'difference')} more")
    named = found and not same and names.routers
    last = f"{_whose(digest, same)}{_NAMES_NOW if named else ''}"
    return Comparison(FALSE, (*details, *([last] if last else [])), tuple(found), same)


def _alone(filed: str) -> bool:
    """Whether nothing is filed but the lines of the verdict program."""
    return not any(line.startswith(("list ", "sha256 ")) for line in lines_of(filed))


def _whose(digest: str | None, same: bool) -> str:
    """Whether the plan is the one that the verdict was filed for, if that is known."""
    if same:
        return "the plan is the one filed: its verdict was altered"
    if digest is None:
        return "it has no line of the plan's SHA-256: the plan may be another than the one filed"
    return "the plan is another than the one filed"


def differences(filed: str, due: str) -> list[Difference]:
    """The values that differ, list by list. There are none if what is filed is no verdict."""
    old, new = facts(filed), facts(due)
    if not old:
        return []
    if old.get(Key(PLAN)) != new[Key(PLAN)]:
        return [Difference(None, None, PLAN, old.get(Key(PLAN)), new[Key(PLAN)])]
    keys = sorted((key for key in {**old, **new} if key.kind != DIGEST), key=_place)
    other = {key.number for key in keys if key.kind == VERDICT and not _alike(old, new, key)}
    told = [key for key in keys if key.kind == VERDICT or key.number not in other]
    return [each for key in told for each in _values(key, old.get(key), new.get(key))]


def _place(key: Key) -> tuple[int, ...]:
    """Where a fact is told: by list, its verdict first."""
    kinds = (PLAN, VERDICT, GROUP, ROUTER)
    return -1 if key.number is None else key.number, kinds.index(key.kind), key.router or 0


def _alike(old: dict[Key, str], new: dict[Key, str], key: Key) -> bool:
    """Whether a list is stable both times, or suspect."""
    return old.get(key, "").split()[:1] == new.get(key, "").split()[:1]


def _values(key: Key, old: str | None, new: str | None) -> Iterator[Difference]:
    """The values of a line that differ. Those of a router's are its rank and its route."""
    if old == new:
        return
    if key.kind != ROUTER or old is None or new is None:
        yield Difference(key.number, key.router, key.kind, old, new)
        return
    for value, one, other in zip((RANK, ROUTE), old.split(" ", 2)[1:], new.split(" ", 2)[1:]):
        if one != other:
            yield Difference(key.number, key.router, value, one, other)


def _line_differences(filed: str, due: str) -> list[str]:
    """The lines that differ, where what is filed is no verdict or is not written as one."""
    old, new = lines_of(filed), lines_of(due)
    if not old:
        return ["the verdict is empty"]
    if old == new:
        return ["the lines are right, but do not end as rrp file ends them"]
    return [
        f"line {number}: filed {_shown(one)}, is {_shown(other)}"
        for number, (one, other) in enumerate(zip_longest(old, new), 1)
        if one != other
    ]


def _shown(line: str | None) -> str:
    if line is None:
        return "no line"
    return repr(line if len(line) <= _MOST_LETTERS else f"{line[:_MOST_LETTERS]}..")


def _words(value: str, text: str | None, names: Names, numbered: bool = False) -> str:
    """A value in words, with names where the plan has them. The routers of cycles and groups have
    their numbers too if that is asked for."""
    if text is None:
        return "no line"
    numbers = [int(word) for word in text.split() if word.isdigit()]
    routers = [_with_name(number, names.routers) for number in numbers]
    if not numbered:
        routers = [_name(number, names.routers) or str(number) for number in numbers]
    if value == PLAN and len(numbers) == 2:
        return f"{count_words(numbers[0], 'router')} and {count_words(numbers[1], 'list')}"
    if value == VERDICT and text.startswith("stable"):
        return f"stable with highest rank {numbers[0]}"
    if value == VERDICT:
        return f"suspect: {cycle_words(routers[1:])}"
    if value == GROUP:
        return f"group {', '.join(routers)}"
    if value == RANK:
        return f"rank {text}"
    return re.sub(
        "(egress|from) ([0-9]+)",
        lambda found: f"{found[1]} {_with_name(int(found[2]), names.routers)}",
        text,
    )


def _name(number: int | None, names: Sequence[str]) -> str | None:
    return names[number] if number is not None and number < len(names) else None


def _with_name(number: int, names: Sequence[str]) -> str:
    name = _name(number, names)
    return str(number) if name is None else f"{number} ({name})"
