"""Whether any egress list can make a plan suspect, in words.

The library answers yes, no with such a list, or undecided. No word here may have undecided pass for
a yes, or say more than of the plan as it is written.
"""

from __future__ import annotations

from collections.abc import Sequence

from .library import MAX_LISTS
from .plan import NO, UNDECIDED, YES, EveryList, Plan

#: What is said of each answer. That of a no goes on with the list.
_WORDS = {
    YES: "no egress list can make this plan suspect",
    NO: "some egress list makes this plan suspect",
    UNDECIDED: "undecided: no list found that makes this plan suspect; some may exist",
}

#: What a list that was found is called.
_NAME = "found"


def always_words(found: EveryList) -> str:
    """The answer in a line, with the list of a no by name."""
    words = _WORDS[found.answer]
    return f"{words}: {', '.join(found.routers)}" if found.answer == NO else words


def always_values(found: EveryList) -> dict[str, object]:
    """The answer as plain values; the list is null unless there is one."""
    routers = found.routers if found.answer == NO else None
    return {"every_list": found.answer, "suspect_list": routers}


def own_list(plan: Plan, routers: Sequence[str]) -> str | None:
    """The first list of a plan that has just these routers, None if no list has."""
    return next((name for name in plan.lists if set(plan.egresses(name)) == set(routers)), None)


def statement_of(plan: Plan, routers: Sequence[str]) -> str:
    """The change that puts a list that was found into a plan: under a name that no list has or,
    where there is no room for one more, in place of the last."""
    if len(plan.lists) == MAX_LISTS:
        return " ".join(["list", plan.lists[-1], *routers])
    name, number = _NAME, 1
    while name in plan.lists:
        number += 1
        name = f"{_NAME}-{number}"
    return " ".join(["list", name, *routers])
