"""How two plans differ, by name: lists and routers that one of them alone has, verdicts, and the
rank, the egress and the sender of each router.

What a plan says for a list is compared as `rrp check --set` compares it.
"""

from __future__ import annotations

from typing import NamedTuple

from .effects import Effect, effect_on
from .encoding import Model
from .plan import Plan


class Differences(NamedTuple):
    """How a plan, `before`, differs from another, `after`. `parts` names what the plans themselves
    state otherwise of the routers that both have."""

    lists_before: tuple[str, ...]
    lists_after: tuple[str, ...]
    routers_before: tuple[str, ...]
    routers_after: tuple[str, ...]
    effects: tuple[Effect, ...]
    parts: tuple[str, ...]

    @property
    def alone(self) -> bool:
        """Whether one of the plans has a list or a router that the other has not."""
        lists, routers = self.lists_before + self.lists_after, self.routers_before
        return bool(lists + routers + self.routers_after)

    @property
    def differ(self) -> bool:
        """Whether a list, a router, or anything that the library says differs."""
        return self.alone or any(map(differs, self.effects))


def differences_of(before: Plan, after: Plan) -> Differences:
    """How a plan differs from another."""
    both = [name for name in after.lists if name in before.lists]
    return Differences(
        lists_before=tuple(name for name in before.lists if name not in after.lists),
        lists_after=tuple(name for name in after.lists if name not in before.lists),
        routers_before=tuple(name for name in before.routers if name not in after.routers),
        routers_after=tuple(name for name in after.routers if name not in before.routers),
        effects=tuple(effect_on(name, before, after) for name in both),
        parts=tuple(_other_parts(before, after)),
    )


def differs(found: Effect) -> bool:
    """Whether a list differs in its routers, its verdict, or in what is said of a router. A list
    that is suspect both times differs where cycle, groups, grade or the tables to rest in do."""
    if found.label is None or found.as_before is False or any(found.members or ()):
        return True
    if found.rest is None:
        return False
    if found.before.grouped != found.after.grouped:
        return found.rest.brief != found.rested.brief
    return found.rest != found.rested


def _other_parts(before: Plan, after: Plan) -> list[str]:
    """What the plans state otherwise of the routers and lists that both have."""
    both = [name for name in after.routers if name in before.routers]
    old, new = (_stated(plan, both) for plan in (before, after))
    return [part for part in old if old[part] != new[part]]


def _stated(plan: Plan, routers: list[str]) -> dict[str, object]:
    """What a plan states of some of its routers, part by part."""
    model: Model = plan.model
    numbers = [plan.router_number(name) for name in routers]
    sessions = {frozenset(pair) for pair in plan.sessions if set(pair) <= set(routers)}
    return {
        "roles": [model.roles[number] for number in numbers],
        "identifiers": [model.identifiers[number] for number in numbers],
        "sessions": sessions,
        "distances": [[model.distances[one][other] for other in numbers] for one in numbers],
        "mark": plan.mark,
    }
