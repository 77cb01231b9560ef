"""The routers that `rrp run --order` names, with blanks or commas between them.

A name may have commas in it. A word between blanks that is a router's name is that router; another
is taken apart at commas, in the one way in which all its parts are routers.
"""

from __future__ import annotations

from collections.abc import Sequence

from .errors import RrpError, UnknownName
from .plan import Plan


def read_order(plan: Plan, text: str) -> list[str]:
    """The routers that a text names, by name or number."""
    found = [router for word in text.split() for router in _routers(plan, word)]
    if not found:
        raise RrpError(f"--order names no router: name some, as --order {plan.routers[0]}")
    return found


def order_words(plan: Plan, routers: Sequence[str]) -> str:
    """The routers of an order as one text, which is read as they are."""
    return (" " if any("," in router for router in plan.routers) else ",").join(routers)


def _routers(plan: Plan, word: str) -> list[str]:
    """The routers of a word without blanks."""
    if word in plan.routers:
        return [word]
    parts = word.split(",")
    readings = _readings(plan, parts)
    if len(readings) > 1:
        one, other = (" ".join(reading) for reading in readings)
        advice = f"put blanks between routers, as --order '{one}'"
        raise RrpError(f"--order: {word} may be {one} or {other}: {advice}")
    if not readings:
        unknown = next(part for part in parts if part and not _known(plan, part))
        plan.router_number(unknown)
    return readings[0]


def _readings(plan: Plan, parts: list[str]) -> list[list[str]]:
    """At most two ways to read parts as routers, of which each may be several parts together. An
    empty part by itself is no router."""
    most = 1 + max(router.count(",") for router in plan.routers)
    ways: list[list[list[str]]] = [[]] * len(parts) + [[[]]]
    for place in reversed(range(len(parts))):
        found = ways[place + 1] if not parts[place] else []
        for end in range(place + 1, min(place + most, len(parts)) + 1):
            router = _known(plan, ",".join(parts[place:end]))
            found = found + [[router, *rest] for rest in ways[end] if router is not None]
        ways[place] = found[:2]
    return ways[0]


def _known(plan: Plan, word: str) -> str | None:
    """The router of a name or number, None if there is none."""
    try:
        return plan.routers[plan.router_number(word)]
    except UnknownName:
        return None
