"""What may fail in a plan: a link, a session or a router; and the plan without it.

A link is between two routers, and fails in both directions. A router that fails takes its sessions
and links with it, and is in no list. It stays in the plan without any way to or from it, so that
the others keep their numbers. Distances are worked out again from the links that are left; those
that are stated stay, as nothing says which links they go over.
"""

from __future__ import annotations

from collections.abc import Iterable, Sequence
from typing import NamedTuple

from .plan import Plan
from .text import Draft
from .text.draft import Way, session

LINK, SESSION, ROUTER = "link", "session", "router"
KINDS = (LINK, SESSION, ROUTER)


class Failure(NamedTuple):
    """A link or a session, by its two routers, or a router that fails."""

    kind: str
    routers: tuple[str, ...]

    @property
    def words(self) -> str:
        """What fails."""
        return " ".join([self.kind, *self.routers])

    def values(self) -> dict[str, object]:
        """What fails, as plain values."""
        return {"kind": self.kind, "routers": self.routers}


def failures_of(plan: Plan, kind: str) -> list[Failure]:
    """All that may fail of a kind. A link that is down already is none."""
    if kind == ROUTER:
        return [Failure(kind, (name,)) for name in plan.routers]
    if kind == SESSION:
        return [Failure(kind, pair) for pair in plan.sessions]
    links = plan.draft.links
    up = dict.fromkeys(session(*ends) for ends in plan.draft.links_up)
    stated = [ends for ends in links if session(*ends) in up]
    first = {session(*ends): ends for ends in reversed(stated)}
    return [Failure(kind, first[pair]) for pair in up]


def without(draft: Draft, failures: Iterable[Failure]) -> Draft:
    """The draft without what fails."""
    left = draft.copy()
    for failure in failures:
        if failure.kind == ROUTER:
            _without_router(left, *failure.routers)
        elif failure.kind == SESSION:
            left.sessions.pop(session(*failure.routers), None)
        else:
            left.links.pop(failure.routers, None)
            left.links.pop(failure.routers[::-1], None)
    return left


def _without_router(left: Draft, failed: str) -> None:
    """Takes a router's sessions, links and listings away, and every way to it and from it."""
    left.sessions = {pair: word for pair, word in left.sessions.items() if failed not in pair}
    left.links = {ends: way for ends, way in left.links.items() if failed not in ends}
    for ends, way in left.distances.items():
        if failed in ends:
            left.distances[ends] = Way(None, way.word)
    for name, each in left.lists.items():
        if failed in each.routers:
            routers = tuple(router for router in each.routers if router != failed)
            left.lists[name] = each._replace(routers=routers)


def statements_of(plan: Plan, failure: Failure) -> list[str]:
    """A failure as changes of the plan, which `rrp check --set` takes."""
    if failure.kind != ROUTER:
        return [f"{failure.words} none"]
    (failed,) = failure.routers
    links = [each for each in failures_of(plan, LINK) if failed in each.routers]
    sessions = [each for each in failures_of(plan, SESSION) if failed in each.routers]
    statements = [f"{each.words} none" for each in (*sessions, *links)]
    for name in plan.lists:
        egresses = plan.egresses(name)
        if failed in egresses:
            left: Sequence[str] = [router for router in egresses if router != failed]
            statements.append(" ".join(["list", name, *left]))
    return statements
