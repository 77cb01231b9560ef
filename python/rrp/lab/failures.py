"""What fails while a lab runs: a session, or a router with all of its sessions."""

from __future__ import annotations

from .. import encoding
from ..errors import RrpError, cut_names
from ..failures import ROUTER, SESSION, Failure
from ..plan import Plan

_FORM = "name 'session A B' or 'router A'"


def read_failure(plan: Plan, text: str) -> Failure:
    """The failure that a text names, as `session A B` or `router A`."""
    kind, *names = text.split() or [""]
    if (kind, len(names)) not in ((SESSION, 2), (ROUTER, 1)):
        raise RrpError(cut_names(f"--fail {text!r} is no failure: {_FORM}"))
    routers = tuple(plan.routers[plan.router_number(name)] for name in names)
    if kind == SESSION and not _has_session(plan, *routers):
        raise RrpError(cut_names(f"--fail {text!r}: {routers[0]} has no session with {routers[1]}"))
    return Failure(kind, routers)


def without(plan: Plan, failure: Failure) -> Plan:
    """The plan once something has failed: without the session; or without all sessions of the
    router, which is in no list any more. Distances stay as they are."""
    numbers = [plan.router_number(router) for router in failure.routers]
    sessions = [pair for pair in plan.model.sessions if not set(numbers) <= set(pair)]
    lists = plan.model.lists
    if failure.kind == ROUTER:
        lists = [[each for each in listed if each not in numbers] for listed in lists]
    data = encoding.encode(plan.model._replace(sessions=sessions, lists=lists))
    return Plan(data, plan.routers, plan.lists, plan.source)


def _has_session(plan: Plan, router: str, other: str) -> bool:
    return other in plan.neighbours(router)
