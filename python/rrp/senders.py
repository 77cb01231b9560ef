"""The routers whose sender may be another on real routers.

Where a router hears its egress from several reflectors, the model takes the lowest number as the
sender. Real routers take the shortest CLUSTER_LIST first (RFC 4456, section 9). The egress is the
same either way, if each reflector has a cluster identifier of its own: those that share one drop
routes that the model passes on.
"""

from __future__ import annotations

from collections.abc import Sequence

from . import encoding
from .plan import Plan, Verdict


def sender_note(again: Sequence[str]) -> str:
    """What is said of senders beside a table, in which these routers hear their egress again."""
    return (
        "heard from several reflectors, an egress is shown from the lowest number. Real routers "
        "take the shortest CLUSTER_LIST (RFC 4456, section 9), so that there the sender may "
        "differ, never the egress, if each reflector has a cluster identifier of its own. "
        f"Here: {', '.join(again) or 'no router'}"
    )


def heard_again(plan: Plan, verdict: Verdict) -> tuple[str, ...]:
    """The routers of a stable list that hear the egress that they settle on from several
    reflectors: without the session with its sender, such a router has it from another."""
    found = []
    for router, route in verdict.table.items():
        if route is not None and route.sender != route.egress:
            apart = _without_session(plan, router, route.sender)
            empty = verdict.table.with_route(router, None)
            again = apart.activate(verdict.name, router, empty)[router]
            if again is not None and again.egress == route.egress:
                found.append(router)
    return tuple(found)


def _without_session(plan: Plan, router: str, other: str) -> Plan:
    """The plan without the session of two neighbours."""
    ends = sorted((plan.router_number(router), plan.router_number(other)))
    sessions = [pair for pair in plan.model.sessions if list(pair) != ends]
    data = encoding.encode(plan.model._replace(sessions=sessions))
    return Plan(data, plan.routers, plan.lists, plan.source)
