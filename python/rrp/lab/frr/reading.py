"""What FRR's command line says, in JSON."""

from __future__ import annotations

import json

from ...plan import Plan
from ..addresses import number_at
from ..hearing import Heard, Sessions


def read_sessions(plan: Plan, text: str) -> Sessions:
    """What `show bgp neighbors json` says."""
    found = {
        plan.routers[number_at(address)]: values
        for address, values in json.loads(text or "{}").items()
        if number_at(address) is not None
    }
    states = {name: values.get("bgpState") == "Established" for name, values in found.items()}
    stats = [values.get("messageStats", {}) for values in found.values()]
    counts = [each.get(way, 0) for each in stats for way in ("updatesSent", "updatesRecv")]
    return Sessions(states, tuple(counts))


def read_routes(plan: Plan, router: str, text: str) -> tuple[Heard, ...]:
    """What `show bgp ipv4 unicast PREFIX json` says at a router. A route whose next hop it has no
    way to is not valid, and counts for nothing."""
    paths = json.loads(text or "{}").get("paths", [])
    return tuple(_heard(plan, router, path) for path in paths if path.get("valid"))


def _heard(plan: Plan, router: str, path: dict) -> Heard:
    held = bool(path.get("bestpath", {}).get("overall"))
    if path.get("sourced"):
        return Heard(router, router, 0, held)
    egress, sender = number_at(path["nexthops"][0]["ip"]), number_at(path["peer"]["peerId"])
    if egress is None or sender is None:
        raise RuntimeError(f"no route of a lab: {path}")
    length = len(path.get("clusterList", {}).get("list", []))
    return Heard(plan.routers[egress], plan.routers[sender], length, held)
