"""What BIRD's command line says."""

from __future__ import annotations

import re
from collections.abc import Iterator, Mapping

from ...plan import Plan
from ..addresses import number_at
from ..hearing import Heard, Sessions
from .configurations import OWN_ROUTE

#: The first line of a route in what `show route all` writes: the protocol that has it, the address
#: of the neighbour that told it, and a star if it is the one that the router holds.
_ROUTE = re.compile(
    r"^\S*\s+\w+ \[(?P<protocol>\w+) [^\]]*?(?: from (?P<sender>[\d.]+))?\](?P<best> \*)?"
)
_ATTRIBUTE = re.compile(r"^\s+BGP\.(next_hop|cluster_list):(.*)$")

#: A session in what `show protocols all` writes, and a line that counts its updates.
_SESSION = re.compile(r"^(\w+) +BGP +\S+ +(\w+) +\S+ *(\w*)")
_COUNT = re.compile(r"^\s+(?:Import|Export) (?:updates|withdraws):\s+(\d+)")


def read_sessions(names: Mapping[str, str], text: str) -> Sessions:
    """What `show protocols all` says, where these are the protocols of routers."""
    lines = text.splitlines()
    states = [found for found in map(_SESSION.match, lines) if found]
    counts = [found for found in map(_COUNT.match, lines) if found]
    return Sessions(
        {names[found[1]]: found[2] == "up" and found[3] == "Established" for found in states},
        tuple(int(found[1]) for found in counts),
    )


def read_routes(plan: Plan, router: str, text: str) -> tuple[Heard, ...]:
    """What `show route all` says at a router."""
    return tuple(_heard(plan, router, *part) for part in _route_parts(text))


def _route_parts(text: str) -> Iterator[tuple[re.Match[str], dict[str, str]]]:
    """Each route's first line, and its attributes."""
    first, attributes = None, {}
    for line in text.splitlines():
        start, attribute = _ROUTE.match(line), _ATTRIBUTE.match(line)
        if start:
            if first:
                yield first, attributes
            first, attributes = start, {}
        elif attribute:
            attributes[attribute[1]] = attribute[2].strip()
    if first:
        yield first, attributes


def _heard(plan: Plan, router: str, first: re.Match[str], attributes: dict[str, str]) -> Heard:
    held = first["best"] is not None
    if first["protocol"] == OWN_ROUTE:
        return Heard(router, router, 0, held)
    egress, sender = number_at(attributes.get("next_hop", "")), number_at(first["sender"] or "")
    if egress is None or sender is None:
        raise RuntimeError(f"no route of a lab: {first[0]!r} {attributes}")
    length = len(attributes.get("cluster_list", "").split())
    return Heard(plan.routers[egress], plan.routers[sender], length, held)
