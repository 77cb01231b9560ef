"""Writes a plan as text. Reading that text gives the same bytes."""

from __future__ import annotations

from collections.abc import Iterator
from itertools import combinations

from ..columns import left, widest
from ..encoding import CLIENT, WIDE
from ..plan import Plan
from .statements import HOP_STEP, NO_REFLECTION, NO_WAY

#: The comment after the name of a list of nobody.
_NOBODY = " # nobody"

#: Identifiers from here on, those whose first byte is not 0, are written as IPv4 addresses.
_FIRST_ADDRESS = 1 << 24


def write(plan: Plan) -> str:
    """The text of a plan: that it is RRP2 if it is, its routers, sessions, distances and lists."""
    parts = [list(part(plan)) for part in (_mark, _routers, _sessions, _distances, _lists)]
    return "\n".join("".join(f"{line}\n" for line in part) for part in parts if part)


def identifier_text(identifier: int) -> str:
    """An identifier as an IPv4 address, or as a number if it is low."""
    if identifier < _FIRST_ADDRESS:
        return str(identifier)
    return ".".join(str(byte) for byte in identifier.to_bytes(4, "big"))


def _mark(plan: Plan) -> Iterator[str]:
    """A line that says that an RRP2 plan is one, also where its distances alone would say so."""
    if plan.width == WIDE:
        yield "wide  # four bytes a distance: RRP2"


def _routers(plan: Plan) -> Iterator[str]:
    """A line a router. A client's line has its sessions with reflectors."""
    identifiers = [identifier_text(identifier) for identifier in plan.model.identifiers]
    columns, width = widest(plan.routers), widest(identifiers)
    for number, (name, identifier) in enumerate(zip(plan.routers, identifiers)):
        line = f"{plan.role(number):9} {left(name, columns)} {identifier:{width}}"
        parents = _parents(plan, number)
        if plan.role(number) == "client" and parents:
            line += f" of {' '.join(parents)}"
        skips, step = plan.skips_clients(number), plan.has_hop_step(number)
        words = [NO_REFLECTION] * skips + [HOP_STEP] * step
        yield " ".join([line, *words]).rstrip()


def _parents(plan: Plan, client: int) -> list[str]:
    """The reflectors that a client has sessions with."""
    return [name for name in plan.neighbours(client) if plan.role(name) == "reflector"]


def _sessions(plan: Plan) -> Iterator[str]:
    """The sessions between two reflectors, as a mesh if each two have one, or two clients."""
    clients = {number for number, role in enumerate(plan.model.roles) if role == CLIENT}
    reflectors = [number for number in range(len(plan.routers)) if number not in clients]
    mesh = set(combinations(reflectors, 2))
    sessions = {pair for pair in plan.model.sessions if len(clients.intersection(pair)) != 1}
    if len(reflectors) > 2 and mesh <= sessions:
        sessions -= mesh
        yield " ".join(["mesh", *(plan.routers[number] for number in reflectors)])
    for one, other in sorted(sessions):
        yield f"session {plan.routers[one]} {plan.routers[other]}"


def _distances(plan: Plan) -> Iterator[str]:
    """The distance between each two routers: a line if it is the same both ways, else two."""
    rows = plan.model.distances
    for one, other in combinations(range(len(plan.routers)), 2):
        start, end = plan.routers[one], plan.routers[other]
        there, back = _way(rows[one][other]), _way(rows[other][one])
        if there == back:
            yield f"distance {start} {end} {there}"
        else:
            yield f"distance {start} > {end} {there}"
            yield f"distance {end} > {start} {back}"


def _way(distance: int | None) -> str:
    return NO_WAY if distance is None else str(distance)


def _lists(plan: Plan) -> Iterator[str]:
    """A line a list. Of one that names nobody, a comment says that this is so."""
    for name in plan.lists:
        yield " ".join(["list", name, *(plan.egresses(name) or [_NOBODY])])
