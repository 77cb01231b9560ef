"""The bytes of a plan (docs/FORMAT.md) to and from a plain model.

Layout alone: whether bytes are a plan is for the library to say.
"""

from __future__ import annotations

import struct
from collections.abc import Iterable
from typing import List, NamedTuple, Optional

from .library import NO_WAY, NO_WAY_WIDE

#: How many bytes a distance has, and what a plan of such distances starts with.
NARROW, WIDE = 2, 4
MARKS = {NARROW: b"RRP1", WIDE: b"RRP2"}

#: What bytes start with that are meant as a plan, also of a version that the library refuses.
_ANY_MARK = b"RRP"

#: The number that says no way, by the bytes of a distance, and the letter that `struct` has for it.
_NO_WAYS = {NARROW: NO_WAY, WIDE: NO_WAY_WIDE}
_LETTERS = {NARROW: "H", WIDE: "I"}

#: The roles. A skipping reflector does not reflect between its clients, and one with the hop step
#: puts a route that its own egress router tells before one that is passed on.
REFLECTOR = 1
CLIENT = 2
SKIPPING = 3
HOP_STEP = 4
SKIPPING_HOP_STEP = 5

#: The role of a reflector, by whether it skips its clients and whether it has the hop step.
REFLECTORS = {
    (False, False): REFLECTOR,
    (True, False): SKIPPING,
    (False, True): HOP_STEP,
    (True, True): SKIPPING_HOP_STEP,
}

#: What the role of a reflector becomes where it gets the hop step. Other roles stay.
_WITH_STEP = {REFLECTOR: HOP_STEP, SKIPPING: SKIPPING_HOP_STEP}

#: The distances from each router to each other, None for no way.
Rows = List[List[Optional[int]]]

_HEADER = 26


class Model(NamedTuple):
    """What a plan says, by router number. `width` is how many bytes each distance has."""

    roles: list[int]
    identifiers: list[int]
    sessions: list[tuple[int, int]]
    distances: Rows
    lists: list[list[int]]
    width: int = NARROW


def skips(role: int) -> bool:
    """Whether a role is that of a reflector that skips its clients."""
    return role in (SKIPPING, SKIPPING_HOP_STEP)


def has_step(role: int) -> bool:
    """Whether a role is that of a reflector with the hop step."""
    return role in (HOP_STEP, SKIPPING_HOP_STEP)


def is_bytes(data: bytes) -> bool:
    """Whether the content of a file is meant as a plan in bytes, not as text."""
    return data.startswith(_ANY_MARK)


def longest(width: int) -> int:
    """The longest distance that so many bytes hold. The number after it says no way."""
    return _NO_WAYS[width] - 1


def width_of(plan: bytes) -> int:
    """How many bytes a distance has in a plan that the library does not refuse."""
    return WIDE if plan.startswith(MARKS[WIDE]) else NARROW


def width_for(rows: Rows) -> int:
    """How many bytes a distance needs to have, so that all of these can be told from no way."""
    far = longest(NARROW)
    return WIDE if any(way is not None and way > far for row in rows for way in row) else NARROW


def decode(plan: bytes) -> Model:
    """The model of a plan that the library does not refuse."""
    routers, sessions, distances, lists = _bodies(plan)
    stated, width = list(struct.iter_unpack("<BI", routers)), width_of(plan)
    return Model(
        roles=[role for role, _ in stated],
        identifiers=[identifier for _, identifier in stated],
        sessions=list(zip(sessions[::2], sessions[1::2])),
        distances=decode_distances(distances, len(stated), width),
        lists=_decode_lists(lists),
        width=width,
    )


def _bodies(plan: bytes) -> list[bytes]:
    """The four bodies that the table of contents names."""
    entries = struct.iter_unpack("<BHH", plan[6:_HEADER])
    return [plan[offset : offset + length] for _, offset, length in entries]


def decode_distances(body: bytes, routers: int, width: int = NARROW) -> Rows:
    """The rows of a body of distances."""
    words = struct.unpack(f"<{routers * routers}{_LETTERS[width]}", body)
    ways = [None if word == _NO_WAYS[width] else word for word in words]
    return [ways[row * routers : (row + 1) * routers] for row in range(routers)]


def decode_row(body: bytes, routers: int, row: int) -> list[int | None]:
    """A row of a body of two-byte distances."""
    words = struct.unpack_from(f"<{routers}H", body, NARROW * routers * row)
    return [None if word == NO_WAY else word for word in words]


def _decode_lists(body: bytes) -> list[list[int]]:
    lists, place = [], 1
    for _ in range(body[0]):
        end = place + 1 + body[place]
        lists.append(list(body[place + 1 : end]))
        place = end
    return lists


def encode(model: Model) -> bytes:
    """The bytes of a model. The library says whether they are a plan."""
    routers = zip(model.roles, model.identifiers)
    bodies = [
        b"".join(struct.pack("<BI", role, identifier) for role, identifier in routers),
        bytes(number for session in model.sessions for number in session),
        _encode_distances([way for row in model.distances for way in row], model.width),
        bytes([len(model.lists)]) + b"".join(bytes([len(each), *each]) for each in model.lists),
    ]
    plan, offset = MARKS[model.width] + bytes([len(model.roles), len(bodies)]), _HEADER
    for kind, body in enumerate(bodies, 1):
        plan += struct.pack("<BHH", kind, offset, len(body))
        offset += len(body)
    return plan + b"".join(bodies)


def _encode_distances(distances: list[int | None], width: int) -> bytes:
    """The bytes of distances, one after the other. One that is too far never becomes no way."""
    no_way = _NO_WAYS[width]
    stated = [distance for distance in distances if distance is not None]
    if stated and not 0 <= min(stated) <= max(stated) < no_way:
        raise ValueError(f"{width} bytes hold a distance from 0 to {no_way - 1}")
    words = [no_way if distance is None else distance for distance in distances]
    return struct.pack(f"<{len(words)}{_LETTERS[width]}", *words)


def with_distance(plan: bytes, start: int, end: int, distance: int | None) -> bytes:
    """The bytes of a plan that the library does not refuse, with one distance replaced."""
    width = width_of(plan)
    (body,) = struct.unpack_from("<H", plan, 6 + 5 * 2 + 1)
    place = body + width * (plan[4] * start + end)
    return plan[:place] + _encode_distances([distance], width) + plan[place + width :]


def with_distances(
    plan: bytes, body: bytes, stated: dict[tuple[int, int], int | None]
) -> bytes:
    """The bytes of a plan that the library does not refuse, with the two-byte distances of a body
    in place of its own, and in place of some of them those that are stated."""
    width, count = width_of(plan), plan[4]
    (place,) = struct.unpack_from("<H", plan, 6 + 5 * 2 + 1)
    if width == WIDE:
        rows = decode_distances(body, count)
        body = _encode_distances([way for row in rows for way in row], WIDE)
    written = bytearray(body)
    for (start, end), way in stated.items():
        at = width * (count * start + end)
        written[at : at + width] = _encode_distances([way], width)
    return plan[:place] + bytes(written) + plan[place + len(written) :]


def with_step(plan: bytes, routers: Iterable[int]) -> bytes:
    """The bytes of a plan that the library does not refuse, with the hop step at some routers: role
    1 becomes 4, and 3 becomes 5."""
    (body,) = struct.unpack_from("<H", plan, 6 + 1)
    changed = bytearray(plan)
    for router in routers:
        place = body + 5 * router
        changed[place] = _WITH_STEP.get(changed[place], changed[place])
    return bytes(changed)


def encode_links(links: dict[tuple[int, int], int]) -> bytes:
    """A sheet of links: the weight of each link from a router to another, in rising order."""
    return b"".join(struct.pack("<BBH", *ends, links[ends]) for ends in sorted(links))
