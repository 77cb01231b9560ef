"""The calls of the proved library (include/rrp.h), by ctypes.

Each function here makes one call. A refused call raises `Refused`, which has the number and its
sentence. Bytes go in as `bytes`, and what a call writes comes back as `bytes`. Nothing is worked
out here.
"""

from __future__ import annotations

import ctypes
import os
from collections.abc import Callable
from typing import NamedTuple

from .errors import LibraryMissing, RrpError

#: The limits and marks of the header.
MAX_ROUTERS = 64
MAX_LISTS = 64
MAX_LINKS = 512
MAX_PLAN = 24923
NO_WAY = 65535
NO_WAY_WIDE = 4294967295
NONE = 255

#: No list has more steady tables: their numbers have a bit for each of at most 12 routers.
MOST_STEADY = 4096

#: The refusals that the tool asks for by name.
BAD_TABLE = 10
TOO_FAR = 12
TOO_MANY_PARENTS = 13
TOO_FAR_TO_NARROW = 14
TOO_MANY_GROUPED = 15

#: Why a call is refused, by number, in the words of docs/CALLS.md.
REFUSALS = {
    1: "the plan does not start RRP1 or RRP2, is shorter than 26 bytes or longer than 16,731 "
    "(RRP1) or 24,923 (RRP2), or byte 5 is not 4; or it has the wrong mark to be converted",
    2: "the number of routers is 0 or above 64",
    3: "a kind, an offset or a length in the table of contents is wrong",
    4: "a role is not 1 to 5, or the identifiers do not rise strictly",
    5: "a session is not two routers, the lower number first, or the sessions do not rise strictly",
    6: "the distance from a router to itself is not 0",
    7: "there are not 1 to 64 lists, the routers of each rising strictly, up to the plan's end",
    8: "a list or a router asked for is not in the plan; a run asks for its whole sequence",
    9: "a buffer is shorter than the call needs",
    10: "the table breaks its rule: own route if listed, else nothing or an egress from a "
    "neighbour",
    11: "the sheet is not 0 to 512 whole links of two routers and a weight above 0, rising "
    "strictly",
    12: "from some router there are walks to another, and their least sum of weights is above "
    "65,534",
    13: "a client has sessions with five or more reflectors",
    14: "a distance that is not no way is above 65,534, too far for two bytes",
    15: "more than 12 routers lie in groups of two or more",
}


class Refused(RrpError):
    """A call was refused. `number` is the library's, and `sentence` says what it means."""

    def __init__(self, number: int, source: str | None = None) -> None:
        self.number = number
        self.sentence = REFUSALS.get(number, "a refusal that this tool does not know")
        text = f"refused {number}: {self.sentence}"
        super().__init__(text if source is None else f"{source}: {text}")


class Compared(NamedTuple):
    """Which of two routes is better at a router: 1 the first, 2 the second, 0 neither. The margin
    is the distance to the first egress minus that to the second, None where there is no way."""

    better: int
    margin: int | None


class Explained(NamedTuple):
    """Why a router relies on another, by the number of the rule, or does not, by that of the
    reason. `own` is None where no best client is compared with the offer."""

    relies: bool
    code: int
    offer: int
    own: int | None
    margin: int


class Assessed(NamedTuple):
    """A verdict. Stable: `size` is the highest rank, and `cycle` is empty. Suspect: `size` is the
    length of `cycle`, and `ranks` and `table` are empty."""

    stable: bool
    size: int
    labels: bytes
    ranks: bytes
    table: bytes
    cycle: bytes


class Counted(NamedTuple):
    """All lists of a plan in figures: how many are stable, how many suspect, and the highest rank
    among the stable ones, None if no list is stable. `by_rank` has for each rank how many stable
    lists have it as their highest, and `by_router` for each router in how many lists it is in a
    group of two or more."""

    stable: int
    suspect: int
    highest: int | None
    by_rank: bytes
    by_router: bytes


class Graded(NamedTuple):
    """The grade of a list: 1 always comes to rest, 2 can always come to rest, 3 from some table
    never does though a steady one exists, 4 there is no steady table. `rounds` is a number of
    rounds within which a list of grade 1 comes to rest, else 0."""

    grade: int
    rounds: int


class EveryListed(NamedTuple):
    """Whether a plan is stable for every list: 1 yes, 0 no, 2 undecided. With a no `routers` has a
    list for which it is suspect, else nobody."""

    answer: int
    routers: bytes


class Ran(NamedTuple):
    """A run: the table that it left, the activations made, the rounds that ended among them, and
    whether the sequence is longer than the limit."""

    table: bytes
    applied: int
    rounds: int
    exhausted: bool


_SIZE, _LONG, _FLAG = ctypes.c_size_t, ctypes.c_uint64, ctypes.c_uint8
_FLAG_OUT, _LONG_OUT = ctypes.POINTER(ctypes.c_uint8), ctypes.POINTER(ctypes.c_uint64)
_SIGNED_OUT = ctypes.POINTER(ctypes.c_int64)
_BYTES = (ctypes.c_char_p, ctypes.c_size_t)
_WHY_OUT = (_FLAG_OUT, _FLAG_OUT, _LONG_OUT, _FLAG_OUT, _LONG_OUT, _SIGNED_OUT)
_COMPARED_OUT = (_FLAG_OUT, _FLAG_OUT, _SIGNED_OUT)

#: The arguments of each function of the header. All return the refusal number.
PROTOTYPES = {
    "rrp_check": _BYTES,
    "rrp_size": (*_BYTES, _LONG_OUT, _LONG_OUT),
    "rrp_list": (*_BYTES, _SIZE, _LONG_OUT, _LONG_OUT),
    "rrp_compare": (*_BYTES, _SIZE, _SIZE, _SIZE, _FLAG, _FLAG, *_COMPARED_OUT),
    "rrp_relies": (*_BYTES, _SIZE, _SIZE, _SIZE, _FLAG_OUT),
    "rrp_explain": (*_BYTES, _SIZE, _SIZE, _SIZE, *_WHY_OUT),
    "rrp_verdict": (*_BYTES, _SIZE, *_BYTES, *_BYTES, *_BYTES, *_BYTES, _FLAG_OUT, _LONG_OUT),
    "rrp_figures": (*_BYTES, *_BYTES, *_BYTES, _LONG_OUT, _LONG_OUT, _FLAG_OUT, _LONG_OUT),
    "rrp_every_list": (*_BYTES, _FLAG_OUT, *_BYTES, _LONG_OUT),
    "rrp_activate": (*_BYTES, _SIZE, _SIZE, *_BYTES),
    "rrp_run": (*_BYTES, _SIZE, *_BYTES, _LONG, *_BYTES, _LONG_OUT, _LONG_OUT, _FLAG_OUT),
    "rrp_steady": (*_BYTES, _SIZE, *_BYTES, _LONG_OUT),
    "rrp_hop_set": (*_BYTES, _SIZE, _LONG_OUT),
    "rrp_grade": (*_BYTES, _SIZE, _FLAG_OUT, _LONG_OUT),
    "rrp_distances": (_SIZE, *_BYTES, *_BYTES),
    "rrp_widen": (*_BYTES, *_BYTES, _LONG_OUT),
    "rrp_narrow": (*_BYTES, *_BYTES, _LONG_OUT),
}

_BUILD = "build it with ./build at the root of the repository"


def places() -> list[str]:
    """Where the shared library may be: beside the package, or in the repository's target/lib."""
    package = os.path.dirname(os.path.abspath(__file__))
    repository = os.path.dirname(os.path.dirname(package))
    return [
        os.path.join(package, "librrp.so"),
        os.path.join(repository, "target", "lib", "librrp.so"),
    ]


def find() -> str:
    """The path of the shared library: that in RRP_LIBRARY if it is set, else the first place."""
    named = os.environ.get("RRP_LIBRARY")
    if named:
        if os.path.isfile(named):
            return named
        raise LibraryMissing(f"RRP_LIBRARY is {named}, which is no file: correct it, or {_BUILD}")
    for path in places():
        if os.path.isfile(path):
            return path
    raise LibraryMissing(
        f"the proved library is not there: {_BUILD}, or name it in RRP_LIBRARY\n"
        f"    looked at {' and '.join(places())}"
    )


def _open(path: str) -> ctypes.CDLL:
    """Loads the library and declares its functions."""
    try:
        loaded = ctypes.CDLL(path)
    except OSError as failure:
        raise LibraryMissing(f"{path} cannot be loaded: {_BUILD}\n    {failure}") from None
    for name, arguments in PROTOTYPES.items():
        function = getattr(loaded, name, None)
        if function is None:
            raise LibraryMissing(f"{path} has no {name}: {_BUILD}")
        function.argtypes = arguments
        function.restype = ctypes.c_uint8
    return loaded


_loaded: ctypes.CDLL | None = None


def library() -> ctypes.CDLL:
    """The library, loaded once."""
    global _loaded
    if _loaded is None:
        _loaded = _open(find())
    return _loaded


def _raise_if(number: int) -> None:
    if number != 0:
        raise Refused(number)


def _sizes(*numbers: int) -> tuple[int, ...]:
    """Numbers as a size_t holds them. One that it cannot hold becomes the largest that it can,
    which is no router's and no list's."""
    most = 2**64 - 1
    return tuple(number if 0 <= number <= most else most for number in numbers)


def refusal(plan: bytes) -> int:
    """The plan's refusal number, 0 for none (rrp_check)."""
    return library().rrp_check(plan, len(plan))


def size(plan: bytes) -> tuple[int, int]:
    """How many routers and how many lists the plan has (rrp_size)."""
    routers, lists = ctypes.c_uint64(), ctypes.c_uint64()
    _raise_if(library().rrp_size(plan, len(plan), routers, lists))
    return routers.value, lists.value


def egress_list(plan: bytes, egresses: int) -> bytes:
    """The router numbers of a list, one byte each (rrp_list)."""
    start, count = ctypes.c_uint64(), ctypes.c_uint64()
    _raise_if(library().rrp_list(plan, len(plan), *_sizes(egresses), start, count))
    return plan[start.value : start.value + count.value]


def compare(
    plan: bytes, router: int, first: int, second: int, first_direct: bool, second_direct: bool
) -> Compared:
    """Which of the routes of two egresses is better at a router, and how much farther the first
    egress is (rrp_compare). A flag says that the egress router itself tells its route."""
    better, has_margin, margin = ctypes.c_uint8(), ctypes.c_uint8(), ctypes.c_int64()
    asked = *_sizes(router, first, second), bool(first_direct), bool(second_direct)
    _raise_if(library().rrp_compare(plan, len(plan), *asked, better, has_margin, margin))
    return Compared(better.value, margin.value if has_margin.value else None)


def relies(plan: bytes, egresses: int, router: int, other: int) -> bool:
    """Whether a router relies on another for a list (rrp_relies)."""
    answer = ctypes.c_uint8()
    numbers = _sizes(egresses, router, other)
    _raise_if(library().rrp_relies(plan, len(plan), *numbers, answer))
    return bool(answer.value)


def explain(plan: bytes, egresses: int, router: int, other: int) -> Explained:
    """The rule by which a router relies on another for a list, or the reason why it does not
    (rrp_explain)."""
    answer, code, has_own = ctypes.c_uint8(), ctypes.c_uint8(), ctypes.c_uint8()
    offer, own, margin = ctypes.c_uint64(), ctypes.c_uint64(), ctypes.c_int64()
    numbers = _sizes(egresses, router, other)
    out = (answer, code, offer, has_own, own, margin)
    _raise_if(library().rrp_explain(plan, len(plan), *numbers, *out))
    compared = own.value if has_own.value else None
    return Explained(bool(answer.value), code.value, offer.value, compared, margin.value)


def verdict(plan: bytes, egresses: int) -> Assessed:
    """The verdict of a plan for a list (rrp_verdict)."""
    labels, ranks, cycle = (ctypes.create_string_buffer(MAX_ROUTERS) for _ in range(3))
    table = ctypes.create_string_buffer(2 * MAX_ROUTERS)
    stable, number = ctypes.c_uint8(), ctypes.c_uint64()
    buffers = [part for buffer in (labels, ranks, table, cycle) for part in (buffer, len(buffer))]
    _raise_if(
        library().rrp_verdict(plan, len(plan), *_sizes(egresses), *buffers, stable, number)
    )
    routers = plan[4]
    if stable.value:
        written = ranks.raw[:routers], table.raw[: 2 * routers], b""
    else:
        written = b"", b"", cycle.raw[: number.value]
    return Assessed(bool(stable.value), number.value, labels.raw[:routers], *written)


def figures(plan: bytes) -> Counted:
    """All lists of a plan in figures (rrp_figures)."""
    by_rank, by_router = (ctypes.create_string_buffer(MAX_ROUTERS) for _ in range(2))
    stable, suspect, highest = (ctypes.c_uint64() for _ in range(3))
    has_highest = ctypes.c_uint8()
    buffers = by_rank, len(by_rank), by_router, len(by_router)
    out = stable, suspect, has_highest, highest
    _raise_if(library().rrp_figures(plan, len(plan), *buffers, *out))
    written = by_rank.raw[: plan[4]], by_router.raw[: plan[4]]
    rank = highest.value if has_highest.value else None
    return Counted(stable.value, suspect.value, rank, *written)


def every_list(plan: bytes) -> EveryListed:
    """Whether a plan is stable for every list, whatever its own lists are (rrp_every_list)."""
    answer, count = ctypes.c_uint8(), ctypes.c_uint64()
    found = ctypes.create_string_buffer(MAX_ROUTERS)
    _raise_if(library().rrp_every_list(plan, len(plan), answer, found, len(found), count))
    return EveryListed(answer.value, found.raw[: count.value])


def activate(plan: bytes, egresses: int, router: int, table: bytes) -> bytes:
    """The table after one activation of a router (rrp_activate)."""
    held = ctypes.create_string_buffer(table, max(len(table), 1))
    numbers = _sizes(egresses, router)
    _raise_if(library().rrp_activate(plan, len(plan), *numbers, held, len(table)))
    return held.raw[: len(table)]


def run(
    plan: bytes, egresses: int, sequence: bytes, table: bytes, limit: int | None = None
) -> Ran:
    """Activates the routers of a sequence, one byte each, at most `limit` of them (rrp_run). A
    negative limit, which the call has no number for, is refused here."""
    if limit is not None and limit < 0:
        raise RrpError(f"a limit is 0 or more, and not {limit}")
    held = ctypes.create_string_buffer(table, max(len(table), 1))
    applied, rounds, exhausted = ctypes.c_uint64(), ctypes.c_uint64(), ctypes.c_uint8()
    number, most = _sizes(egresses, len(sequence) if limit is None else limit)
    lent = sequence, len(sequence), most, held, len(table)
    _raise_if(library().rrp_run(plan, len(plan), number, *lent, applied, rounds, exhausted))
    return Ran(held.raw[: len(table)], applied.value, rounds.value, bool(exhausted.value))


def steady(plan: bytes, egresses: int) -> tuple[int, ...]:
    """The numbers of the tables of a list that no activation changes, rising (rrp_steady)."""
    out, count = ctypes.create_string_buffer(2 * MOST_STEADY), ctypes.c_uint64()
    _raise_if(library().rrp_steady(plan, len(plan), *_sizes(egresses), out, len(out), count))
    written = out.raw[: 2 * count.value]
    return tuple(low + 256 * high for low, high in zip(written[::2], written[1::2]))


def hop_set(plan: bytes, egresses: int) -> int:
    """The number of a smallest set of routers that makes a list stable once they have the hop step
    (rrp_hop_set)."""
    found = ctypes.c_uint64()
    _raise_if(library().rrp_hop_set(plan, len(plan), *_sizes(egresses), found))
    return found.value


def grade(plan: bytes, egresses: int) -> Graded:
    """Whether the routers of a list come to rest, whatever the order (rrp_grade)."""
    number, rounds = ctypes.c_uint8(), ctypes.c_uint64()
    _raise_if(library().rrp_grade(plan, len(plan), *_sizes(egresses), number, rounds))
    return Graded(number.value, rounds.value)


def distances(routers: int, links: bytes) -> bytes:
    """A plan's distances from a sheet of links, four bytes each (rrp_distances)."""
    (number,) = _sizes(routers)
    length = 2 * min(number, MAX_ROUTERS) ** 2
    out = ctypes.create_string_buffer(max(length, 1))
    _raise_if(library().rrp_distances(number, links, len(links), out, length))
    return out.raw[:length]


def widen(plan: bytes) -> bytes:
    """The RRP2 plan of the same distances as an RRP1 plan (rrp_widen)."""
    return _converted(library().rrp_widen, plan)


def narrow(plan: bytes) -> bytes:
    """The RRP1 plan of the same distances as an RRP2 plan (rrp_narrow)."""
    return _converted(library().rrp_narrow, plan)


def _converted(function: Callable[..., int], plan: bytes) -> bytes:
    """What a call makes of a plan, in a buffer that is long enough for every plan."""
    out, length = ctypes.create_string_buffer(MAX_PLAN), ctypes.c_uint64()
    _raise_if(function(plan, len(plan), out, len(out), length))
    return out.raw[: length.value]
