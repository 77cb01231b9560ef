"""Makes the bytes of a draft.

Distances come from the library's call on the links, and the library says whether the bytes are a
plan. Where it refuses, the statement to blame is found by asking it again with fewer statements.
"""

from __future__ import annotations

import re
from collections.abc import Iterable
from math import gcd

from .. import encoding, library
from ..encoding import CLIENT, NARROW, WIDE, Model, Rows, longest
from ..errors import cut_names
from ..plan import Plan
from .draft import Draft, Way
from .problems import Problem, TextErrors

#: What may stand between names in place of a blank.
_NO_BLANK = re.compile("[,;:=]")

#: So many pairs without a way are named in a note.
_PAIRS_NAMED = 3


def assemble(draft: Draft) -> Plan:
    """The plan of a draft. Routers are numbered by their identifiers."""
    names = names_of(draft)
    model = _model(draft, names, _distances(draft, names))
    data = encoding.encode(model)
    refusal = library.refusal(data)
    if refusal:
        _raise_refused(draft, names, model, refusal)
    notes = _notes(draft, names, model)
    return Plan(data, names, list(draft.lists), draft.file, notes, draft=draft)


def names_of(draft: Draft) -> list[str]:
    """The routers in the order of their numbers, which is that of their identifiers."""
    return sorted(draft.routers, key=lambda name: draft.routers[name].identifier)


def bytes_of(draft: Draft) -> bytes:
    """The bytes of a draft. Raises `library.Refused` where it makes no plan, and does not look for
    the statement to blame."""
    names = names_of(draft)
    data = encoding.encode(_model(draft, names, _rows(draft, names)))
    refusal = library.refusal(data)
    if refusal:
        raise library.Refused(refusal, draft.file)
    return data


def _model(draft: Draft, names: list[str], distances: Rows) -> Model:
    """The model of a draft: RRP2 where that is stated, or where a distance is too far for RRP1."""
    numbers = _numbers(names)
    return Model(
        roles=[draft.routers[name].role for name in names],
        identifiers=[draft.routers[name].identifier for name in names],
        sessions=_sessions(draft.sessions, numbers),
        distances=distances,
        lists=[sorted(numbers[name] for name in each.routers) for each in draft.lists.values()],
        width=encoding.width_for(distances) if draft.wide is None else WIDE,
    )


def _numbers(names: list[str]) -> dict[str, int]:
    return {name: number for number, name in enumerate(names)}


def _sessions(
    pairs: Iterable[tuple[str, str]], numbers: dict[str, int]
) -> list[tuple[int, int]]:
    """The sessions by number, in the order that a plan has them."""
    ends = [(numbers[one], numbers[other]) for one, other in pairs]
    return sorted((min(pair), max(pair)) for pair in ends)


def _distances(draft: Draft, names: list[str]) -> Rows:
    """The distances of a draft. `TextErrors` says where they are too far."""
    try:
        return _rows(draft, names)
    except library.Refused as refused:
        if refused.number != library.TOO_FAR:
            raise library.Refused(refused.number, draft.file) from None
        raise TextErrors([_too_far(draft, names)]) from None


def _rows(draft: Draft, names: list[str]) -> Rows:
    """The distances from the links, with those that are stated in their place."""
    rows, numbers = _from_links(draft.links, names), _numbers(names)
    for (start, end), way in draft.distances.items():
        rows[numbers[start]][numbers[end]] = way.value
    return rows


def _from_links(links: dict[tuple[str, str], Way], names: list[str]) -> Rows:
    """The library's distances from the links that are not down."""
    numbers = _numbers(names)
    up = [(ends, way.value) for ends, way in links.items() if way.value is not None]
    sheet = {(numbers[start], numbers[end]): weight for (start, end), weight in up}
    body = library.distances(len(names), encoding.encode_links(sheet))
    return encoding.decode_distances(body, len(names))


def _too_far(draft: Draft, names: list[str]) -> Problem:
    """The last link without which those before it pass, and two routers that it joins."""
    links = dict(draft.links)
    while True:
        word = list(links.values())[-1].word
        last = {ends: way for ends, way in links.items() if way.word is word}
        links = {ends: way for ends, way in links.items() if way.word is not word}
        try:
            rows = _from_links(links, names)
        except library.Refused:
            continue
        start, end, far = _farthest(rows, last, names)
        message = f"with this link it is {far:,} from {start} to {end}, which is too far"
        return Problem(word, message, _nearer(draft, names))


def _nearer(draft: Draft, names: list[str]) -> str:
    """How to bring the sums down so that every comparison stays as it is."""
    most, divisor = f"a sum of weights is at most {longest(NARROW):,}", _common_divisor(draft)
    never = "never round, or a suspect list may look stable"
    stated = f"state distances in place of links, which may be up to {longest(WIDE):,}"
    divided = {
        ends: way._replace(value=way.value and way.value // divisor)
        for ends, way in draft.links.items()
    }
    try:
        _from_links(divided, names)
    except library.Refused:
        none = f"{most}, and no common divisor of the weights is enough"
        return f"{none}:\n{stated}; {never}"
    every = "every weight and distance" if draft.distances else "every weight"
    divide = f"divide {every} by a common divisor only, here by {divisor:,};"
    return f"{most}: {divide}\n{never};\nor {stated}"


def _common_divisor(draft: Draft) -> int:
    """The greatest number that divides every weight and every stated distance."""
    ways = [*draft.links.values(), *draft.distances.values()]
    return gcd(*(way.value for way in ways if way.value is not None))


def _farthest(
    rows: Rows, links: dict[tuple[str, str], Way], names: list[str]
) -> tuple[str, str, int]:
    """Of the routers that only these links join, the two that are farthest apart, and how far."""
    numbers = _numbers(names)
    sums: dict[tuple[str, str], int] = {}
    for (start, end), way in links.items():
        for name, row in zip(names, rows):
            for other, there, behind in zip(names, row, rows[numbers[end]]):
                parts = row[numbers[start]], way.value, behind
                if there is None and None not in parts:
                    sums[name, other] = min(sum(parts), sums.get((name, other), sum(parts)))
    (name, other), far = max(sums.items(), key=lambda each: each[1])
    return name, other, far


def _raise_refused(draft: Draft, names: list[str], model: Model, refusal: int) -> None:
    """Raises the failure for a plan that is refused: at its statements, where they are found."""
    problems: list[Problem] = []
    if refusal == library.TOO_MANY_PARENTS:
        problems = _clients_of_many(draft, names, model)
    if problems:
        raise TextErrors(problems)
    raise library.Refused(refusal, draft.file)


def _clients_of_many(draft: Draft, names: list[str], model: Model) -> list[Problem]:
    """Each client with too many parents, at the first session that is one too many."""
    problems = []
    for client in (name for name in names if draft.routers[name].role == CLIENT):
        stated = [pair for pair in draft.sessions if client in pair]
        for count in range(1, len(stated) + 1):
            fewer = model._replace(sessions=_sessions(stated[:count], _numbers(names)))
            if library.refusal(encoding.encode(fewer)) == library.TOO_MANY_PARENTS:
                problems.append(_too_many(draft, client, stated, stated[count - 1]))
                break
    return problems


def _too_many(
    draft: Draft, client: str, stated: list[tuple[str, str]], last: tuple[str, str]
) -> Problem:
    others = [one if other == client else other for one, other in stated]
    parents = ", ".join(name for name in others if draft.routers[name].role != CLIENT)
    message = f"the client {client} has too many neighbouring reflectors: {parents}"
    return Problem(draft.sessions[last], message, "a client has at most four: leave some out")


def _notes(draft: Draft, names: list[str], model: Model) -> list[str]:
    """What may be a slip of the pen."""
    return [
        *_note_on_no_way(draft, names, model),
        *_note_on_65535(draft),
        *_notes_on_nobody(draft),
    ]


def _notes_on_nobody(draft: Draft) -> list[str]:
    """A note on each list of nobody that is named as a router is, as where the list's own name was
    left out, or that has routers in its name, as where a blank was."""
    notes = []
    for name in (name for name, each in draft.lists.items() if not each.routers):
        parts = [name] if name in draft.routers else _NO_BLANK.split(name)
        routers = [part for part in parts if part in draft.routers]
        why = f"its name has {', '.join(routers)} in it"
        if routers == [name]:
            why = "it is named as a router is"
        if routers:
            advice = f"to list routers, write: list NAME {' '.join(routers)}"
            notes.append(cut_names(f"nobody is in the list {name}, though {why}: {advice}"))
    return notes


def _note_on_65535(draft: Draft) -> list[str]:
    """A note on a distance of 65,535, by which RRP1 says no way, unless the plan is stated to be
    RRP2."""
    for (start, end), way in draft.distances.items():
        if draft.wide is None and way.value == library.NO_WAY:
            it_is = f"from {start} to {end} it is {way.value:,}"
            advice = "write none for no way; if it is meant, add a line: wide"
            return [cut_names(f"{it_is}, a distance that makes the plan RRP2: {advice}")]
    return []


def _note_on_no_way(draft: Draft, names: list[str], model: Model) -> list[str]:
    """A note on the pairs without a way, but for those that are stated to have none."""
    cut = {
        (start, end): None
        for start, row in zip(names, model.distances)
        for end, way in zip(names, row)
        if way is None and (start, end) not in draft.distances
    }
    both = [pair for pair in cut if pair[0] < pair[1] and pair[::-1] in cut]
    one_way = [pair for pair in cut if pair[::-1] not in cut]
    pairs = [" and ".join(pair) for pair in both] + [" to ".join(pair) for pair in one_way]
    if not pairs:
        return []
    named = ", ".join(map(cut_names, pairs[:_PAIRS_NAMED]))
    named += ", .." if len(pairs) > _PAIRS_NAMED else ""
    count = "1 pair" if len(pairs) == 1 else f"{len(pairs)} pairs"
    return [f"no way along links for {count} of routers: {named}"]
