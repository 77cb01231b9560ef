"""Reads the draft of a plan's text that has nothing wrong, quickly.

`parse` knows the place of every word, so that it can tell what is wrong where. A library of plans
has thousands of texts with nothing wrong, and to read those takes most of an audit. Here a text is
read without places. At the first doubt there is no draft, and `parse` is to read the text: no text
is found wrong here, and none that is read here is read otherwise by `parse`.
"""

from __future__ import annotations

from functools import lru_cache
from itertools import combinations

from ..encoding import CLIENT, REFLECTORS
from ..library import MAX_LINKS, MAX_LISTS, MAX_ROUTERS
from .draft import Draft, EgressList, Router, Way, session
from .problems import Slip
from .statements import HOP_STEP, NO_REFLECTION, REFLECTOR_WORDS, read_identifier, read_value
from .words import Line, Word

#: What stands for the place of every word.
_NOWHERE = Word("", Line("", 0, ""), 0)


class _Doubt(Exception):
    """Something may be wrong."""


def plain_draft(text: str, filename: str) -> Draft | None:
    """The draft of a text, without places; None where something may be wrong."""
    contents = [line.split("#", 1)[0] for line in text.split("\n")]
    statements = [content.replace(">", " > ").split() for content in contents]
    statements = [words for words in statements if words]
    draft = Draft(filename)
    try:
        for words in statements:
            if words[0] in ("reflector", "client"):
                _router(draft, words)
        for words in statements:
            _READERS[words[0]](draft, words)
    except (_Doubt, Slip, KeyError, ValueError):
        return None
    identifiers = {router.identifier for router in draft.routers.values()}
    few = len(draft.routers) <= MAX_ROUTERS and len(draft.lists) <= MAX_LISTS
    few = few and len(draft.links_up) <= MAX_LINKS
    whole = few and draft.routers and draft.lists and len(identifiers) == len(draft.routers)
    return draft if whole else None


def _need(fits: bool) -> None:
    if not fits:
        raise _Doubt


@lru_cache(maxsize=4096)
def _identifier(text: str) -> int:
    return read_identifier(_NOWHERE._replace(text=text))


@lru_cache(maxsize=4096)
def _weighed(text: str, kind: str) -> Way:
    return Way(read_value(_NOWHERE._replace(text=text), kind), _NOWHERE)


def _router(draft: Draft, words: list[str]) -> None:
    """The router of a statement, without its sessions."""
    kind, name, identifier, *more = words
    _need(name.isprintable() and name != ">" and name not in draft.routers)
    role = CLIENT
    if kind == "reflector":
        _need(len(set(more)) == len(more) and set(more) <= set(REFLECTOR_WORDS))
        role = REFLECTORS[NO_REFLECTION in more, HOP_STEP in more]
    draft.routers[name] = Router(role, _identifier(identifier), _NOWHERE)


def _client(draft: Draft, words: list[str]) -> None:
    """The sessions of a client's statement."""
    _, name, _, *more = words
    if more:
        of, *others = more
        _need(of == "of" and bool(others))
        for other in others:
            _session(draft, ["session", name, other])


def _mesh(draft: Draft, words: list[str]) -> None:
    _need(len(words) > 2)
    for pair in combinations(words[1:], 2):
        _session(draft, ["session", *pair])


def _session(draft: Draft, words: list[str]) -> None:
    _, one, other = words
    pair = session(one, other)
    _need(one in draft.routers and other in draft.routers)
    _need(one != other and pair not in draft.sessions)
    draft.sessions[pair] = _NOWHERE


def _way(draft: Draft, words: list[str]) -> None:
    if len(words) == 4:
        kind, start, end, text = words
        ways = [(start, end), (end, start)]
    else:
        kind, start, arrow, end, text = words
        _need(arrow == ">")
        ways = [(start, end)]
    _need(start in draft.routers and end in draft.routers and start != end)
    stated, way = draft.ways(kind), _weighed(text, kind)
    for ends in ways:
        if ends in stated:
            raise _Doubt
        stated[ends] = way


def _list(draft: Draft, words: list[str]) -> None:
    _, name, *routers = words
    _need(name.isprintable() and name != ">" and name not in draft.lists)
    _need(len(set(routers)) == len(routers) and draft.routers.keys() >= set(routers))
    draft.lists[name] = EgressList(tuple(routers), _NOWHERE)


def _wide(draft: Draft, words: list[str]) -> None:
    _need(len(words) == 1 and draft.wide is None)
    draft.wide = _NOWHERE


_READERS = {
    "reflector": lambda draft, words: None,
    "client": _client,
    "mesh": _mesh,
    "session": _session,
    "link": _way,
    "distance": _way,
    "list": _list,
    "wide": _wide,
}
