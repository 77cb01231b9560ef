"""Routing tables in files: the text that `rrp run --from` reads, and the values that `--json`
writes, which it reads too.

A line has a router and what it holds: `lon-b lon-a lon-rr` is egress lon-a from lon-rr, and
`lon-b nothing` is nothing. A `#` starts a comment. A router that is left out holds its own route if
it is in the list, else nothing.

The table of another list may be read, as of a network on which the list changes: a router that is
in the list now holds its own route whatever the file says, and one that held its own route and is
in the list no more holds nothing.
"""

from __future__ import annotations

import os
from collections.abc import Mapping
from typing import NamedTuple

from .errors import RrpError, cut_names, nearest
from .files import read_file
from .library import BAD_TABLE, Refused
from .plan import Plan
from .tables import Route, Table
from .text import TextErrors, decode_text
from .text.problems import Problem
from .text.words import Word, lines_of, words_of

NOTHING = "nothing"

_FORM = "write: ROUTER EGRESS FROM, or: ROUTER nothing"


class Read(NamedTuple):
    """A table that was read, and remarks on what of it was not taken."""

    table: Table
    notes: tuple[str, ...]


def route_words(route: Route | None) -> str:
    """What a router holds, in words."""
    return NOTHING if route is None else f"{route.egress} from {route.sender}"


def route_values(route: Route | None) -> dict[str, str] | None:
    """What a router holds, as plain values."""
    return None if route is None else {"egress": route.egress, "from": route.sender}


def table_values(table: Table) -> dict[str, object]:
    """A table as plain values."""
    return {router: route_values(table[router]) for router in table}


def read_table(path: str | os.PathLike[str], plan: Plan, egress_list: str) -> Read:
    """The table of a file, in text or as `table` in JSON. All problems of a text come in one
    `TextErrors`."""
    name, data = read_file(path, "table")
    text = decode_text(data, name)
    if text.lstrip().startswith("{"):
        text, name = _text_of_json(text, name), f"{name} as text"
    return _Reading(plan, egress_list).read(text, name)


class _Reading:
    """Reads the lines of a table. `stated` has the word by which each router is named first."""

    def __init__(self, plan: Plan, egress_list: str) -> None:
        self.plan = plan
        self.egress_list = egress_list
        self.egresses = plan.egresses(egress_list)
        self.start = self.table = plan.empty_table(egress_list)
        self.stated: dict[str, Word] = {}
        self.problems: list[Problem] = []
        self.notes: list[str] = []

    def read(self, text: str, name: str) -> Read:
        """The table that the lines make."""
        for line in lines_of(text, name):
            words = words_of(line)
            if words:
                self._line(words)
        if self.problems:
            raise TextErrors(self.problems)
        return Read(self.table, tuple(self.notes))

    def _line(self, words: list[Word]) -> None:
        nothing = len(words) == 2 and words[1].text == NOTHING
        if not nothing and len(words) != 3:
            message = "the line is no router with what it holds"
            self._problem(words[min(len(words), 4) - 1], message, _FORM)
            return
        known = all([self._known(word) for word in (words[:1] if nothing else words)])
        if known and self._first(words[0]):
            self._entry(words, None if nothing else Route(words[1].text, words[2].text))

    def _entry(self, words: list[Word], route: Route | None) -> None:
        """Puts an entry into the table."""
        router = words[0].text
        own, listed = Route(router, router), router in self.egresses
        if listed and route != own:
            self._note(f"{router} is in the list {self.egress_list}, and starts with its own route")
        elif not listed and route == own:
            self._note(f"{router} is not in the list {self.egress_list}, and starts with nothing")
        elif self._refused(router, route):
            message = f"{router} has no session with {words[2].text}"
            self._problem(words[2], message, "name a neighbour that the route is from")
        else:
            self.table = self.table.with_route(router, route)

    def _refused(self, router: str, route: Route | None) -> bool:
        """Whether the library refuses a table with this entry."""
        table = self.start.with_route(router, route)
        try:
            self.plan.activate(self.egress_list, router, table)
        except Refused as refused:
            if refused.number != BAD_TABLE:
                raise
            return True
        return False

    def _known(self, word: Word) -> bool:
        if word.text in self.plan.routers:
            return True
        near = nearest(word.text, self.plan.routers)
        advice = f"did you mean {near}?" if near else f"name a router of {self.plan.source}"
        self._problem(word, f"no router is named {word.text}", advice)
        return False

    def _first(self, word: Word) -> bool:
        first = self.stated.setdefault(word.text, word)
        if first is not word:
            advice = f"line {first.line.number} gives it already: leave one of them out"
            self._problem(word, f"{word.text} is given twice", advice)
        return first is word

    def _note(self, text: str) -> None:
        self.notes.append(cut_names(text))

    def _problem(self, word: Word, message: str, advice: str) -> None:
        self.problems.append(Problem(word, message, advice))


def _text_of_json(text: str, name: str) -> str:
    """The lines of the table that `rrp show --json` or `rrp run --json` wrote."""
    import json

    try:
        entries = json.loads(text).get("table")
    except (ValueError, RecursionError) as failure:
        raise RrpError(f"{name} is no JSON: {failure}") from None
    if not isinstance(entries, Mapping):
        advice = "give what rrp run --json wrote, or rrp show --json of a stable list"
        raise RrpError(f"{name} has no table: {advice}")
    return "".join(f"{router} {_held(name, router, route)}\n" for router, route in entries.items())


def _held(name: str, router: str, route: object) -> str:
    """What a router holds, from JSON."""
    if route is None:
        return NOTHING
    values = [route.get(key) for key in ("egress", "from")] if isinstance(route, Mapping) else []
    if values and all(isinstance(value, str) for value in values):
        return " ".join(values)
    raise RrpError(f"{name}: {router} holds neither null nor an egress and a from, which are names")
