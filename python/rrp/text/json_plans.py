"""Plans in JSON, as `rrp unpack --json` writes them. docs/plan.schema.json has the form.

Every value becomes a statement of the text format, at its place in the file, so that what is wrong
with it is told as in a text.
"""

from __future__ import annotations

import json
import re
from bisect import bisect_right
from collections.abc import Iterator
from json.decoder import scanstring
from typing import NamedTuple

from ..encoding import CLIENT, MARKS, NARROW, REFLECTORS, WIDE, longest
from .draft import Draft
from .gathering import Gathering
from .problems import Problem, Slip, TextErrors, guess
from .statements import ListStatement, RouterStatement, SessionStatement, Statement
from .statements import WayStatement, WideStatement, clear, read_identifier, read_value
from .words import Line, Word, lines_of

#: The members of a plan, of a router and of a link, and whether they must be there. Those of a plan
#: that only say where it came from are left alone.
_PLAN = {
    "plan": False,
    "set": False,
    "notes": False,
    "mark": False,
    "routers": True,
    "sessions": True,
    "links": False,
    "distances": False,
    "lists": True,
}
_ROUTER = {
    "name": True,
    "role": True,
    "identifier": True,
    "client_reflection": False,
    "hop_step": False,
}
_BOTH_WAYS = {"a": True, "b": True, "weight": True}
_ONE_WAY = {"from": True, "to": True, "weight": True}

_SCHEMA = "docs/plan.schema.json has the form of a plan in JSON"
_NULL = "null"
_BLANKS = re.compile(r"[ \t\r\n]*")
_PLAIN = re.compile(r"[^\s,\]}]+")


class Node(NamedTuple):
    """A value and its place. An array is a list of nodes, and an object a tuple of its members,
    each a key and a node. The word has the text of a string or a plain value, else the bracket."""

    value: object
    word: Word


def parse_json(text: str, filename: str = "plan") -> Draft:
    """The draft of a plan in JSON. `TextErrors` has all problems of its values."""
    problems: list[Problem] = []
    draft = Draft(filename)
    reading = _Reading(problems)
    statements = list(reading.plan(_tree(text, filename)))
    Gathering(draft, problems, _add_to_routers).gather(statements)
    if problems:
        raise TextErrors(problems)
    return draft


def _add_to_routers(name: str) -> str:
    """How a plan in JSON gets a router."""
    return "add it to routers"


def _tree(text: str, filename: str) -> Node:
    """The values of a text with their places. Where it is no JSON, `TextErrors` says where."""
    place, message = 0, None
    try:
        json.loads(text, parse_constant=_refuse)
    except json.JSONDecodeError as failure:
        place, message = failure.pos, f"this is no JSON: {failure.msg}"
    except (ValueError, RecursionError) as failure:
        message = f"this is no JSON of a plan: {failure}"
    walk = _Walk(text, filename)
    if message is not None:
        problem = Problem(walk.word("", place), message, "a plan that starts with { is JSON")
        raise TextErrors([problem])
    return walk.value(walk.skip(0))[0]


def _refuse(constant: str) -> None:
    raise ValueError(f"{constant} is no number")


class _Walk:
    """Goes through a text that is JSON, for the places of its values."""

    def __init__(self, text: str, filename: str) -> None:
        self.text = text
        self.lines = list(lines_of(text, filename))
        self.starts = [0]
        for line in text.split("\n"):
            self.starts.append(self.starts[-1] + len(line) + 1)

    def word(self, text: str, place: int) -> Word:
        """A word at a place of the text."""
        number = min(bisect_right(self.starts, place), len(self.lines)) - 1
        return Word(text, self.lines[number], place - self.starts[number] + 1)

    def skip(self, place: int) -> int:
        """The next place that is no blank."""
        return _BLANKS.match(self.text, place).end()

    def value(self, place: int) -> tuple[Node, int]:
        """The value at a place, and the place after it."""
        first = self.text[place]
        if first == "{":
            return self._object(place)
        if first == "[":
            return self._array(place)
        if first == '"':
            return self._string(place)
        found = _PLAIN.match(self.text, place)
        return Node(json.loads(found[0]), self.word(found[0], place)), found.end()

    def _string(self, place: int) -> tuple[Node, int]:
        text, end = scanstring(self.text, place + 1)
        return Node(text, self.word(text, place + 1)), end

    def _array(self, start: int) -> tuple[Node, int]:
        nodes, place = [], self.skip(start + 1)
        while self.text[place] != "]":
            node, place = self.value(place)
            nodes.append(node)
            place = self._next(place)
        return Node(nodes, self.word("[", start)), place + 1

    def _object(self, start: int) -> tuple[Node, int]:
        members, place = [], self.skip(start + 1)
        while self.text[place] != "}":
            key, place = self._string(place)
            node, place = self.value(self.skip(self.skip(place) + 1))
            members.append((key.word, node))
            place = self._next(place)
        return Node(tuple(members), self.word("{", start)), place + 1

    def _next(self, place: int) -> int:
        """The next value's place, or that of the closing bracket."""
        place = self.skip(place)
        return self.skip(place + 1) if self.text[place] == "," else place


class _Reading:
    """Makes statements of values. What has the wrong form is a problem, and makes none."""

    def __init__(self, problems: list[Problem]) -> None:
        self.problems = problems

    def plan(self, tree: Node) -> Iterator[Statement]:
        """The statements of a plan."""
        given = self.members(tree, _PLAN, "a plan")
        narrow = self._mark(given["mark"]) if "mark" in given else None
        if narrow is False:
            yield WideStatement(given["mark"].word)
        for name, read in (
            ("routers", self._router),
            ("sessions", self._session),
            ("links", self._link),
        ):
            for node in self._some(given, name):
                yield from self._tried(read, node)
        for start, row in self._named(given.get("distances"), "distances"):
            for end, way in self._named(row, f"distances of {clear(start.text)}"):
                yield from self._tried(self._distance, start, end, way, narrow)
        for name, routers in self._named(given.get("lists"), "lists"):
            yield from self._tried(self._list, name, routers)

    def _tried(self, read, *given) -> Iterator[Statement]:
        """The statement that is read, if it has no problem and there is one."""
        try:
            statement = read(*given)
        except Slip as slip:
            self.problems.append(slip.problem)
            return
        if statement is not None:
            yield statement

    def members(self, node: Node, known: dict[str, bool], what: str) -> dict[str, Node]:
        """The members of an object, of which these are known."""
        if not isinstance(node.value, tuple):
            self.problem(node.word, f"{what} is an object, with braces around it", _SCHEMA)
            return {}
        found: dict[str, Node] = {}
        for key, value in node.value:
            if key.text in found:
                self.problem(key, f"{clear(key.text)} is given twice", "leave one of them out")
            elif key.text not in known:
                near = guess(key.text, known, self.problems)
                advice = f"did you mean {near}?" if near else _SCHEMA
                self.problem(key, f"{what} has no {clear(key.text)}", advice)
            found[key.text] = value
        if found.keys() <= known.keys():
            for name in (name for name in known if known[name] and name not in found):
                self.problem(node.word, f"{name} is missing from {what}", _SCHEMA)
        return {name: value for name, value in found.items() if name in known}

    def problem(self, word: Word, message: str, advice: str) -> None:
        """Adds a problem."""
        self.problems.append(Problem(word, message, advice))

    def _some(self, given: dict[str, Node], name: str) -> list[Node]:
        """The values of an array, which routers are needed for."""
        node = given.get(name)
        if node is None:
            return []
        if not isinstance(node.value, list):
            self.problem(node.word, f"{name} is an array, with brackets around it", _SCHEMA)
            return []
        if name == "routers" and not node.value:
            self.problem(node.word, "the plan has no router", _SCHEMA)
        return node.value

    def _named(self, node: Node | None, what: str) -> Iterator[tuple[Word, Node]]:
        """The members of an object whose keys are names of routers or lists."""
        if node is None:
            return
        if not isinstance(node.value, tuple):
            self.problem(node.word, f"{what} is an object, with braces around it", _SCHEMA)
            return
        if what == "lists" and not node.value:
            self.problem(node.word, "the plan has no list", _SCHEMA)
        for key, value in node.value:
            try:
                yield _name(Node(key.text, key), f"a name in {what}"), value
            except Slip as slip:
                self.problems.append(slip.problem)

    def _mark(self, node: Node) -> bool | None:
        """Whether a plan is to be RRP1, None if it has no mark that is known."""
        marks = {mark.decode(): width == NARROW for width, mark in MARKS.items()}
        if not isinstance(node.value, str) or node.value not in marks:
            self.problem(node.word, "the mark is RRP1 or RRP2", "or leave it out")
            return None
        return marks[node.value]

    def _router(self, node: Node) -> RouterStatement | None:
        """A router keeps its name where the rest has a problem, so that the name is known
        elsewhere."""
        given = self.members(node, _ROUTER, "a router")
        if "name" not in given:
            return None
        name, role, identifier = _name(given["name"], "the name"), CLIENT, None
        word = given["identifier"].word if "identifier" in given else name
        try:
            role = self._role(given) if "role" in given else role
            identifier = read_identifier(word) if "identifier" in given else None
        except Slip as slip:
            self.problems.append(slip.problem)
        return RouterStatement(name, role, identifier, word, [])

    def _role(self, given: dict[str, Node]) -> int:
        """The role of a router. A client may say that it has neither of what reflectors have."""
        role = given["role"]
        if role.value not in ("reflector", "client"):
            raise Slip(role.word, f"{clear(role.word.text)} is no role", "reflector or client")
        said = {name: given.get(name) for name in ("client_reflection", "hop_step")}
        for name, node in said.items():
            if node is not None and not isinstance(node.value, bool):
                raise Slip(node.word, f"{name} is true or false", _SCHEMA)
        if role.value == "client":
            for name, node in said.items():
                if node is not None and node.value:
                    raise Slip(node.word, f"{name} is for reflectors alone", "leave it out")
            return CLIENT
        reflects, step = (None if node is None else node.value for node in said.values())
        return REFLECTORS[reflects is False, step is True]

    def _session(self, node: Node) -> SessionStatement:
        if not isinstance(node.value, list) or len(node.value) != 2:
            raise Slip(node.word, "a session is an array of two routers", _SCHEMA)
        one, other = (_name(each, "a router's name") for each in node.value)
        return SessionStatement(one, other, True)

    def _link(self, node: Node) -> WayStatement | None:
        keys = {key.text for key, _ in node.value} if isinstance(node.value, tuple) else set()
        one_way = bool(keys & {"from", "to"})
        known = _ONE_WAY if one_way else _BOTH_WAYS
        given = self.members(node, known, "a link one way" if one_way else "a link")
        if given.keys() != known.keys():
            return None
        one, other, weight = map(given.get, known)
        ends = _name(one, "a router's name"), _name(other, "a router's name")
        return WayStatement("link", *ends, one_way, _number(weight, "link"))

    def _distance(
        self, start: Word, end: Word, way: Node, narrow: bool | None
    ) -> WayStatement | None:
        value = _number(way, "distance")
        if start.text == end.text:
            if value != 0:
                message = f"the distance from {clear(end.text)} to itself is not 0"
                raise Slip(way.word, message, "write 0, or leave it out")
            return None
        if narrow and value is not None and value > longest(NARROW):
            message = f"the distance {value:,} is too far for RRP1"
            raise Slip(way.word, message, f"make the mark RRP2, up to {longest(WIDE):,}")
        return WayStatement("distance", start, end, True, value)

    def _list(self, name: Word, routers: Node) -> ListStatement:
        if not isinstance(routers.value, list):
            raise Slip(routers.word, "a list is an array of routers, empty for nobody", _SCHEMA)
        return ListStatement(name, [_name(each, "a router's name") for each in routers.value])


def _name(node: Node, what: str) -> Word:
    """A name, which a text could have too."""
    if not isinstance(node.value, str):
        raise Slip(node.word, f"{what} is a string", _SCHEMA)
    if not node.value or not node.value.isprintable() or re.search(r"[\s#>]", node.value):
        message = f"{what} is {json.dumps(node.value) if node.value else 'empty'}"
        advice = "a name has printable characters, and no blank, # or >"
        raise Slip(node.word, clear(message) if node.value else message, advice)
    return node.word


def _number(node: Node, kind: str) -> int | None:
    """A weight or a distance, None for null."""
    if isinstance(node.value, str):
        raise Slip(node.word, f"{json.dumps(clear(node.value))} is a string", "write a number")
    return read_value(node.word, kind, no_way=_NULL)
