"""The statements of a text plan, one a line. docs/TEXT-PLANS.md has the grammar."""

from __future__ import annotations

import re
from collections.abc import Iterable
from typing import NamedTuple, Union

from ..encoding import CLIENT, REFLECTOR, REFLECTORS, WIDE, longest
from .problems import Problem, Slip, guess, printable
from .words import Word, after

#: How each statement is written.
FORMS = {
    "reflector": "reflector NAME IDENTIFIER [no-client-reflection] [hop-step]",
    "client": "client NAME IDENTIFIER [of NAME ..]",
    "mesh": "mesh NAME NAME ..",
    "session": "session NAME NAME",
    "link": "link NAME NAME WEIGHT, or one way: link NAME > NAME WEIGHT",
    "distance": "distance NAME NAME NUMBER, or one way: distance NAME > NAME NUMBER",
    "list": "list NAME [ROUTER ..]",
    "links": "links from FILE",
    "sessions": "sessions from FILE",
    "wide": "wide",
}

#: How a statement is written as a change, where that differs.
_CHANGE_FORMS = {"reflector": "reflector NAME [no-client-reflection] [hop-step]"}

#: What the number of a statement is called, the least that it may be, and the most.
NUMBERS = {"link": ("weight", 1, 65535), "distance": ("distance", 0, longest(WIDE))}

NO_REFLECTION = "no-client-reflection"
HOP_STEP = "hop-step"
NO_WAY = "none"

#: The words that a reflector takes after its identifier, in any order.
REFLECTOR_WORDS = (NO_REFLECTION, HOP_STEP)

#: A word of so many letters is cut in a message.
_LONG = 40

_INTEGER = re.compile(r"-?[0-9]+")
_NUMBER = re.compile(r"[0-9]{1,10}")
_BYTE = r"(0|[1-9][0-9]{0,2})"
_ADDRESS = re.compile(r"\.".join([_BYTE] * 4))


class RouterStatement(NamedTuple):
    """`reflector` or `client`. The identifier is None if it has a problem, or if a change leaves it
    out."""

    name: Word
    role: int
    identifier: int | None
    identifier_word: Word
    others: list[Word]


class MeshStatement(NamedTuple):
    """`mesh`: a session between each two of the routers."""

    routers: list[Word]


class SessionStatement(NamedTuple):
    """`session`. It is not there if `none` follows, which only a change may say."""

    one: Word
    other: Word
    there: bool


class WayStatement(NamedTuple):
    """`link` or `distance`, both ways or one way. The value is None for `none`."""

    kind: str
    start: Word
    end: Word
    one_way: bool
    value: int | None


class ListStatement(NamedTuple):
    """`list`. With no router it is a list of nobody: a prefix that is gone everywhere."""

    name: Word
    routers: list[Word]


class SheetStatement(NamedTuple):
    """`links` or `sessions`: those of a sheet, by the name of its file."""

    kind: str
    file: Word


class WideStatement(NamedTuple):
    """`wide`: the plan is to be RRP2, also where its distances fit into RRP1."""

    word: Word


Statement = Union[
    RouterStatement,
    MeshStatement,
    SessionStatement,
    WayStatement,
    ListStatement,
    SheetStatement,
    WideStatement,
]


class Reader:
    """Reads the words of one statement from left to right. `change` says whether the statement is a
    change of a plan, which keeps the identifiers that there are."""

    def __init__(self, words: list[Word], problems: list[Problem], change: bool = False) -> None:
        self.words = words
        self.problems = problems
        self.change = change
        self.place = 1

    @property
    def kind(self) -> str:
        """The first word of the statement."""
        return self.words[0].text

    @property
    def advice(self) -> str:
        """How the statement is written."""
        form = FORMS[self.kind]
        return f"write: {_CHANGE_FORMS.get(self.kind, form) if self.change else form}"

    def left(self) -> bool:
        """Whether there are words left."""
        return self.place < len(self.words)

    def take(self, what: str) -> Word:
        """The next word, which says what is given here."""
        if not self.left():
            raise Slip(after(self.words[-1]), f"{what} is missing", self.advice)
        self.place += 1
        return self.words[self.place - 1]

    def take_if(self, text: str) -> bool:
        """Takes the next word if it is the one given."""
        found = self.next_is(text)
        self.place += found
        return found

    def name(self, what: str) -> Word:
        """The next word, which is a name."""
        word = self.take(what)
        if word.text == ">":
            raise Slip(word, f"{what} is missing before >", self.advice)
        if not word.text.isprintable():
            message = f"the name {clear(word.text)} has a character that cannot be printed"
            raise Slip(word, message, "use letters, digits and - . _ / :")
        return word

    def next_is(self, *texts: str) -> bool:
        """Whether the next word is one of those given."""
        return self.left() and self.words[self.place].text in texts

    def identifier(self) -> Word | None:
        """The next word, which is an identifier. What may follow one is left where it is missing. A
        change of a reflector may be without one: it then has no word that starts as a number."""
        if self.change and self.kind == "reflector":
            if not self.left() or not self.words[self.place].text[0].isdigit():
                return None
        if self.next_is("of", *REFLECTOR_WORDS):
            word = self.words[self.place]
            raise Slip(word, f"the identifier is missing before {word.text}", self.advice)
        return self.take("the identifier")

    def reflector_role(self) -> int:
        """The role that the words after a reflector's identifier make."""
        given: list[str] = []
        while self.next_is(*REFLECTOR_WORDS):
            word = self.take("a word")
            if word.text in given:
                raise Slip(word, f"{word.text} is given twice", "leave one of them out")
            given.append(word.text)
        self.end(REFLECTOR_WORDS)
        return REFLECTORS[NO_REFLECTION in given, HOP_STEP in given]

    def names(self, what: str) -> list[Word]:
        """All words that are left, which are names; at least one."""
        found = [self.name(what)]
        while self.left():
            found.append(self.name(what))
        return found

    def end(self, known: Iterable[str] = ()) -> None:
        """No word is left. One that is may be meant as one of those known."""
        if self.left():
            word = self.words[self.place]
            near = guess(word.text, known, self.problems)
            advice = f"did you mean {near}? Else {self.advice}" if near else self.advice
            raise Slip(word, f"{clear(word.text)} is a word too many", advice)


def read_statement(
    words: list[Word], problems: list[Problem], change: bool = False
) -> Statement | None:
    """The statement that the words of a line, or of a change, make. Its problems are added to those
    given."""
    kind = words[0].text
    if kind not in FORMS:
        return _read_misspelt(words, problems)
    try:
        return _READERS[kind](Reader(words, problems, change))
    except Slip as slip:
        problems.append(slip.problem)
        return None


def _read_misspelt(words: list[Word], problems: list[Problem]) -> Statement | None:
    """A misspelt statement. The name of a router is kept, so that it is known elsewhere."""
    kind = words[0].text
    near = guess(kind, FORMS, problems)
    advice = f"did you mean {near}?" if near else f"a line starts with one of: {', '.join(FORMS)}"
    problems.append(Problem(words[0], f"no statement starts with {clear(kind)}", advice))
    if near not in ("reflector", "client"):
        return None
    return read_statement([words[0]._replace(text=near), *words[1:]], [])


def _read_router(reader: Reader) -> RouterStatement:
    """A router keeps its name where the rest has a problem, so that the name is known elsewhere."""
    role = REFLECTOR if reader.kind == "reflector" else CLIENT
    name, word, identifier, others = reader.name("the router's name"), None, None, []
    try:
        word = reader.identifier()
        identifier = None if word is None else read_identifier(word)
    except Slip as slip:
        reader.problems.append(slip.problem)
    try:
        if role == REFLECTOR:
            role = reader.reflector_role()
        elif reader.next_is(*REFLECTOR_WORDS):
            raise reflectors_alone(reader.take("a word"))
        elif reader.take_if("of"):
            others = reader.names("a router's name after of")
        reader.end()
    except Slip as slip:
        reader.problems.append(slip.problem)
    return RouterStatement(name, role, identifier, word or name, others)


def _read_mesh(reader: Reader) -> MeshStatement:
    first = reader.name("a router's name")
    return MeshStatement([first, *reader.names("a second router's name")])


def _read_session(reader: Reader) -> SessionStatement:
    one, other = reader.name("a router's name"), reader.name("the other router's name")
    there = not reader.take_if(NO_WAY)
    reader.end()
    return SessionStatement(one, other, there)


def _read_way(reader: Reader) -> WayStatement:
    start = reader.name("a router's name")
    one_way = reader.take_if(">")
    end = reader.name("the other router's name")
    value = read_value(reader.take(f"the {NUMBERS[reader.kind][0]}"), reader.kind)
    reader.end()
    return WayStatement(reader.kind, start, end, one_way, value)


def _read_list(reader: Reader) -> ListStatement:
    name = reader.name("the list's name")
    return ListStatement(name, reader.names("a router's name") if reader.left() else [])


def _read_sheet(reader: Reader) -> SheetStatement:
    if not reader.take_if("from"):
        raise Slip(after(reader.words[0]), f"from is missing after {reader.kind}", reader.advice)
    file = reader.take("the name of the file")
    reader.end()
    return SheetStatement(reader.kind, file)


def _read_wide(reader: Reader) -> WideStatement:
    reader.end()
    return WideStatement(reader.words[0])


_READERS = {
    "reflector": _read_router,
    "client": _read_router,
    "mesh": _read_mesh,
    "session": _read_session,
    "link": _read_way,
    "distance": _read_way,
    "list": _read_list,
    "links": _read_sheet,
    "sessions": _read_sheet,
    "wide": _read_wide,
}


def reflectors_alone(word: Word) -> Slip:
    """The slip of a word of reflectors at a client."""
    advice = f"leave it out; with it, write: {FORMS['reflector']}"
    return Slip(word, f"{word.text} is for reflectors alone", advice)


def read_identifier(word: Word) -> int:
    """An identifier: an IPv4 address, its first byte most significant, or a number."""
    address = _ADDRESS.fullmatch(word.text)
    parts = [int(part) for part in address.groups()] if address else []
    if parts and max(parts) <= 255:
        return int.from_bytes(bytes(parts), "big")
    if _NUMBER.fullmatch(word.text) and int(word.text) < 2**32:
        return int(word.text)
    advice = "write an IPv4 address, as 10.0.0.1, or a number from 0 to 4,294,967,295"
    raise Slip(word, f"{clear(word.text)} is no identifier", advice)


def read_value(word: Word, kind: str, no_way: str = NO_WAY) -> int | None:
    """The number of a link or a distance, None for `none`, or for another word where that says no
    way."""
    if word.text == no_way:
        return None
    noun, least, most = NUMBERS[kind]
    advice = f"a {noun} is a number from {least} to {most:,}, or {no_way}"
    if not _INTEGER.fullmatch(word.text):
        raise Slip(word, f"{clear(word.text)} is no number", advice)
    if not _NUMBER.fullmatch(word.text) or not least <= int(word.text) <= most:
        if kind == "link" and word.text.strip("-0") and not word.text.startswith("-"):
            larger = "larger metrics are stated as distances in place of links"
            advice += f";\n{larger}, up to {longest(WIDE):,}"
        raise Slip(word, f"the {noun} {clear(word.text)} is out of range", advice)
    return int(word.text)


def clear(text: str) -> str:
    """A word as a message has it: printable, and cut if it is long."""
    return printable(text if len(text) <= _LONG else f"{text[: _LONG - 2]}..")
