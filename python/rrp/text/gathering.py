"""Puts the statements of a text together, with a problem for each that does not fit the others."""

from __future__ import annotations

from collections.abc import Callable, Iterable
from itertools import combinations

from ..library import MAX_LINKS, MAX_LISTS, MAX_ROUTERS
from .draft import Draft, EgressList, Router, Way, session
from .problems import Problem, guess
from .statements import (
    REFLECTOR_WORDS,
    ListStatement,
    MeshStatement,
    RouterStatement,
    SessionStatement,
    Statement,
    WayStatement,
    WideStatement,
    reflectors_alone,
)
from .words import Word

#: Words by which someone may say that nobody is in a list, where none is needed.
_NOBODY = {"none", "nobody", "nothing"}

#: A router whose identifier has a problem is known by name all the same.
_NO_IDENTIFIER = -1


def _add_a_line(name: str) -> str:
    """How a text gets a router."""
    return f"add a line for it, as: client {name} IDENTIFIER of REFLECTOR"


class Gathering:
    """A draft in the making, and the problems found on the way. `add` says how the plan gets a
    router of a name."""

    def __init__(
        self, draft: Draft, problems: list[Problem], add: Callable[[str], str] = _add_a_line
    ) -> None:
        self.draft = draft
        self.problems = problems
        self.add = add

    def gather(self, statements: list[Statement]) -> None:
        """Takes all statements, routers first: a name may be used before the line that gives it."""
        routers = [each for each in statements if isinstance(each, RouterStatement)]
        for router in routers:
            self._router(router)
        self._one_identifier_each(routers)
        for statement in statements:
            self._add(statement)
        self.few_links()

    def _add(self, statement: Statement) -> None:
        if isinstance(statement, RouterStatement):
            for other in statement.others:
                self._session(statement.name, other)
        elif isinstance(statement, MeshStatement):
            self._mesh(statement)
        elif isinstance(statement, SessionStatement):
            self._stated_session(statement)
        elif isinstance(statement, WayStatement):
            self._way(statement)
        elif isinstance(statement, WideStatement):
            self._wide(statement)
        else:
            self._list(statement)

    def problem(self, word: Word, message: str, advice: str) -> None:
        """Adds a problem."""
        self.problems.append(Problem(word, message, advice))

    def known(self, word: Word, otherwise: str | None = None) -> bool:
        """Whether a word is the name of a router; a problem if not, with what to do otherwise."""
        if word.text in self.draft.routers:
            return True
        if word.text in REFLECTOR_WORDS:
            self.problems.append(reflectors_alone(word).problem)
            return False
        near = guess(word.text, self.draft.routers, self.problems)
        add = otherwise or self.add(word.text)
        advice = f"did you mean {near}? Else {add}" if near else add
        self.problem(word, f"no router is named {word.text}", advice)
        return False

    def all_known(self, words: Iterable[Word]) -> bool:
        """Whether all words are names of routers; a problem for each that is not."""
        return all([self.known(word) for word in words])

    def two_routers(self, one: Word, other: Word, what: str) -> bool:
        """Whether the words name two different routers; problems if not."""
        if not self.all_known((one, other)):
            return False
        if one.text == other.text:
            self.problem(other, f"{what} from {one.text} to itself", "name two different routers")
        return one.text != other.text

    def few_links(self) -> None:
        """A problem if there are more links than the library takes."""
        up = [way for way in self.draft.links.values() if way.value is not None]
        if len(up) > MAX_LINKS:
            advice = f"there are {len(up)}, with two for one both ways: at most {MAX_LINKS}"
            self.problem(up[MAX_LINKS].word, "too many links", advice)

    def members(self, statement: ListStatement) -> EgressList:
        """The routers of a list; problems for those that are unknown or named twice."""
        seen: dict[str, Word] = {}
        if self._says_nobody(statement):
            word, name = statement.routers[0], statement.name.text
            advice = f"for a list of nobody write its name alone: list {name}"
            self.problem(word, f"no router is named {word.text}", advice)
            return EgressList((), statement.name)
        for word in statement.routers:
            if self.known(word) and seen.setdefault(word.text, word) is not word:
                message = f"{word.text} is twice in the list {statement.name.text}"
                self.problem(word, message, "name it once")
        return EgressList(tuple(seen), statement.name)

    def _says_nobody(self, statement: ListStatement) -> bool:
        """Whether a list has, in place of routers' names, words that say nobody."""
        names = {word.text for word in statement.routers}
        return bool(names) and names <= _NOBODY and names.isdisjoint(self.draft.routers)

    def room_for_list(self, name: Word) -> bool:
        """Whether a list more is not too many; a problem if it is."""
        room = len(self.draft.lists) < MAX_LISTS
        if not room:
            self.problem(name, "a list too many", f"a plan has at most {MAX_LISTS} lists")
        return room

    def _router(self, statement: RouterStatement) -> None:
        name, routers = statement.name, self.draft.routers
        if name.text in routers:
            advice = f"{_line(routers[name.text].word)} has it already: choose another"
            self.problem(name, f"the name {name.text} is used twice", advice)
            return
        if len(routers) == MAX_ROUTERS:
            self.problem(name, "a router too many", f"a plan has at most {MAX_ROUTERS} routers")
        identifier = _NO_IDENTIFIER if statement.identifier is None else statement.identifier
        routers[name.text] = Router(statement.role, identifier, name)

    def _one_identifier_each(self, statements: list[RouterStatement]) -> None:
        first: dict[int, Word] = {}
        for statement in statements:
            if statement.identifier is None:
                continue
            holder, word = first.setdefault(statement.identifier, statement.name), statement.name
            if holder is not word:
                advice = f"{_line(holder)} gives it to {holder.text}: each router has its own"
                message = f"the identifier {statement.identifier_word.text} is used twice"
                self.problem(statement.identifier_word, message, advice)

    def _mesh(self, statement: MeshStatement) -> None:
        if not self.all_known(statement.routers):
            return
        seen: dict[str, Word] = {}
        for word in statement.routers:
            if seen.setdefault(word.text, word) is not word:
                self.problem(word, f"{word.text} is twice in this mesh", "name it once")
        for one, other in combinations(seen.values(), 2):
            self._session(one, other)

    def _stated_session(self, statement: SessionStatement) -> None:
        if statement.there:
            self._session(statement.one, statement.other)
        else:
            message = "only a change takes a session away with none"
            self.problem(statement.one, message, "leave the line out")

    def _session(self, one: Word, other: Word) -> None:
        if not self.two_routers(one, other, "a session"):
            return
        first = self.draft.sessions.setdefault(session(one.text, other.text), other)
        if first is not other:
            message = f"the session of {one.text} and {other.text} is given twice"
            self.problem(other, message, f"{_line(first)} gives it already: leave one out")

    def _way(self, statement: WayStatement) -> None:
        start, kind, ways = statement.start, statement.kind, self.draft.ways(statement.kind)
        if not self.two_routers(start, statement.end, f"a {kind}"):
            return
        for ends in ways_of(statement):
            if ends in ways:
                message = f"the {kind} from {ends[0]} to {ends[1]} is given twice"
                advice = f"{_line(ways[ends].word)} gives it already: leave one out"
                self.problem(start, message, advice)
                return
            ways[ends] = Way(statement.value, start)

    def _wide(self, statement: WideStatement) -> None:
        if self.draft.wide is not None:
            advice = f"{_line(self.draft.wide)} has it already: leave one out"
            self.problem(statement.word, "wide is given twice", advice)
        else:
            self.draft.wide = statement.word

    def _list(self, statement: ListStatement) -> None:
        name, lists = statement.name, self.draft.lists
        if name.text in lists:
            advice = f"{_line(lists[name.text].word)} has it already: choose another name"
            self.problem(name, f"the list {name.text} is given twice", advice)
            return
        self.room_for_list(name)
        lists[name.text] = self.members(statement)


def ways_of(statement: WayStatement) -> list[tuple[str, str]]:
    """The ways that a statement is about: one, or one in each direction."""
    ends = statement.start.text, statement.end.text
    return [ends] if statement.one_way else [ends, ends[::-1]]


def _line(word: Word) -> str:
    return word.line.place
