"""Changes to a plan, each a statement of the text format: a link, a distance, a session, a list or
a reflector.

A change replaces what the plan states of the same two routers, or the list of the same name, and
is added where there is none. `link A B none` and `session A B none` take a link or a session away.
One of a reflector replaces the words that the plan has after its identifier.
"""

from __future__ import annotations

from collections.abc import Sequence
from typing import NamedTuple

from ..encoding import CLIENT
from ..errors import RrpError
from ..plan import Plan
from .assembly import assemble
from .draft import Draft, Way, session
from .gathering import Gathering, ways_of
from .problems import Problem, TextErrors, guess
from .statements import (
    FORMS,
    HOP_STEP,
    NO_REFLECTION,
    ListStatement,
    RouterStatement,
    SessionStatement,
    Statement,
    WayStatement,
    clear,
    read_statement,
)
from .words import Line, Word, words_of
from .writing import identifier_text

#: The file that a change is said to be in.
_FILE = "--set"

#: The statements that a change may be.
_KINDS = ("link", "distance", "session", "list", "reflector")

_ADVICE = "a change is a link, distance, session, list or reflector, as: link lon-rr par-a 12"
_NAME_A_REFLECTOR = "name a reflector of the plan, as: reflector lon-rr hop-step"


class Kind(NamedTuple):
    """What kind of reflector a router is."""

    skips: bool
    step: bool

    def values(self) -> dict[str, bool]:
        """The kind as plain values."""
        return {"client_reflection": not self.skips, "hop_step": self.step}


class OtherRole(NamedTuple):
    """A reflector that changes make another kind of reflector."""

    router: str
    before: Kind
    after: Kind

    def lines(self) -> list[str]:
        """What it then does that it did not, or no longer does. Where changes leave out that it
        skips its clients, how to keep that."""
        parts = []
        if self.before.step != self.after.step:
            parts.append(f"has {'the' if self.after.step else 'no'} hop step")
        if self.before.skips != self.after.skips:
            reflects = "does not reflect" if self.after.skips else "reflects"
            parts.append(f"{reflects} between its clients")
        said = [f"{self.router} then {' and '.join(parts)}"]
        if self.before.skips and not self.after.skips:
            words = [NO_REFLECTION, *[HOP_STEP] * self.after.step]
            kept = " ".join(["reflector", self.router, *words])
            said.append(f"    to keep it from reflecting between them: {kept}")
        return said

    def values(self) -> dict[str, object]:
        """The reflector before changes and after them, as plain values."""
        kinds = {"before": self.before.values(), "after": self.after.values()}
        return {"router": self.router, **kinds}


def other_roles(before: Plan, after: Plan) -> list[OtherRole]:
    """The reflectors of which changes make another kind of reflector."""
    found = []
    for router in after.routers:
        old, new = (
            Kind(plan.skips_clients(router), plan.has_hop_step(router)) for plan in (before, after)
        )
        if old != new:
            found.append(OtherRole(router, old, new))
    return found


def with_changes(draft: Draft, texts: Sequence[str]) -> Draft:
    """The draft with the changes made, one after the other. `TextErrors` has all their problems."""
    problems: list[Problem] = []
    gathering = Gathering(draft.copy(), problems)
    for number, text in enumerate(texts, 1):
        line = Line(_FILE, number, text)
        words = words_of(line)
        if not words:
            problems.append(Problem(Word("", line, 1), "there is no statement", _ADVICE))
            continue
        if words[0].text not in _KINDS:
            problems.append(_no_change(words[0], problems))
            continue
        statement = read_statement(words, problems, change=True)
        if statement is not None:
            _change(gathering, statement)
    gathering.few_links()
    if problems:
        raise TextErrors(problems)
    return gathering.draft


def _no_change(word: Word, problems: list[Problem]) -> Problem:
    """The problem of a statement that is none, or none of a change. What follows its first word is
    not looked at: it would be told twice."""
    if word.text in FORMS:
        return Problem(word, f"{word.text} is no change", _ADVICE)
    near = guess(word.text, _KINDS, problems)
    advice = f"did you mean {near}?" if near else _ADVICE
    return Problem(word, f"no statement starts with {clear(word.text)}", advice)


def assemble_changed(draft: Draft, texts: Sequence[str]) -> Plan:
    """The plan of a draft with changes. The draft itself makes a plan, so that what is refused is
    to blame on a change, also where it is found at a line of the draft."""
    changed = with_changes(draft, texts)
    try:
        return assemble(changed)
    except TextErrors as failure:
        if any(problem.word.line.file == _FILE for problem in failure.problems):
            raise
        raise TextErrors([_blamed(draft, texts, failure.problems[0])]) from None


def _blamed(draft: Draft, texts: Sequence[str], problem: Problem) -> Problem:
    """The problem at the last change without which those before it make a plan."""
    number = len(texts)
    while number > 1 and not _makes_plan(draft, texts[: number - 1]):
        number -= 1
    word = words_of(Line(_FILE, number, texts[number - 1]))[0]
    return problem._replace(word=word, message="with this change some routers are too far apart")


def _makes_plan(draft: Draft, texts: Sequence[str]) -> bool:
    try:
        assemble(with_changes(draft, texts))
    except RrpError:
        return False
    return True


def _change(gathering: Gathering, statement: Statement) -> None:
    if isinstance(statement, WayStatement):
        if gathering.two_routers(statement.start, statement.end, f"a {statement.kind}"):
            _change_way(gathering, statement)
    elif isinstance(statement, SessionStatement):
        if gathering.two_routers(statement.one, statement.other, "a session"):
            _change_session(gathering, statement)
    elif isinstance(statement, ListStatement):
        if statement.name.text in gathering.draft.lists or gathering.room_for_list(statement.name):
            gathering.draft.lists[statement.name.text] = gathering.members(statement)
    elif isinstance(statement, RouterStatement):
        if gathering.known(statement.name, _NAME_A_REFLECTOR):
            _change_reflector(gathering, statement)


def _change_way(gathering: Gathering, statement: WayStatement) -> None:
    """A link that becomes none is taken away; a distance that becomes none is no way."""
    links, start, end = gathering.draft.links, statement.start, statement.end
    if statement.kind == "link" and gathering.draft.distances and not links:
        advice = f"set a distance, as: distance {start.text} {end.text} 12"
        gathering.problem(start, "the plan has distances and no links", advice)
        return
    for ends in ways_of(statement):
        if statement.kind == "link" and statement.value is None and ends not in links:
            message = f"there is no link from {ends[0]} to {ends[1]} to take away"
            gathering.problem(start, message, "name the two routers of a link")
            return
        ways = gathering.draft.ways(statement.kind)
        ways.pop(ends, None)
        ways[ends] = Way(statement.value, start)  # the last one, to be blamed before the others


def _change_session(gathering: Gathering, statement: SessionStatement) -> None:
    sessions, one, other = gathering.draft.sessions, statement.one, statement.other
    both, pair = f"{one.text} and {other.text}", session(one.text, other.text)
    if statement.there and pair in sessions:
        advice = f"to take it away: session {one.text} {other.text} none"
        gathering.problem(one, f"{both} have a session already", advice)
    elif statement.there:
        sessions[pair] = other
    elif pair in sessions:
        del sessions[pair]
    else:
        gathering.problem(one, f"{both} have no session to take away", "name two neighbours")


def _change_reflector(gathering: Gathering, statement: RouterStatement) -> None:
    """Another role of a reflector. Its identifier stays, as routers are numbered by theirs."""
    routers, name, stated = gathering.draft.routers, statement.name, statement.identifier
    router = routers[name.text]
    if router.role == CLIENT:
        message = f"{name.text} is a client, and stays one in a change"
        gathering.problem(name, message, _NAME_A_REFLECTOR)
    elif stated not in (None, router.identifier):
        message = f"the identifier of {name.text} is {identifier_text(router.identifier)}"
        advice = "a change leaves identifiers as they are: leave it out"
        gathering.problem(statement.identifier_word, message, advice)
    else:
        routers[name.text] = router._replace(role=statement.role)
