"""The text that is filed for a plan, a line a fact:

    routers 4 lists 2                           the lines of the verdict program,
    0 suspect 2 0 1                             or the single line: refused 5
    1 stable 3
    list 0 group 0 1                            each group of two or more, of a suspect list
    list 1 router 0 rank 2 egress 3 from 1      what each router settles on, of a stable list,
    list 1 router 2 rank 3 nothing              which may be nothing
    sha256 0123..                               of the bytes of the plan

Routers and lists have their numbers, as in the verdict program's lines: the bytes of a plan have no
names, and a plan in text has the verdict of its bytes.
"""

from __future__ import annotations

import re
from collections.abc import Iterator
from hashlib import sha256
from typing import NamedTuple

from . import library

#: The kinds of facts, in the order in which a list has them, and the lines that state them.
PLAN, VERDICT, GROUP, ROUTER, DIGEST = "plan", "verdict", "group", "router", "sha256"

_FORMS = {
    PLAN: "(?P<value>routers N lists N|refused N)",
    VERDICT: "(?P<list>N) (?P<value>stable N|suspect N( N)+)",
    GROUP: "list (?P<list>N) group (?P<value>(?P<router>N)( N)+)",
    ROUTER: "list (?P<list>N) router (?P<router>N) (?P<value>rank N (egress N from N|nothing))",
    DIGEST: "sha256 (?P<value>[0-9a-f]{64})",
}

_LINES = {
    kind: re.compile(re.sub(r"\bN\b", "(0|[1-9][0-9]{0,4})", form)) for kind, form in _FORMS.items()
}


class Entry(NamedTuple):
    """What is filed for a plan: the verdict program's lines, what each list has, the last line. And
    how many lists are stable, how many suspect, how many of the stable ones leave a router without
    a route, and in how many of these nobody is listed, all 0 if the plan is refused; and the
    numbers of the suspect lists."""

    program: str
    details: str
    digest: str
    stable: int = 0
    suspect: int = 0
    lacking: int = 0
    nobody: int = 0
    suspects: tuple[int, ...] = ()

    @property
    def text(self) -> str:
        """All of it."""
        return self.program + self.details + self.digest

    @property
    def refused(self) -> bool:
        """Whether the plan is refused."""
        return self.program.startswith("refused")


class Key(NamedTuple):
    """What a line is about: the whole plan, a list, or a router of a list. Of a group, the router
    is its lowest."""

    kind: str
    number: int | None = None
    router: int | None = None


def entry(plan: bytes) -> Entry:
    """What is filed for the bytes of a plan."""
    digest = f"sha256 {sha256(plan).hexdigest()}\n"
    try:
        routers, lists = library.size(plan)
    except library.Refused as refused:
        return Entry(f"refused {refused.number}\n", "", digest)
    answers = [library.verdict(plan, number) for number in range(lists)]
    program = [f"routers {routers} lists {lists}\n"]
    details: list[str] = []
    for number, answer in enumerate(answers):
        program.append(f"{number} {_verdict(answer)}\n")
        details += _routers(number, answer) if answer.stable else _groups(number, answer)
    stable = [answer for answer in answers if answer.stable]
    lacking = sum(library.NONE in answer.table[::2] for answer in stable)
    # a listed router settles on its own route, so that nobody is listed where none has a route
    nobody = sum(set(answer.table) == {library.NONE} for answer in stable)
    suspects = tuple(number for number, answer in enumerate(answers) if not answer.stable)
    counts = len(stable), len(suspects), lacking, nobody
    return Entry("".join(program), "".join(details), digest, *counts, suspects)


def _verdict(answer: library.Assessed) -> str:
    if answer.stable:
        return f"stable {answer.size}"
    return " ".join(map(str, ["suspect", answer.size, *answer.cycle]))


def _routers(number: int, answer: library.Assessed) -> Iterator[str]:
    """A line a router of a stable list."""
    rows = zip(answer.ranks, answer.table[::2], answer.table[1::2])
    for router, (rank, egress, sender) in enumerate(rows):
        held = "nothing" if egress == library.NONE else f"egress {egress} from {sender}"
        yield f"list {number} router {router} rank {rank} {held}\n"


def _groups(number: int, answer: library.Assessed) -> Iterator[str]:
    """A line a group of two routers or more, of a suspect list."""
    groups: dict[int, list[str]] = {}
    for router, label in enumerate(answer.labels):
        groups.setdefault(label, []).append(str(router))
    for group in groups.values():
        if len(group) > 1:
            yield f"list {number} group {' '.join(group)}\n"


def facts(text: str) -> dict[Key, str] | None:
    """What the lines of a filed text say. None if one is no line of a verdict, or says what one
    before it says."""
    found: dict[Key, str] = {}
    for line in lines_of(text):
        fact = _fact(line)
        if fact is None or fact[0] in found:
            return None
        found[fact[0]] = fact[1]
    return found


def _fact(line: str) -> tuple[Key, str] | None:
    for kind, form in _LINES.items():
        match = form.fullmatch(line)
        if match:
            parts = match.groupdict()
            numbers = [parts.get(name) for name in ("list", "router")]
            key = Key(kind, *(None if part is None else int(part) for part in numbers))
            return key, parts["value"]
    return None


def digest_of(text: str) -> str | None:
    """The SHA-256 that a filed text has, None if it has none."""
    found = [_LINES[DIGEST].fullmatch(line) for line in lines_of(text)]
    return next((match["value"] for match in found if match), None)


def lines_of(text: str) -> list[str]:
    """The lines of a text, without what ends them."""
    lines = text.split("\n")
    return lines if lines[-1] else lines[:-1]
