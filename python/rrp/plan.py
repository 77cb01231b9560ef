"""Plans as a planner works with them: routers and lists by name, answers by the proved library.

    from rrp import Plan

    plan = Plan.read("examples/net.rrp")
    for name in plan.lists:
        verdict = plan.verdict(name)
        print(name, "stable" if verdict.stable else f"suspect: {' '.join(verdict.cycle)}")

A router or a list is asked for by its name or by its number. Answers have names.
"""

from __future__ import annotations

import os
from collections.abc import Callable, Iterable, Sequence
from functools import cached_property
from typing import TYPE_CHECKING, NamedTuple, TypeVar, Union

from . import encoding, library
from .errors import RrpError, cut_names, unknown
from .tables import Route, Table

if TYPE_CHECKING:
    from .figures import Figures
    from .hop_sets import HopSet
    from .steady import Steady
    from .text import Draft

#: A router or a list, by name or by number.
Which = Union[str, int]

#: What a call answers.
_Answer = TypeVar("_Answer")

#: The rules by which a router relies on another, by the library's number.
RULES = {1: "parent", 2: "peer client", 3: "own best client", 4: "better offer"}
BETTER_OFFER = 4

#: The reasons why it does not. The requirements' fifth never comes first, so 5 is not used.
REASONS = {
    1: "same router",
    2: "not neighbours",
    3: "first router listed",
    4: "second an unlisted client",
    6: "a client that is not the best one",
    7: "no offer",
    8: "no way to the offer",
    9: "offer not better",
}

#: What is asked of a list that is not worked out where too many of its routers lie in groups of two
#: or more, and what to do instead.
_REST, _STEP, _GRADE = "where it may rest", "where to load the hop step", "its grade"
_INSTEAD = {
    _REST: (
        "rrp run PLAN LIST shows single runs, of which none promises anything of another; or end a",
        "cycle and ask again: rrp show PLAN LIST has changes that end one",
    ),
    _STEP: ("end a cycle, then ask again: rrp show PLAN LIST has changes that end one",),
    _GRADE: ("end a cycle, then ask again: rrp show PLAN LIST has changes that end one",),
}

#: What to do with a plan that is too far for RRP1.
_KEEP = (
    "leave it RRP2, or state smaller distances that keep at each router what is nearer and what",
    "is as far; never round, or a suspect list may look stable",
)

#: The answers on every list, by the library's number.
YES, NO, UNDECIDED = "yes", "no", "undecided"
EVERY_LIST = {1: YES, 0: NO, 2: UNDECIDED}

#: The grades of a list, by the library's number.
ALWAYS_RESTS, CAN_REST, CANNOT_REST, NO_TABLE = 1, 2, 3, 4

ROLES = {encoding.CLIENT: "client", **dict.fromkeys(encoding.REFLECTORS.values(), "reflector")}


class Verdict(NamedTuple):
    """The verdict of a plan for a list, whose routers are `egresses`; none if nobody is in it.

    Stable: `highest` is the highest rank, `rounds` the rounds within which the routers settle,
    `ranks` each router's rank and `table` what the routers settle on; `cycle` is empty. Suspect:
    `cycle` has routers of which each relies on the next and the last on the first; `highest`,
    `rounds`, `ranks` and `table` are None. Either way `labels` has for each router the one with the
    lowest number in its group, and `groups` the groups of two routers or more.
    """

    name: str
    stable: bool
    highest: int | None
    rounds: int | None
    ranks: dict[str, int] | None
    table: Table | None
    labels: dict[str, str]
    groups: tuple[tuple[str, ...], ...]
    cycle: tuple[str, ...]
    egresses: tuple[str, ...]

    @property
    def nobody(self) -> bool:
        """Whether nobody is in the list, as where a prefix is gone everywhere. Such a list is
        stable, and its routers settle on nothing."""
        return not self.egresses

    @property
    def grouped(self) -> tuple[str, ...]:
        """The routers in groups of two or more, in the order of their numbers."""
        inside = {router for group in self.groups for router in group}
        return tuple(router for router in self.labels if router in inside)

    @property
    def delayed_rounds(self) -> int | None:
        """The rounds within which the routers of a stable list settle where each may read its
        neighbours as they stood at any moment since the round before began. None if the list is
        suspect."""
        return None if self.highest is None else 2 * self.highest + 3

    @property
    def without_route(self) -> tuple[str, ...] | None:
        """The routers that a stable list leaves without a route, None if the list is suspect."""
        if self.table is None:
            return None
        return tuple(router for router, route in self.table.items() if route is None)


class Explanation(NamedTuple):
    """Why a router relies on another for a list, or does not.

    `code` is the library's number of the rule (of `RULES`) if `relies`, else of the reason (of
    `REASONS`), and `words` names that rule or reason. A better offer has the egress `offer` and, if
    the router has a best client of its own, that one as `own` and, as `margin`, the distance to the
    offer minus that to the own one. What an answer does not have is None.
    """

    relies: bool
    code: int
    words: str
    offer: str | None
    own: str | None
    margin: int | None


class Comparison(NamedTuple):
    """The egress of two whose route is better at a router, None if neither is. `margin` is the
    distance to the first minus that to the second, None where the router has no way to one of them.
    At a reflector with the hop step the better one may be the farther one."""

    better: str | None
    margin: int | None


class Grade(NamedTuple):
    """Whether the routers of a list come to rest: `number` is 1 if they do whatever the order of
    activations, 2 if from every table some order brings them to rest, 3 if from some table none
    does though there are tables to rest in, 4 if there is no table to rest in.

    `rounds` is a number of rounds within which a list of grade 1 comes to rest from any table, each
    router reading its neighbours as they stand; None for any other grade. Nothing is said of which
    table that is, if a suspect list has several, nor of updates that take time.
    """

    number: int
    rounds: int | None


class EveryList(NamedTuple):
    """Whether a plan is stable for every egress list, its own lists and any other: `answer` is
    `yes`, `no` or `undecided`. With a no `routers` has a list for which the plan is suspect; it is
    empty with another answer. Undecided, no such list was found, and some may exist."""

    answer: str
    routers: tuple[str, ...]


class Run(NamedTuple):
    """What a run left: the table, how many activations were made, how many rounds ended among
    them, and whether the sequence is longer than the limit."""

    table: Table
    applied: int
    rounds: int
    exhausted: bool


class TooFarToNarrow(library.Refused):
    """An RRP2 plan has distances that are too far for RRP1, `count` of them. The first in the
    plan's order is `distance`, from the router `start` to the router `end`."""

    def __init__(self, source: str, start: str, end: str, distance: int, count: int) -> None:
        super().__init__(library.TOO_FAR_TO_NARROW, source)
        self.start, self.end, self.distance, self.count = start, end, distance, count

    @property
    def detail(self) -> str:
        """Which distance is too far, and how many are."""
        which = "the only distance that is too far"
        if self.count > 1:
            which = f"the first of {self.count:,} distances that are too far"
        return cut_names(f"from {self.start} to {self.end} it is {self.distance:,}, {which}")

    def __str__(self) -> str:
        return "\n    ".join([super().__str__(), self.detail, *_KEEP])

    def as_json(self) -> list[dict[str, object]]:
        """The failure as plain values."""
        return [{"message": f"{super().__str__()}; {self.detail}", "advice": " ".join(_KEEP)}]


class TooManyGrouped(library.Refused):
    """What is asked of a list, in words `asked`, is not worked out, as more than 12 routers lie in
    groups of two or more: those in `grouped`."""

    def __init__(self, source: str, name: str, grouped: Sequence[str], asked: str) -> None:
        super().__init__(library.TOO_MANY_GROUPED, source)
        self.name, self.grouped, self.asked = name, tuple(grouped), asked

    @property
    def detail(self) -> str:
        """How many such routers there are, for which list, and what is not worked out."""
        counted = f"the list {self.name} has {len(self.grouped)} such routers"
        return cut_names(f"{counted}: {self.asked} is not worked out")

    def __str__(self) -> str:
        return "\n    ".join([super().__str__(), self.detail, *_INSTEAD[self.asked]])

    def as_json(self) -> list[dict[str, object]]:
        """The failure as plain values."""
        advice = " ".join(_INSTEAD[self.asked])
        return [{"message": f"{super().__str__()}; {self.detail}", "advice": advice}]


class Plan:
    """A plan that the library does not refuse, with names.

    `data` is the plan's bytes, `routers` and `lists` are the names in the order of the numbers,
    `source` says where the plan came from, `notes` has remarks for the planner, a line each, and
    `changes` has the statements by which the plan differs from the one that was read.
    """

    def __init__(
        self,
        data: bytes,
        routers: Sequence[str] | None = None,
        lists: Sequence[str] | None = None,
        source: str = "the plan",
        notes: Sequence[str] = (),
        changes: Sequence[str] = (),
        draft: Draft | None = None,
    ) -> None:
        self.data = bytes(data)
        self.source = source
        self.notes = tuple(notes)
        self.changes = tuple(changes)
        self._draft = draft
        router_count, list_count = library.size(self.data)
        self.routers = _names(routers, "r", router_count)
        self.lists = _names(lists, "l", list_count)
        self._router_numbers = {name: number for number, name in enumerate(self.routers)}
        self._list_numbers = {name: number for number, name in enumerate(self.lists)}

    def __repr__(self) -> str:
        from .output import count_words

        routers = count_words(len(self.routers), "router")
        return f"<Plan {self.source}: {routers}, {count_words(len(self.lists), 'list')}>"

    # Where plans come from

    @classmethod
    def read(cls, path: str | os.PathLike[str]) -> Plan:
        """Reads a plan from a file, text, JSON or bytes; from standard input if the path is
        `-`."""
        from .files import read_file

        name, data = read_file(path)
        if encoding.is_bytes(data):
            return cls.from_bytes(data, name)
        from .text import decode_text

        return cls.parse(decode_text(data, name), name)

    @classmethod
    def parse(cls, text: str, filename: str = "plan") -> Plan:
        """Reads a plan from text (docs/TEXT-PLANS.md), or from JSON (docs/plan.schema.json).
        `TextErrors` has all problems of a text."""
        from .text import parse
        from .text.assembly import assemble

        return assemble(parse(text, filename))

    @classmethod
    def from_bytes(cls, data: bytes, filename: str = "plan") -> Plan:
        """A plan from its bytes, with routers r0, r1, .. and lists l0, l1, .."""
        try:
            return cls(data, source=filename)
        except library.Refused as refused:
            raise library.Refused(refused.number, filename) from None

    # The same plan with changes, with the hop step elsewhere, or of the other mark

    def changed(self, *statements: str) -> Plan:
        """This plan with changes, each a statement as `rrp check --set` takes it: a link, a
        distance, a session, a list or a reflector. `TextErrors` has all problems of them."""
        from .text.changes import assemble_changed

        changed = assemble_changed(self.draft, statements)
        changed.changes = (*self.changes, *statements)
        return changed

    @property
    def sheets(self) -> set[str]:
        """The files of the sheets that the plan's text names and that were read."""
        return set() if self._draft is None else self._draft.sheets()

    @property
    def draft(self) -> Draft:
        """What the plan's text states, with its links. That of a plan without a text states every
        distance."""
        if self._draft is None:
            from .text import parse
            from .text.writing import write

            self._draft = parse(write(self), self.source)
        return self._draft

    def with_hop_step(self, routers: Iterable[Which]) -> Plan:
        """This plan with the hop step at some reflectors too. All else is the same."""
        numbers = [self.router_number(which) for which in routers]
        for number in numbers:
            if self.model.roles[number] == encoding.CLIENT:
                name = cut_names(self.routers[number])
                raise RrpError(f"{name} is a client, and only reflectors have the hop step")
        return self._with_data(encoding.with_step(self.data, numbers))

    def widened(self) -> Plan:
        """This RRP1 plan as RRP2: the same in all but the bytes of a distance."""
        return self._converted(library.widen)

    def narrowed(self) -> Plan:
        """This RRP2 plan as RRP1: the same in all but the bytes of a distance. Raises
        `TooFarToNarrow` where some distance is too far for that."""
        return self._converted(library.narrow)

    def _converted(self, call: Callable[[bytes], bytes]) -> Plan:
        try:
            data = call(self.data)
        except library.Refused as refused:
            far = self.too_far_for_rrp1()
            if refused.number == library.TOO_FAR_TO_NARROW and far:
                raise TooFarToNarrow(self.source, *far[0], len(far)) from None
            raise library.Refused(refused.number, self.source) from None
        return self._with_data(data)

    def _with_data(self, data: bytes) -> Plan:
        """Other bytes of a plan of the same routers and lists."""
        return Plan(data, self.routers, self.lists, self.source, self.notes, self.changes)

    def too_far_for_rrp1(self) -> list[tuple[str, str, int]]:
        """The distances that RRP1 does not hold, in the plan's order: from which router, to which,
        and how far."""
        return [
            (start, end, way)
            for start, row in zip(self.routers, self.model.distances)
            for end, way in zip(self.routers, row)
            if way is not None and way > encoding.longest(encoding.NARROW)
        ]

    # What the plan says

    def router_number(self, which: Which) -> int:
        """The number of a router, given its name or its number."""
        return _number(which, self._router_numbers, "router", self.routers, self.source)

    def list_number(self, which: Which) -> int:
        """The number of a list, given its name or its number."""
        return _number(which, self._list_numbers, "list", self.lists, self.source)

    @cached_property
    def model(self) -> encoding.Model:
        """What the plan says, by number."""
        return encoding.decode(self.data)

    def role(self, router: Which) -> str:
        """`reflector` or `client`."""
        return ROLES[self.model.roles[self.router_number(router)]]

    def skips_clients(self, router: Which) -> bool:
        """Whether a router is a reflector without reflection between its clients."""
        return encoding.skips(self.model.roles[self.router_number(router)])

    def has_hop_step(self, router: Which) -> bool:
        """Whether a router is a reflector with the hop step: there a route that its own egress
        router tells is better than one that is passed on, whatever the distances."""
        return encoding.has_step(self.model.roles[self.router_number(router)])

    def identifier(self, router: Which) -> int:
        """The identifier of a router. The first byte of an IPv4 address is the most significant."""
        return self.model.identifiers[self.router_number(router)]

    @cached_property
    def sessions(self) -> tuple[tuple[str, str], ...]:
        """The two routers of each session."""
        return tuple((self.routers[one], self.routers[other]) for one, other in self.model.sessions)

    def neighbours(self, router: Which) -> tuple[str, ...]:
        """The routers that have a session with a router."""
        name = self.routers[self.router_number(router)]
        own = [pair for pair in self.sessions if name in pair]
        return tuple(one if other == name else other for one, other in own)

    @property
    def mark(self) -> str:
        """What the bytes start with: RRP1, with distances up to 65,534, or RRP2, with distances
        up to 4,294,967,294."""
        return encoding.MARKS[self.width].decode()

    @property
    def width(self) -> int:
        """How many bytes a distance has: 2 in an RRP1 plan, 4 in an RRP2 plan."""
        return encoding.width_of(self.data)

    def distance(self, router: Which, other: Which) -> int | None:
        """The distance from a router to another, None if there is no way."""
        return self.model.distances[self.router_number(router)][self.router_number(other)]

    def egresses(self, egress_list: Which) -> tuple[str, ...]:
        """The egress routers of a list; none if nobody is in it."""
        return self._at(library.egress_list(self.data, self.list_number(egress_list)))

    # What the library answers

    def compare(
        self,
        router: Which,
        first: Which,
        second: Which,
        first_direct: bool,
        second_direct: bool,
    ) -> Comparison:
        """Which of the routes of two egress routers is better at a router, and how much farther
        the first egress is.

        A flag says that the egress router itself tells its route, and that no reflector passes it
        on. Of what a router holds that is so exactly if sender and egress are the same. It counts
        at reflectors with the hop step alone.
        """
        egresses = self.router_number(first), self.router_number(second)
        asked = self.router_number(router), *egresses, first_direct, second_direct
        answer = library.compare(self.data, *asked)
        better = self.routers[egresses[answer.better - 1]] if answer.better else None
        return Comparison(better, answer.margin)

    def relies(self, egress_list: Which, router: Which, other: Which) -> bool:
        """Whether a router relies on another for a list."""
        routers = self.router_number(router), self.router_number(other)
        return library.relies(self.data, self.list_number(egress_list), *routers)

    def reliances(self, egress_list: Which, router: Which) -> tuple[str, ...]:
        """The routers that a router relies on for a list."""
        return tuple(other for other in self.routers if self.relies(egress_list, router, other))

    def explain(self, egress_list: Which, router: Which, other: Which) -> Explanation:
        """The rule by which a router relies on another for a list, or why it does not."""
        routers = self.router_number(router), self.router_number(other)
        answer = library.explain(self.data, self.list_number(egress_list), *routers)
        offered = answer.relies and answer.code == BETTER_OFFER
        words = (RULES if answer.relies else REASONS).get(answer.code, f"code {answer.code}")
        return Explanation(
            relies=answer.relies,
            code=answer.code,
            words=words,
            offer=self.routers[answer.offer] if offered else None,
            own=None if answer.own is None else self.routers[answer.own],
            margin=None if answer.own is None else answer.margin,
        )

    def verdict(self, egress_list: Which) -> Verdict:
        """The verdict for a list."""
        number = self.list_number(egress_list)
        answer = library.verdict(self.data, number)
        labels = self._at(answer.labels)
        return Verdict(
            name=self.lists[number],
            stable=answer.stable,
            highest=answer.size if answer.stable else None,
            rounds=answer.size + 2 if answer.stable else None,
            ranks=dict(zip(self.routers, answer.ranks)) if answer.stable else None,
            table=Table(answer.table, self.routers) if answer.stable else None,
            labels=dict(zip(self.routers, labels)),
            groups=_groups(self.routers, labels),
            cycle=self._at(answer.cycle),
            egresses=self.egresses(number),
        )

    def verdicts(self) -> tuple[Verdict, ...]:
        """The verdicts for all lists, in order."""
        return tuple(self.verdict(number) for number in range(len(self.lists)))

    def figures(self) -> Figures:
        """All lists in figures: how many are stable and how many suspect, by highest rank and by
        the routers in groups of two or more."""
        from .figures import figures_of

        return figures_of(self)

    def every_list(self) -> EveryList:
        """Whether the plan is stable for every egress list whatever. Its own lists play no part."""
        found = library.every_list(self.data)
        return EveryList(EVERY_LIST[found.answer], self._at(found.routers))

    def steady_numbers(self, egress_list: Which) -> tuple[int, ...]:
        """The numbers of all tables of a list that no activation changes, rising. Bit i of a number
        is set exactly if the i-th of the routers in groups of two or more, lowest first, holds its
        best client's own route. Raises `TooManyGrouped` where more than 12 routers lie in such
        groups."""
        return self._of_groups(library.steady, egress_list, _REST)

    def steady(self, egress_list: Which) -> Steady:
        """All tables of a list that no activation changes, with their numbers. That there are some
        is no promise that the routers of a suspect list get to one. Raises `TooManyGrouped` where
        more than 12 routers lie in groups of two or more."""
        from .steady import steady_tables

        return steady_tables(self, egress_list)

    def grade(self, egress_list: Which) -> Grade:
        """The grade of a list; that of a stable one is 1. Raises `TooManyGrouped` where more than
        12 routers lie in groups of two or more."""
        found = self._of_groups(library.grade, egress_list, _GRADE)
        return Grade(found.grade, found.rounds if found.grade == ALWAYS_RESTS else None)

    def hop_set_number(self, egress_list: Which) -> int:
        """The number of a smallest set of reflectors that makes a list stable once they have the
        hop step, the lowest of that size; 0 exactly if the list is stable. Bit i is that of the
        i-th of the routers in groups of two or more, lowest first. Raises `TooManyGrouped` where
        more than 12 routers lie in such groups."""
        return self._of_groups(library.hop_set, egress_list, _STEP)

    def hop_set(self, egress_list: Which) -> HopSet:
        """A smallest set of reflectors that makes a list stable once they have the hop step, with
        the verdict that the list then has. It is for this list alone. Raises `TooManyGrouped` where
        more than 12 routers lie in groups of two or more."""
        from .hop_sets import smallest_set

        return smallest_set(self, egress_list)

    def _of_groups(
        self, call: Callable[[bytes, int], _Answer], egress_list: Which, asked: str
    ) -> _Answer:
        """What a call answers that is refused where more than 12 routers of a list lie in groups of
        two or more; in words, what it is asked."""
        number = self.list_number(egress_list)
        try:
            return call(self.data, number)
        except library.Refused as refused:
            if refused.number != library.TOO_MANY_GROUPED:
                raise
        verdict = self.verdict(number)
        raise TooManyGrouped(self.source, verdict.name, verdict.grouped, asked)

    # Routing tables

    def empty_table(self, egress_list: Which) -> Table:
        """The table to start from nothing: each router of the list holds its own route alone."""
        table = Table(bytes([library.NONE]) * (2 * len(self.routers)), self.routers)
        for name in self.egresses(egress_list):
            table = table.with_route(name, Route(name, name))
        return table

    def activate(self, egress_list: Which, router: Which, table: Table) -> Table:
        """The table after one activation of a router."""
        numbers = self.list_number(egress_list), self.router_number(router)
        return Table(library.activate(self.data, *numbers, table.data), self.routers)

    def run(
        self,
        egress_list: Which,
        sequence: Iterable[Which],
        table: Table | None = None,
        limit: int | None = None,
    ) -> Run:
        """Activates routers one after the other, at most `limit` of them, which is no negative
        number, from a table or, if none is given, from nothing."""
        start = self.empty_table(egress_list) if table is None else table
        acts = bytes(self.router_number(which) for which in sequence)
        ran = library.run(self.data, self.list_number(egress_list), acts, start.data, limit)
        return Run(Table(ran.table, self.routers), ran.applied, ran.rounds, ran.exhausted)

    def _at(self, numbers: Iterable[int]) -> tuple[str, ...]:
        """The names of routers, by their numbers."""
        return tuple(self.routers[number] for number in numbers)


def _names(given: Sequence[str] | None, letter: str, count: int) -> tuple[str, ...]:
    """The names given, one each; or, if none are, the letter and a number."""
    names = tuple(f"{letter}{number}" for number in range(count)) if given is None else tuple(given)
    if len(set(names)) != count or len(names) != count:
        raise RrpError(f"there must be {count} different names, and not {', '.join(names)}")
    return names


def _number(
    which: Which, numbers: dict[str, int], kind: str, names: Sequence[str], source: str
) -> int:
    """The number that a name stands for, or that is given itself. A name goes before a number that
    is written like it."""
    if isinstance(which, str):
        if which in numbers:
            return numbers[which]
        if not (which.isascii() and which.isdigit() and len(which) < 10):
            raise unknown(kind, which, names, source)
        which = int(which)
    if not 0 <= which < len(names):
        raise unknown(kind, str(which), names, source)
    return which


def _groups(routers: Sequence[str], labels: Sequence[str]) -> tuple[tuple[str, ...], ...]:
    """The groups of two routers or more: the routers that share a label."""
    groups: dict[str, list[str]] = {}
    for router, label in zip(routers, labels):
        groups.setdefault(label, []).append(router)
    return tuple(tuple(group) for group in groups.values() if len(group) > 1)
