"""Activations one after the other, with what each changes, until the table is at rest or all comes
round again.

Every activation, the end of every round and the table that a stable list settles on are the
library's answers.
"""

from __future__ import annotations

import random
from bisect import bisect_right
from collections.abc import Iterator, Sequence
from typing import NamedTuple

from .plan import Plan, Verdict
from .tables import Route, Table

#: How a run may end.
SETTLED, AT_REST, REPEATS, OPEN = "settled", "at rest", "repeats", "open"


class Order(NamedTuple):
    """An order of activations without end: these routers again and again or, with a seed, in a new
    random order each time."""

    routers: Sequence[str]
    seed: int | None = None

    def activations(self) -> Iterator[tuple[int | None, str]]:
        """The routers, each with its place in the order, None if that is random."""
        if self.seed is None:
            while True:
                yield from enumerate(self.routers)
        chance, routers = random.Random(self.seed), list(self.routers)
        while True:
            chance.shuffle(routers)
            yield from ((None, router) for router in routers)


class Step(NamedTuple):
    """One activation, numbered from 1: what the router held before and after, and the round that
    ended with it, if one did. `read` says after how many activations each neighbour was read, None
    if all were read as they stood."""

    number: int
    router: str
    before: Route | None
    after: Route | None
    ended: int | None
    read: dict[str, int] | None = None


class Outcome(NamedTuple):
    """How a run ended.

    `settled`: the table is the verdict's. `at rest`: the list is suspect, and no activation changes
    the table. `repeats`: all is as it was after activation `first`, the place in the order too, and
    there were so many `changes` since. `open`: the rounds are over; `first` and `changes` are then
    given if the order is random and the table was there before, with changes since.
    """

    kind: str
    first: int | None = None
    changes: int = 0


class Tracing:
    """A run of at most `limit` rounds. Once `steps` is through, `table`, `activations`, `rounds`
    and `outcome` say where it ended.

    An order that leaves routers out ends no round. Then it is gone through `limit` times.
    """

    def __init__(
        self, plan: Plan, verdict: Verdict, order: Order, table: Table, limit: int
    ) -> None:
        self.plan = plan
        self.verdict = verdict
        self.order = order
        self.table = table
        self.limit = limit
        self.activations = 0
        self.rounds = 0
        self.outcome = Outcome(OPEN)
        self._complete = self._round_ends(order.routers)
        self._since_round: list[str] = []
        self._changes: list[int] = []
        self._ends: list[int] = []
        self._movers: dict[Table, str | None] = {}

    def steps(self) -> Iterator[Step]:
        """Makes the run, and gives each activation."""
        seen: dict[tuple[int | None, Table], int] = {}
        for place, router in self.order.activations():
            first = seen.setdefault((place, self.table), self.activations)
            outcome = self._outcome(place, first)
            if outcome is not None:
                self.outcome = outcome
                return
            yield self._activate(router)

    @property
    def promised(self) -> int | None:
        """The rounds within which this run settles, None if the list is suspect."""
        return self.verdict.rounds

    @property
    def last_change(self) -> tuple[int, int]:
        """The last activation that changed the table, 0 if none did, and how many rounds had ended
        with it."""
        number = self._changes[-1] if self._changes else 0
        return number, bisect_right(self._ends, number)

    def mover(self) -> str | None:
        """The first router whose activation changes the table, None if there is none."""
        if self.table not in self._movers:
            moving = (router for router in self.plan.routers if self._after(router) != self.table)
            self._movers[self.table] = next(moving, None)
        return self._movers[self.table]

    def _outcome(self, place: int | None, first: int) -> Outcome | None:
        """How the run ended, None if it goes on. After activation `first` all was as it is now."""
        if self.verdict.stable and self.table == self.verdict.table:
            return Outcome(SETTLED)
        if not self.verdict.stable and self.mover() is None:
            return Outcome(AT_REST)
        changes = len(self._changes) - bisect_right(self._changes, first)
        if place is not None and first < self.activations:
            return Outcome(REPEATS, first, changes)
        if not self._spent():
            return None
        return Outcome(OPEN, first if changes else None, changes)

    def _spent(self) -> bool:
        if self._complete:
            return self.rounds >= self.limit
        return self.activations >= self.limit * len(self.order.routers)

    def _after(self, router: str) -> Table:
        return self.plan.activate(self.verdict.name, router, self.table)

    def _round_ends(self, routers: Sequence[str]) -> bool:
        """Whether a round ends among these activations, as the library counts."""
        return self.plan.run(self.verdict.name, routers).rounds > 0

    def _read(self, router: str) -> dict[str, int] | None:
        """The moments at which a router reads its neighbours, None for the present."""
        return None

    def _activated(self, router: str, read: dict[str, int] | None) -> Table:
        """The table after an activation that reads so."""
        return self._after(router)

    def _activate(self, router: str) -> Step:
        before, read = self.table, self._read(router)
        self.table = self._activated(router, read)
        self.activations += 1
        if self.table != before:
            self._changes.append(self.activations)
        self._since_round.append(router)
        ended = None
        if self._round_ends(self._since_round):
            self._since_round = []
            self.rounds += 1
            ended = self.rounds
            self._ends.append(self.activations)
        return Step(self.activations, router, before[router], self.table[router], ended, read)
