"""Activations that read late: each neighbour as it stood at a moment of its own.

A moment is known by how many activations had been made. An activation may read a neighbour as it
stood at any moment no earlier than the start of the round before, nor than the start of the run,
up to the activation itself. The library's call reads one table, so it is handed one that is put
together: of each neighbour the entry at the moment at which it is read, of any other router, which
no activation of this one reads, the present. What the call leaves the router is its new entry, and
no other changes.
"""

from __future__ import annotations

import random

from .plan import Plan, Verdict
from .tables import Table
from .tracing import AT_REST, OPEN, SETTLED, Order, Outcome, Step, Tracing


class Delays(Tracing):
    """A run in which `chance` draws the moments at which neighbours are read."""

    def __init__(
        self,
        plan: Plan,
        verdict: Verdict,
        order: Order,
        table: Table,
        limit: int,
        chance: random.Random,
    ) -> None:
        super().__init__(plan, verdict, order, table, limit)
        self._chance = chance
        self._neighbours = {router: plan.neighbours(router) for router in plan.routers}
        self._tables = [table]
        self._starts = [0]

    @property
    def promised(self) -> int | None:
        """The rounds within which this run settles, None if the list is suspect."""
        return self.verdict.delayed_rounds

    def old(self, step: Step) -> int | None:
        """The moment at which the sender of the route that a router took up was read, if by the
        activation it held another; else None."""
        if step.after is None or step.read is None or step.after.sender not in step.read:
            return None
        sender, moment = step.after.sender, step.read[step.after.sender]
        held = self._tables[moment][sender]
        return None if held == self._tables[step.number - 1][sender] else moment

    def _read(self, router: str) -> dict[str, int]:
        moments = self._earliest(), self.activations
        return {other: self._chance.randint(*moments) for other in self._neighbours[router]}

    def _activated(self, router: str, read: dict[str, int] | None) -> Table:
        handed = self.table
        for other, moment in (read or {}).items():
            handed = handed.with_route(other, self._tables[moment][other])
        left = self.plan.activate(self.verdict.name, router, handed)
        return self.table.with_route(router, left[router])

    def _activate(self, router: str) -> Step:
        step = super()._activate(router)
        self._tables.append(self.table)
        if step.ended is not None:
            self._starts.append(step.number)
        return step

    def _earliest(self) -> int:
        """The earliest moment that the next activation may read: the start of the round before its
        own, or in the first round that of the run."""
        return self._starts[max(len(self._starts) - 2, 0)]

    def _outcome(self, place: int | None, first: int) -> Outcome | None:
        if self._stays():
            return Outcome(SETTLED if self.verdict.stable else AT_REST)
        return Outcome(OPEN) if self._spent() else None

    def _stays(self) -> bool:
        """Whether no later activation changes the table: what it may read is this table at every
        moment; or the promised rounds have ended."""
        if self.verdict.stable and self.table != self.verdict.table:
            return False
        if not self.verdict.stable and self.mover() is not None:
            return False
        if self.promised is not None and self.rounds >= self.promised:
            return True
        return all(table == self.table for table in self._tables[self._earliest() :])
