"""The routing tables of a list that no activation changes.

The library lists them by number: bit i is set exactly if the i-th of the routers in groups of two
or more, lowest first, holds its best client's own route. The table of a number is made here by
activations, and is given only if the library's own activations leave it as it is and it has that
number.
"""

from __future__ import annotations

from collections.abc import Sequence
from typing import NamedTuple

from .accounts import best_client
from .plan import Plan, Verdict, Which
from .tables import Route, Table


class SteadyTable(NamedTuple):
    """A table that no activation changes, its number, and the routers of the number's bits: those
    in groups of two or more that hold their best client's own route."""

    number: int
    own: tuple[str, ...]
    table: Table


class Steady(NamedTuple):
    """All tables of a list that no activation changes, their numbers rising. `grouped` has the
    routers in groups of two or more: the i-th of them is that of bit i. A stable list has one
    table, of number 0, which is the one that it settles on; a suspect list has any number of them,
    also none."""

    name: str
    grouped: tuple[str, ...]
    tables: tuple[SteadyTable, ...]

    @property
    def numbers(self) -> tuple[int, ...]:
        """The numbers of the tables, rising."""
        return tuple(each.number for each in self.tables)

    @property
    def differing(self) -> tuple[str, ...]:
        """The routers that do not hold the same in all tables."""
        if not self.tables:
            return ()
        first, *others = (each.table for each in self.tables)
        return tuple(
            router for router in first if any(table[router] != first[router] for table in others)
        )


def steady_tables(plan: Plan, egress_list: Which) -> Steady:
    """All tables of a list that no activation changes."""
    numbers, verdict = plan.steady_numbers(egress_list), plan.verdict(egress_list)
    own_routes = _own_routes(plan, verdict)
    tables = tuple(_named(plan, verdict.name, own_routes, number) for number in numbers)
    return Steady(verdict.name, verdict.grouped, tables)


def number_of(plan: Plan, verdict: Verdict, table: Table) -> int:
    """The number of a table: its bits say which routers in groups of two or more hold their best
    client's own route, lowest first."""
    return _number(_own_routes(plan, verdict), table)


def _own_routes(plan: Plan, verdict: Verdict) -> dict[str, Route]:
    """The own route of its best client, for each router in a group of two or more. All of these
    have one."""
    found = {router: best_client(plan, verdict.name, router) for router in verdict.grouped}
    return {router: Route(client, client) for router, client in found.items()}


def _number(own_routes: dict[str, Route], table: Table) -> int:
    places = enumerate(own_routes.items())
    return sum(1 << place for place, (router, route) in places if table[router] == route)


def _named(plan: Plan, name: str, own_routes: dict[str, Route], number: int) -> SteadyTable:
    """The table of a number that the library lists.

    At the start the routers of the number's bits hold their best client's own route, and the others
    in groups nothing: so each tells reflectors what it tells them in the table. By that all other
    reflectors come to what they hold at rest, as no cycle is among them. Then every router does, as
    what reflectors tell one another changes no more.
    """
    own = tuple(router for place, router in enumerate(own_routes) if number >> place & 1)
    table = plan.empty_table(name)
    for router in own:
        table = table.with_route(router, own_routes[router])
    others = [router for router in plan.routers if router not in own_routes]
    table = _at_rest(plan, name, plan.routers, _at_rest(plan, name, others, table))
    if _changing(plan, name, table) or _number(own_routes, table) != number:
        raise RuntimeError(f"no table of the list {name} was found for its number {number}")
    return SteadyTable(number, own, table)


def _at_rest(plan: Plan, name: str, routers: Sequence[str], table: Table) -> Table:
    """The table in which these routers, activated one after the other again and again, come to
    rest; that takes no more turns than there are routers in the plan, and three."""
    for _ in range(len(plan.routers) + 3):
        before, table = table, plan.run(name, routers, table).table
        if table == before:
            break
    return table


def _changing(plan: Plan, name: str, table: Table) -> list[str]:
    """The routers whose activation changes a table."""
    return [router for router in plan.routers if plan.activate(name, router, table) != table]
