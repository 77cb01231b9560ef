"""`rrp steady PLAN LIST`: the tables of a list that no activation changes, side by side."""

from __future__ import annotations

from argparse import ArgumentParser, Namespace
from collections.abc import Iterator, Sequence

from ..columns import COLUMNS, left, widest, wrapped
from ..inputs import add_plan, add_set, read_plan
from ..output import source_values, verdict_lines, verdict_values, write_json, write_start
from ..plan import Plan, Verdict
from ..rest import promise_lines, rest_of
from ..steady import Steady, SteadyTable
from ..table_files import route_words, table_values

#: What is between two tables side by side.
_GAP = "  "


def arguments(parser: ArgumentParser) -> None:
    """Adds what `steady` takes."""
    add_plan(parser)
    parser.add_argument("list", metavar="LIST", help="a list, by name or number")
    add_set(parser)
    parser.epilog = (
        "Every table that no activation changes is given, by its number: a bit for each router in "
        "a group of two or more, lowest first, set if it holds its best client's own route. Of "
        "several tables the routers are shown that differ, and the others below. A suspect list "
        "that rests does so in one of them; its grade says how far that is promised, and never in "
        "which one of several. A list with more than 12 routers in such groups is refused with "
        "15. "
        "Exit status: 0 the list is stable, 1 suspect, 2 error."
    )


def run(options: Namespace) -> int:
    """Writes the tables. Returns 0 if the list is stable, else 1."""
    plan = read_plan(options)
    verdict, found = plan.verdict(options.list), plan.steady(options.list)
    if options.json:
        write_json(_values(plan, verdict, found))
    else:
        write_start(plan)
        _print_tables(plan, verdict, found)
    return 0 if verdict.stable else 1


def _values(plan: Plan, verdict: Verdict, found: Steady) -> dict[str, object]:
    return {
        **source_values(plan),
        "list": verdict.name,
        "routers": verdict.egresses,
        **verdict_values(verdict, rest_of(plan, verdict)),
        "steady_numbers": found.numbers,
        "count": len(found.tables),
        "grouped": found.grouped,
        "tables": [
            {"number": each.number, "own": each.own, "table": table_values(each.table)}
            for each in found.tables
        ],
        "differing": found.differing,
        "notes": plan.notes,
    }


def _print_tables(plan: Plan, verdict: Verdict, found: Steady) -> None:
    rest = rest_of(plan, verdict)
    first, *more = verdict_lines(verdict, rest)
    print("\n".join([f"{verdict.name} is {first}", *more]))
    if verdict.stable:
        print("rests in the table that it settles on, and in no other")
    for line in promise_lines([rest]):
        print(line)
    several = len(found.tables) > 1
    routers = found.differing if several else plan.routers
    for block in _blocks(found.tables, routers):
        print()
        _print_block(routers, block)
    same = _same_lines(found) if several else []
    numbers = _number_lines(found) if found.tables else []
    for line in [*same, *numbers]:
        print(line)


def _cells(routers: Sequence[str], each: SteadyTable) -> list[str]:
    """A column: the number of a table, and what the routers hold in it."""
    return [f"table {each.number}", *(route_words(each.table[router]) for router in routers)]


def _blocks(
    tables: Sequence[SteadyTable], routers: Sequence[str]
) -> Iterator[list[SteadyTable]]:
    """The tables in blocks that are as wide as can be shown; at least one in each."""
    first = widest(["router", *routers])
    block: list[SteadyTable] = []
    columns = first
    for each in tables:
        more = len(_GAP) + widest(_cells(routers, each))
        if block and columns + more > COLUMNS:
            yield block
            block, columns = [], first
        block.append(each)
        columns += more
    if block:
        yield block


def _print_block(routers: Sequence[str], block: list[SteadyTable]) -> None:
    columns = [["router", *routers], *(_cells(routers, each) for each in block)]
    widths = [widest(column) for column in columns]
    for row in zip(*columns):
        print(_GAP.join(map(left, row, widths)).rstrip())


def _same_lines(found: Steady) -> Iterator[str]:
    """What the other routers hold in every table, those that hold the same together."""
    table = found.tables[0].table
    held: dict[str, list[str]] = {}
    for router in (router for router in table if router not in found.differing):
        route = table[router]
        own = route is not None and route.egress == route.sender == router
        held.setdefault("own route" if own else route_words(route), []).append(router)
    yield ""
    yield f"the same in {'both' if len(found.tables) == 2 else 'all'} tables:"
    for words, routers in held.items():
        yield from wrapped(f"  {words}: ", routers)


def _number_lines(found: Steady) -> list[str]:
    """How a table has its number."""
    if not found.grouped:
        return ["its number is 0: no router lies in a group of two or more"]
    bits = [f"{router} {1 << place}" for place, router in enumerate(found.grouped)]
    words = "a table's number is the sum over those that hold their best client's own route: "
    return wrapped(words, bits)
