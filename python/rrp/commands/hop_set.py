"""`rrp hop-set PLAN LIST`: a smallest set of reflectors that makes a list stable once the hop step
is loaded on them. Without a list it goes through all lists, and says for how many each router is
named."""

from __future__ import annotations

from argparse import ArgumentParser, Namespace
from typing import NamedTuple

from ..columns import left, widest, wrapped
from ..hop_sets import HopSet, judge_line, none_needed, not_worked_out, set_if_few
from ..hop_sets import step_statements, tried_lines, tried_on, tried_values
from ..inputs import add_plan, add_set, read_plan
from ..output import list_values, plan_line, plan_values, source_values, verdict_lines
from ..output import write_json, write_notes, write_start
from ..plan import Plan, Verdict

_SET = "a smallest set of reflectors to load the hop step on"

#: What is said below a set.
_LEAST = "no smaller set makes the list stable by the step; another of the same size may"

#: What is said where all routers named are more than any list needs.
_NOT_ALL_AT_ONCE = (
    "each set is for its own list: the fewest reflectors for all lists at once are not worked out"
)


def arguments(parser: ArgumentParser) -> None:
    """Adds what `hop-set` takes."""
    add_plan(parser)
    which = "a list, by name or number; without it all lists are gone through"
    parser.add_argument("list", metavar="LIST", nargs="?", help=which)
    add_set(parser)
    parser.epilog = (
        "A reflector that gets the hop step keeps all else: role 1 becomes 4, and 3 becomes 5. No "
        "smaller set of reflectors makes the list stable, wherever they are in the plan; of the "
        "sets of the same size, among routers in groups of two or more, the one with the lowest "
        "number is named. With the step there the plan is judged again, before the set is shown. A "
        "set is for its own list: over all lists it is told for how many each router is named, and "
        "the fewest reflectors for all lists at once are not worked out. The step may change "
        "routes, also of lists that stay stable; rrp check PLAN --set has them. A list with more "
        "than 12 routers in such groups is refused with 15; over all lists that is said in its "
        "place. "
        "Exit status: 0 the list is stable as the plan is, or all are where none is given; "
        "1 suspect; 2 error."
    )


def run(options: Namespace) -> int:
    """Names the set for a list, or those for all lists. Returns 0 if the list is stable without it,
    or all are, else 1."""
    plan = read_plan(options)
    if options.list is None:
        return _run_lists(plan, options)
    verdict, found = plan.verdict(options.list), plan.hop_set(options.list)
    if options.json:
        which = {**source_values(plan), **list_values(verdict, None)}
        write_json({**which, "hop_set": tried_values(plan, found), "notes": plan.notes})
    else:
        write_start(plan)
        first, *more = verdict_lines(verdict)
        print("\n".join([f"{verdict.name} is {first}", *more]))
        _print_set(plan, found, options.plan)
    return 0 if verdict.stable else 1


def _print_set(plan: Plan, found: HopSet, path: str) -> None:
    """The set for a list with what was tried, or that none is needed."""
    if not found.routers:
        print(f"{none_needed(plan)} needs the hop step for this list")
        return
    print(f"{_SET}: {', '.join(found.routers)}")
    for line in tried_lines(plan, found, path):
        print(f"   {line}")
    bits = [f"{router} {1 << place}" for place, router in enumerate(found.grouped)]
    number = f"the set's number is {found.number}; routers in groups of two or more count: "
    for line in [_LEAST, *wrapped(number, bits)]:
        print(line)


class _Named(NamedTuple):
    """A router, and the lists for which it is named."""

    router: str
    lists: tuple[str, ...]


def _run_lists(plan: Plan, options: Namespace) -> int:
    verdicts = plan.verdicts()
    found = {each.name: set_if_few(plan, each.name) for each in verdicts}
    named = _named(plan, found)
    if options.json:
        _write_lists(plan, verdicts, found, named)
    else:
        write_notes(plan.notes)
        print(plan_line(plan))
        _print_lists(plan, verdicts, found)
        if named:
            _print_named(plan, found, named, options.plan)
    return 0 if all(each.stable for each in verdicts) else 1


def _named(plan: Plan, found: dict[str, HopSet | None]) -> list[_Named]:
    """The routers that are named for some list."""
    sets = [each for each in found.values() if each is not None]
    named = [
        _Named(router, tuple(each.name for each in sets if router in each.routers))
        for router in plan.routers
    ]
    return [each for each in named if each.lists]


def _write_lists(
    plan: Plan,
    verdicts: tuple[Verdict, ...],
    found: dict[str, HopSet | None],
    named: list[_Named],
) -> None:
    lists = []
    for verdict in verdicts:
        hop_set = found[verdict.name]
        values = None if hop_set is None else hop_set.values()
        lists.append({**list_values(verdict, None), "hop_set": values})
    routers = [each.router for each in named]
    together = {
        "routers": routers,
        "statements": step_statements(plan, routers),
        "lists": tried_on(plan, routers, plan.lists)._asdict(),
    }
    counts = [{**each._asdict(), "count": len(each.lists)} for each in named]
    answer = {"lists": lists, "named": counts, "together": together}
    write_json({**plan_values(plan), **answer, "notes": plan.notes})


def _print_lists(
    plan: Plan, verdicts: tuple[Verdict, ...], found: dict[str, HopSet | None]
) -> None:
    """Each list with its verdict in a word, and its set with the verdict that was then found."""
    width = widest(["list", *plan.lists])
    print(f"{left('list', width)}  verdict  {_SET}")
    for verdict in verdicts:
        hop_set = found[verdict.name]
        if hop_set is None:
            lines = [not_worked_out(verdict)]
        elif not hop_set.routers:
            lines = [f"{none_needed(plan)} needs it"]
        else:
            lines = [", ".join(hop_set.routers), *hop_set.then_lines()]
        word = "stable " if verdict.stable else "suspect"
        print(f"{left(verdict.name, width)}  {word}  {lines[0]}")
        for line in lines[1:]:
            print(f"{'':{width}}  {'':7}  {line}")


def _print_named(
    plan: Plan, found: dict[str, HopSet | None], named: list[_Named], path: str
) -> None:
    """For how many lists each router is named, and what was tried with all of them."""
    routers = [each.router for each in named]
    width = widest(["router", *routers])
    print(f"\n{left('router', width)}  lists that it is named for")
    for each in named:
        print(f"{left(each.router, width)}  {len(each.lists)}: {', '.join(each.lists)}")
    needed = max(len(each.routers) for each in found.values() if each is not None)
    if None in found.values() or len(named) > needed:
        print(_NOT_ALL_AT_ONCE)
    tried = tried_on(plan, routers, plan.lists).words
    print(f"tried on all lists, with the step at every router named: {tried}")
    print(judge_line(path, [*plan.changes, *step_statements(plan, routers)]))
