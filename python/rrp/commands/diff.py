"""`rrp diff A B`: how two plans differ by name, or a plan and its changed self."""

from __future__ import annotations

from argparse import ArgumentParser, Namespace
from collections.abc import Iterator, Sequence

from ..columns import row_lines, wrapped
from ..errors import RrpError
from ..inputs import PLAN_HELP, add_set
from ..output import count_words, plan_line, plan_values, write_json, write_notes
from ..plan import Plan
from ..plan_differences import Differences, differences_of, differs
from ..rest import promise_lines


def arguments(parser: ArgumentParser) -> None:
    """Adds what `diff` takes."""
    parser.add_argument("before", metavar="A", help=PLAN_HELP)
    parser.add_argument("after", metavar="B", nargs="?", help="another plan")
    add_set(parser, "without B, compare A with itself with a change")
    parser.epilog = (
        "Told are lists and routers that one plan alone has, and of each list that both have what "
        "differs, from A to B: its routers, its verdict, and the routers whose rank, egress or "
        "sender differ. Routers and lists are the same where their names are. Of a list that is "
        "suspect in A or in B, no routes are compared: told is its grade, and whether the cycle, "
        "the groups and the tables to rest in are the same. Where nothing differs, it is told "
        "what the plans themselves state otherwise, as distances that move no route. "
        "Exit status: 0 nothing differs, be lists stable or suspect; 1 something does; 2 error."
    )


def run(options: Namespace) -> int:
    """Compares the plans. Returns 0 if nothing differs, else 1."""
    before, after = _plans(options)
    found = differences_of(before, after)
    notes = [f"{plan.source}: {note}" for plan in (before, after) for note in plan.notes]
    if before.source == after.source:
        notes = list(dict.fromkeys([*before.notes, *after.notes]))
    if options.json:
        write_json({**_values(before, after, found), "notes": notes})
    else:
        write_notes(notes)
        for line in _lines(before, after, found):
            print(line)
    return 1 if found.differ else 0


def _plans(options: Namespace) -> tuple[Plan, Plan]:
    """The two plans, or one and its changed self."""
    if options.after is None and not options.set:
        raise RrpError("name a second plan, or a change of the first with --set")
    if options.after is not None and options.set:
        raise RrpError("--set changes one plan, to compare it with itself: leave out the second")
    if options.before == options.after == "-":
        raise RrpError("standard input cannot be both plans: name a file for one")
    before = Plan.read(options.before)
    after = before.changed(*options.set) if options.set else Plan.read(options.after)
    return before, after


def _lines(before: Plan, after: Plan, found: Differences) -> Iterator[str]:
    yield f"before  {plan_line(before)}"
    yield f"after   {plan_line(after)}"
    yield from _alone_lines("list", found.lists_before, found.lists_after)
    yield from _alone_lines("router", found.routers_before, found.routers_after)
    if "identifiers" in found.parts:
        yield "routers of the same name have other identifiers: they may be other routers"
    other = [each for each in found.effects if differs(each)]
    if other:
        yield from row_lines([row for each in other for row in each.rows()])
    yield from promise_lines(each.rest for each in other)
    same = [each for each in found.effects if not differs(each)]
    stable = [each.after.name for each in same if each.after.stable]
    suspect = [each.after.name for each in same if not each.after.stable]
    if stable:
        whose = " of routers that both have" if found.routers_before + found.routers_after else ""
        yield from wrapped(f"{_same(stable)} as before, every rank and route{whose}: ", stable)
    if suspect:
        words = "suspect as before, cycle, groups, grade and tables to rest in"
        graded = [f"{each.after.name} ({each.rest.brief})" for each in same if each.rest]
        yield from wrapped(f"{_same(suspect)} {words}; routes are not compared: ", graded)
    if not found.differ:
        yield f"nothing that is compared differs; {_parts_words(found.parts)}"


def _same(names: Sequence[str]) -> str:
    return f"{count_words(len(names), 'list')} {'is' if len(names) == 1 else 'are'}"


def _alone_lines(noun: str, before: Sequence[str], after: Sequence[str]) -> Iterator[str]:
    """What only one of the plans has."""
    for when, names in (("before", before), ("after", after)):
        if names:
            yield from wrapped(f"{noun}s only {when}: ", names)


def _parts_words(parts: Sequence[str]) -> str:
    """What the plans state otherwise, though nothing that is compared differs."""
    if not parts:
        return "the plans state the same"
    words = ["another mark" if part == "mark" else f"other {part}" for part in parts]
    return f"the plans state {', '.join(words)}"


def _values(before: Plan, after: Plan, found: Differences) -> dict[str, object]:
    lists = [
        {"list": each.after.name, "differs": differs(each), **each.values()}
        for each in found.effects
    ]
    return {
        "before": plan_values(before),
        "after": plan_values(after),
        "differ": found.differ,
        "lists_only_before": found.lists_before,
        "lists_only_after": found.lists_after,
        "routers_only_before": found.routers_before,
        "routers_only_after": found.routers_after,
        "stated_otherwise": found.parts,
        "lists": lists,
    }
