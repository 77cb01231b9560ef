"""`rrp show PLAN LIST`: what the routers of a stable list settle on; why a list is suspect, and
what would end that. Without a list it names the lists of the plan."""

from __future__ import annotations

from argparse import ArgumentParser, Namespace
from collections.abc import Iterable
from textwrap import wrap

from ..accounts import Account, account
from ..columns import left, right, widest
from ..hop_sets import not_worked_out, set_if_few, tried_lines, tried_values
from ..inputs import add_accept, add_plan, add_set, read_plan
from ..output import list_command, plan_line, rest_lines
from ..output import source_values, verdict_lines, verdict_values, verdict_words
from ..output import without_route_lines, write_json, write_lists, write_notes, write_start
from ..plan import Plan, Verdict
from ..remedies import Remedy, smallest_remedy
from ..repairs import Repairs, find_repairs
from ..rest import Rest, pass_all, rest_of
from ..senders import heard_again, sender_note
from ..table_files import NOTHING, table_values

#: So wide is a note below a table, in which no name is broken.
_COLUMNS = 110
_WHOLE = {"break_long_words": False, "break_on_hyphens": False}

#: What is said of the hop step below the changes of distances.
_LOADED = "a smallest set of reflectors to load the hop step on instead"
_NOT_LOADED = "where to load the hop step instead is"
_END_ONE = (
    "first end the cycle, as above or by the step at one of its routers, and show the list again"
)


def arguments(parser: ArgumentParser) -> None:
    """Adds what `show` takes."""
    add_plan(parser)
    which = "a list, by name or number; without it all are named"
    parser.add_argument("list", metavar="LIST", nargs="?", help=which)
    add_accept(parser)
    add_set(parser)
    parser.epilog = (
        "Routers that a stable list leaves without a route are named. Of a suspect list it is "
        "told by its grade whether it comes to rest, and in how many tables it may, which alone "
        "is no promise that its routers get there; rrp steady PLAN LIST shows them. What is shown "
        "was tried. The change at a reliance is the smallest of one distance that ends it and "
        "that a plan of the same mark holds: up to 65,534 in RRP1, 4,294,967,294 in RRP2. Below "
        "are changes that make the list stable, judged for all lists: of one weight where the "
        "plan has links, else of one distance, and of two where none serves without making "
        "another list suspect. It is told how many were tried, and at most 20,000 of one and of "
        "two are. The last lines have a smallest set of reflectors that makes the list stable "
        "once the hop step is loaded on them, tried too; rrp hop-set PLAN LIST says more. "
        "Exit status: 0 the list is stable, or all are where none is given; 1 suspect, with "
        "--accept not known to come to rest whatever the order; 2 error."
    )


def run(options: Namespace) -> int:
    """Explains the verdict for a list. Returns 0 if it is stable, or all are, or comes to rest if
    that is accepted, else 1."""
    plan = read_plan(options)
    if options.list is None:
        return _show_lists(plan, options)
    verdict = plan.verdict(options.list)
    if not options.json:
        write_start(plan)
        print(f"{verdict.name} is {verdict_words(verdict)}")
    rest = rest_of(plan, verdict)
    if rest is None:
        _show_stable(plan, verdict, options)
    elif options.json:
        _write(plan, verdict, suspect_values(plan, verdict, rest, find_repairs(plan, verdict)))
    else:
        print_suspect(plan, verdict, rest, find_repairs(plan, verdict), options.plan)
    return _status([rest], options)


def _status(rests: Iterable[Rest | None], options: Namespace) -> int:
    return 0 if pass_all(rests, bool(options.accept)) else 1


def _show_lists(plan: Plan, options: Namespace) -> int:
    """The lists of the plan, each with its verdict in a word and its routers."""
    verdicts = plan.verdicts()
    rests = {each.name: rest_of(plan, each) for each in verdicts}
    if options.json:
        write_lists(plan, verdicts, rests)
    else:
        write_notes(plan.notes)
        print(plan_line(plan))
        width = widest(["list", *plan.lists])
        print(f"{left('list', width)}  verdict  routers")
        for each in verdicts:
            first, *more = _router_lines(each, rests[each.name])
            word = "stable " if each.stable else "suspect"
            print(f"{left(each.name, width)}  {word}  {first}")
            for line in more:
                print(f"{'':{width}}  {'':7}  {line}")
        print(f"to explain one: {list_command('show', options.plan, plan.lists[0], plan.changes)}")
        for line in rest_lines(options.plan, rests, plan.changes):
            print(line)
    return _status(rests.values(), options)


def _router_lines(verdict: Verdict, rest: Rest | None) -> list[str]:
    """The routers of a list, or that nobody is in it; where it may rest if it is suspect, and who
    ends without a route if it is stable."""
    routers = [] if verdict.nobody else [", ".join(verdict.egresses)]
    where = [] if rest is None else [rest.words]
    return [*routers, *where, *without_route_lines(verdict)]


def _show_stable(plan: Plan, verdict: Verdict, options: Namespace) -> None:
    """The rank of each router and what it settles on, by rank and then by number."""
    again = heard_again(plan, verdict)
    said = None if verdict.nobody else sender_note(again)
    if options.json:
        values = {"ranks": verdict.ranks, "table": table_values(verdict.table)}
        senders = {"sender_may_differ": again, "sender_note": said}
        _write(plan, verdict, {**verdict_values(verdict), **values, **senders})
        return
    rows = [("router", "rank", "egress", "from")]
    for router in sorted(plan.routers, key=verdict.ranks.get):
        egress, sender = verdict.table[router] or (NOTHING, "")
        rows.append((router, str(verdict.ranks[router]), egress, sender))
    widths = [widest(column) for column in zip(*rows)]
    for router, rank, egress, sender in rows:
        cells = left(router, widths[0]), right(rank, widths[1]), left(egress, widths[2]), sender
        print("  ".join(cells).rstrip())
    note = [] if said is None else wrap(f"note: {said}", _COLUMNS, **_WHOLE)
    for line in [*without_route_lines(verdict), *note]:
        print(line)


def _reliances(plan: Plan, verdict: Verdict) -> list[tuple[Account, Remedy | None]]:
    """Each reliance of the cycle, with the smallest change of one distance that ends it."""
    pairs = zip(verdict.cycle, [*verdict.cycle[1:], verdict.cycle[0]])
    return [
        (account(plan, verdict.name, *pair), smallest_remedy(plan, verdict.name, *pair))
        for pair in pairs
    ]


def suspect_values(
    plan: Plan, verdict: Verdict, rest: Rest, repairs: Repairs
) -> dict[str, object]:
    """What `print_suspect` prints, as plain values."""
    reliances = [
        {**one.values(), "change": None if remedy is None else remedy.values()}
        for one, remedy in _reliances(plan, verdict)
    ]
    change = repairs.single[0].changes[0].statement if repairs.single else None
    values = {**verdict_values(verdict, rest), "reliances": reliances, "recommended": change}
    values["repairs"] = repairs.values()
    return {**values, "hop_set": _hop_set_values(plan, verdict)}


def print_suspect(
    plan: Plan, verdict: Verdict, rest: Rest, repairs: Repairs, path: str
) -> None:
    """The groups, where the list may rest, each reliance of the cycle with the smallest change that
    ends it, and the changes that make the list stable."""
    for group in verdict.groups:
        print(f"routers that rely on one another: {', '.join(group)}")
    for line in [rest.words, *rest_lines(path, {verdict.name: rest}, plan.changes)]:
        print(line)
    for number, (one, remedy) in enumerate(_reliances(plan, verdict), 1):
        _print_reliance(number, one, remedy)
    print("\n".join(["", *repairs.lines(path, plan.changes)]))
    _print_hop_set(plan, verdict, path)


def _print_reliance(number: int, one: Account, remedy: Remedy | None) -> None:
    print(f"\n{number}. {one.claim}:\n   {one.reason}")
    if remedy is None:
        print("   no change of one distance ends this")
        return
    change = remedy.change
    print(f"   smallest change that ends this: {change.statement} (now {change.was})")
    then = "then" if remedy.verdict.stable else "still"
    words, *more = verdict_lines(remedy.verdict)
    for line in [f"tried: the list is {then} {words}", *more]:
        print(f"   {line}")


def _print_hop_set(plan: Plan, verdict: Verdict, path: str) -> None:
    """Where to load the hop step, so that the list is stable with the distances as they are."""
    found = set_if_few(plan, verdict.name)
    if found is None:
        print(f"\n{_NOT_LOADED} {not_worked_out(verdict)}\n   {_END_ONE}")
        return
    print(f"\n{_LOADED}: {', '.join(found.routers)}")
    for line in tried_lines(plan, found, path):
        print(f"   {line}")


def _hop_set_values(plan: Plan, verdict: Verdict) -> dict[str, object] | None:
    found = set_if_few(plan, verdict.name)
    return None if found is None else tried_values(plan, found)


def _write(plan: Plan, verdict: Verdict, values: dict[str, object]) -> None:
    which = {**source_values(plan), "list": verdict.name, "routers": verdict.egresses}
    write_json({**which, **values, "notes": plan.notes})
