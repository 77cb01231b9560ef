"""`rrp run PLAN LIST`: activates routers one by one, and says what changes and where that ends."""

from __future__ import annotations

from argparse import ArgumentParser, ArgumentTypeError, Namespace, RawDescriptionHelpFormatter
from random import Random

from ..columns import left, widest
from ..delays import Delays
from ..errors import RrpError
from ..inputs import add_plan, add_set, read_plan
from ..library import REFUSALS, TOO_MANY_GROUPED
from ..orders import order_words, read_order
from ..output import NOBODY_LISTED, count_words, routers_do, source_values, with_lines
from ..output import write_json, write_notes
from ..plan import ALWAYS_RESTS, CAN_REST, CANNOT_REST, Plan, Verdict
from ..rest import Rest, rest_of
from ..steady import number_of
from ..table_files import NOTHING, Read, read_table, route_values, route_words, table_values
from ..tables import Table
from ..tracing import AT_REST, OPEN, REPEATS, SETTLED, Order, Step, Tracing

#: A suspect list is run for so many rounds, unless its routers come to rest or round again.
SUSPECT_ROUNDS = 20

_VERDICTS, _FLUSHED = "this is the table of the verdict", "all routes are flushed"
_NONE_TO_FLUSH = "no router holds a route at the start, so there is none to flush"

_EPILOG = """\
A table file has a line a router: ROUTER EGRESS FROM, or ROUTER nothing. A # starts a comment. A
router that is left out starts with its own route if it is in the list, else with nothing. What
run --json wrote, or show --json of a stable list, is read too. It may be the table of another
list, as of a network on which the list changes: routers that are in the list now start with their
own routes, and those that are in it no more with nothing. With a list of nobody, of a prefix that
is gone everywhere, that shows how the old routes are flushed.

A run ends when no activation changes the table; when table and place in the order are as they were
before, so that it goes round forever under this order; or after N rounds. A round ends as soon as
every router has been activated since the last one ended. An order that leaves routers out ends no
round, and is gone through N times. A table that no activation changes is named by its number, by
which rrp steady PLAN LIST shows it. Last is what the grade of a suspect list promises.

With --delayed, updates take time: an activation reads each neighbour as it stood at a moment of its
own, which the seed draws, no earlier than the start of the round before and no later than the
activation. Such a run ends when no later activation can read anything but the table that stays, or
after N rounds.

Exit status: 0 the list is stable, 1 suspect, 2 error.
"""


def arguments(parser: ArgumentParser) -> None:
    """Adds what `run` takes."""
    add_plan(parser)
    parser.add_argument("list", metavar="LIST", help="a list, by name or number")
    orders = parser.add_mutually_exclusive_group()
    orders.add_argument(
        "--order",
        metavar="A,B,..",
        help="activate these routers, by name or number, again and again; with blanks between "
        "them where names have commas (all, by number)",
    )
    orders.add_argument(
        "--random", metavar="SEED", type=_number, help="activate all in a new random order a round"
    )
    parser.add_argument(
        "--delayed", metavar="SEED", type=_number, help="read neighbours late, at random moments"
    )
    parser.add_argument(
        "--from", dest="start", metavar="TABLE", default=NOTHING, help="start from a file (nothing)"
    )
    parser.add_argument(
        "--rounds",
        metavar="N",
        type=_number,
        help=f"the most rounds (as many as promised, of a suspect list {SUSPECT_ROUNDS} at least)",
    )
    add_set(parser)
    parser.formatter_class, parser.epilog = RawDescriptionHelpFormatter, _EPILOG


def _number(text: str) -> int:
    if not (text.isascii() and text.isdigit() and len(text) <= 9):
        raise ArgumentTypeError(f"{text!r} is no number from 0 to 999999999")
    return int(text)


def run(options: Namespace) -> int:
    """Makes the run. Returns 0 if the list is stable, else 1."""
    if options.plan == options.start == "-":
        raise RrpError("standard input cannot be both the plan and the table: name a file for one")
    plan = read_plan(options)
    verdict = plan.verdict(options.list)
    start = _start(plan, verdict, options.start)
    tracing = _tracing(plan, verdict, start.table, options)
    notes = [*plan.notes, *start.notes]
    if options.json:
        _write_values(tracing, options, notes)
    else:
        write_notes(notes)
        for line in with_lines(plan):
            print(line)
        _print_run(tracing, options)
    return 0 if verdict.stable else 1


def _start(plan: Plan, verdict: Verdict, path: str) -> Read:
    """The table to start from."""
    if path == NOTHING:
        return Read(plan.empty_table(verdict.name), ())
    return read_table(path, plan, verdict.name)


def _tracing(plan: Plan, verdict: Verdict, table: Table, options: Namespace) -> Tracing:
    """The run that is asked for."""
    order = _order(plan, options)
    late = options.delayed is not None
    promised = verdict.delayed_rounds if late else verdict.rounds
    limit = options.rounds if options.rounds is not None else promised or _most(plan, verdict)
    if late:
        return Delays(plan, verdict, order, table, limit, Random(options.delayed))
    return Tracing(plan, verdict, order, table, limit)


def _most(plan: Plan, verdict: Verdict) -> int:
    """The most rounds of a suspect list: at least those within which it is promised to rest."""
    rest = rest_of(plan, verdict)
    promised = rest.grade.rounds if rest is not None and rest.grade is not None else None
    return max(SUSPECT_ROUNDS, promised or 0)


def _order(plan: Plan, options: Namespace) -> Order:
    """The order that is asked for."""
    if options.order is None:
        return Order(plan.routers, options.random)
    return Order(read_order(plan, options.order))


def _print_run(tracing: Tracing, options: Namespace) -> None:
    print(", ".join(_heading(tracing, options)))
    width, changes = widest(tracing.plan.routers), 0
    for step in tracing.steps():
        if step.before != step.after:
            changes += 1
            held = f"{route_words(step.before)} -> {route_words(step.after)}"
            late = _old_words(tracing, step)
            print(f"{step.number:>5}  {left(step.router, width)}  {held}{late}")
        if step.ended is not None:
            made = count_words(changes, "change")
            print(f"{'':5}  round {step.ended} ends with activation {step.number}: {made}")
            changes = 0
    for line in _outcome_lines(tracing):
        print(line)
    if tracing.verdict.nobody and options.start == NOTHING:
        print(_WITH_OLD_ROUTES)


def _heading(tracing: Tracing, options: Namespace) -> list[str]:
    """What is run, in parts."""
    late = f"neighbours read late (seed {options.delayed})"
    return [
        tracing.verdict.name,
        _order_words(tracing, options),
        *([late] if options.delayed is not None else []),
        f"from {options.start}",
    ]


def _old_words(tracing: Tracing, step: Step) -> str:
    """When the sender of the route taken up was read, if it holds another by now."""
    moment = tracing.old(step) if isinstance(tracing, Delays) else None
    if step.after is None or moment is None:
        return ""
    when = f"after activation {moment}" if moment else "at the start"
    return f" (as {step.after.sender} was {when})"


def _order_words(tracing: Tracing, options: Namespace) -> str:
    order = tracing.order
    if order.seed is not None:
        return f"all routers in a new random order each round (seed {order.seed})"
    if options.order is None:
        return "all routers by number"
    return f"order {order_words(tracing.plan, order.routers)}"


def _outcome_lines(tracing: Tracing) -> list[str]:
    """Where the run ended, a sentence a line."""
    acts = count_words(tracing.activations, "activation")
    made = f"after {acts} ({count_words(tracing.rounds, 'round')} ended)"
    outcomes = _DELAYED_OUTCOMES if isinstance(tracing, Delays) else _OUTCOMES
    lines = outcomes[tracing.outcome.kind](tracing, made)
    return [*lines, *_lacking_lines(tracing), *_grade_lines(tracing)]


def _grade_lines(tracing: Tracing) -> list[str]:
    """What the grade of a suspect list promises, whatever this run did."""
    rest = rest_of(tracing.plan, tracing.verdict)
    if rest is None:
        return []
    if rest.number == ALWAYS_RESTS:
        return [f"{_always_words(rest)}{_late_words(tracing)}."]
    if rest.number == CAN_REST:
        every = "that every order does is not promised"
        return [f"Grade 2: from every table some order brings the list to rest; {every}."]
    if rest.number == CANNOT_REST:
        return ["Grade 3: from some tables no order brings the list to rest, from others some do."]
    if rest.grade is None:
        return [f"Not graded: {REFUSALS[TOO_MANY_GROUPED]} ({rest.grouped} do)."]
    changes = "every table has an activation that changes it"
    return [f"Grade 4: no order brings the list to rest: {changes}."]


def _always_words(rest: Rest) -> str:
    within = f"within {rest.grade.rounds} rounds"
    words = f"Grade 1: from any table and whatever the order the list comes to rest {within}"
    return f"{words}, in which table is not promised" if len(rest.numbers) > 1 else words


def _late_words(tracing: Tracing) -> str:
    """What is promised where neighbours are read late."""
    if not isinstance(tracing, Delays):
        return ""
    return "; that is promised where neighbours are read as they stand, and not read late"


def _never_rests(tracing: Tracing) -> bool:
    """Whether the list has no table to rest in."""
    rest = rest_of(tracing.plan, tracing.verdict)
    return rest is not None and rest.numbers == ()


def _lacking_lines(tracing: Tracing) -> list[str]:
    """Who is without a route in a table that stays."""
    if tracing.verdict.nobody:
        return _nobody_lines(tracing)
    lacking = [router for router, route in tracing.table.items() if route is None]
    if not lacking or tracing.outcome.kind not in (SETTLED, AT_REST):
        return []
    return [f"{routers_do(lacking, 'end')} without a route: {', '.join(lacking)}."]


def _nobody_lines(tracing: Tracing) -> list[str]:
    """That nobody is listed, and who holds an old route still."""
    listed = NOBODY_LISTED.capitalize()
    held = [router for router, route in tracing.table.items() if route is not None]
    if held:
        return [f"{listed}, and {routers_do(held, 'hold')} an old route still: {', '.join(held)}."]
    return [f"{listed}, so every router ends without a route."]


def _settled(tracing: Tracing, made: str) -> list[str]:
    promise = f"which is promised within {tracing.verdict.rounds} rounds"
    if not tracing.verdict.nobody:
        return [f"settled {made}: {_VERDICTS}, {promise}."]
    if tracing.activations:
        return [f"settled {made}: {_FLUSHED}, {promise}."]
    return [f"settled {made}: {_NONE_TO_FLUSH}."]


def _at_rest(tracing: Tracing, made: str) -> list[str]:
    number = _number_at_rest(tracing)
    which = "" if number is None else f", which is table {number}"
    return [
        f"at rest {made}: no activation changes this table{which}.",
        f"The list is suspect: {_other_orders(tracing, number)}.",
    ]


def _number_at_rest(tracing: Tracing) -> int | None:
    """The number of the table that the run ended in, if no activation changes it; the library lists
    it. None also where the tables of the list have none, as too many routers lie in groups."""
    rest = rest_of(tracing.plan, tracing.verdict)
    unnumbered = rest is not None and rest.numbers is None
    if unnumbered or tracing.mover() is not None:
        return None
    number = number_of(tracing.plan, tracing.verdict, tracing.table)
    if rest is not None and number not in rest.numbers:
        raise RuntimeError(f"the list {tracing.verdict.name} rests in table {number}, not listed")
    return number


def _other_orders(tracing: Tracing, number: int | None) -> str:
    """What another order may do to a suspect list that came to rest in the table of a number."""
    if not tracing.activations:
        return "the run starts in this table, which no order changes"
    rest = rest_of(tracing.plan, tracing.verdict)
    if rest.numbers == (number,):
        sure = _unless_sure(tracing, rest, "that every order comes to it")
        return f"it has no other table to rest in{sure}"
    moments = ", or read at other moments," if isinstance(tracing, Delays) else ""
    may = f"in another order{moments} its routers may rest {_elsewhere(rest, number)}"
    return f"{may}{_unless_sure(tracing, rest, 'that they come to rest at all')}"


def _unless_sure(tracing: Tracing, rest: Rest, what: str) -> str:
    """That something is not promised, unless it is."""
    sure = rest.number == ALWAYS_RESTS and not isinstance(tracing, Delays)
    return "" if sure else f"; {what} is not promised"


def _elsewhere(rest: Rest, number: int | None) -> str:
    """Where a list may rest but in the table of a number."""
    if rest.numbers is None:
        return "elsewhere"
    others = [other for other in rest.numbers if other != number]
    if len(others) == 1:
        return f"in table {others[0]}"
    return f"in one of its {len(others)} other tables"


def _repeats(tracing: Tracing, made: str) -> list[str]:
    first, changes = tracing.outcome.first, tracing.outcome.changes
    if not changes:
        still = "no router of this order changes the table any more"
        return [f"not settled {made}: {still}, but {tracing.mover()} would."]
    return [
        f"repeats {made}: the table is that after activation {first}, at this place in the order.",
        f"Under this order it goes round forever, with {changes} changes each time.",
    ]


def _open(tracing: Tracing, made: str) -> list[str]:
    first, changes = tracing.outcome.first, tracing.outcome.changes
    if first is not None:
        seen = f"the table is that after activation {first}, with {changes} changes since"
        return [
            f"not settled {made}: {seen}.",
            "The order is random, so that says nothing of what follows.",
        ]
    if tracing.verdict.stable:
        return [f"not settled {made}: that is promised within {tracing.verdict.rounds} rounds."]
    more = "" if _never_rests(tracing) else ": give more --rounds"
    return [f"not settled {made}, nor does the run repeat so far{more}."]


def _delayed_promise(tracing: Tracing) -> str:
    late, at_once = tracing.promised, tracing.verdict.rounds
    return (
        f"With neighbours read late, that is promised within {late} rounds; "
        f"read as they stand, within {at_once}."
    )


def _last_change(tracing: Tracing) -> str:
    """When the table changed last: what was made since only shows that it stays."""
    number, rounds = tracing.last_change
    return f"after {count_words(number, 'activation')} ({count_words(rounds, 'round')} ended)"


def _settled_words(tracing: Tracing) -> str:
    """What the table is that the routers settled on."""
    return _FLUSHED if tracing.verdict.nobody else _VERDICTS


def _delayed_settled(tracing: Tracing, made: str) -> list[str]:
    if tracing.last_change[0]:
        what = f"{_last_change(tracing)}: from there on {_settled_words(tracing)}"
    elif tracing.verdict.nobody:
        return [f"settled from the start: {_NONE_TO_FLUSH}."]
    else:
        what = f"from the start: {_VERDICTS}, which stays"
    return [f"settled {what}.", _delayed_promise(tracing)]


def _delayed_at_rest(tracing: Tracing, made: str) -> list[str]:
    return _at_rest(tracing, _last_change(tracing))


def _delayed_open(tracing: Tracing, made: str) -> list[str]:
    if not tracing.verdict.stable and tracing.mover() is None:
        still = "no activation that reads this table changes it"
        return [f"not at rest for good {made}: {still}, but what was there before may be read."]
    if not tracing.verdict.stable:
        return [f"not settled {made}: the list is suspect, so that nothing is promised."]
    if tracing.table != tracing.verdict.table:
        return [f"not settled {made}.", _delayed_promise(tracing)]
    what = f"{_settled_words(tracing)}, but what was there before may still be read"
    return [f"not settled for good {made}: {what}.", _delayed_promise(tracing)]


_WITH_OLD_ROUTES = (
    "To see old routes flushed, start from the table of another list, which "
    "show PLAN LIST --json writes: --from TABLE."
)
_OUTCOMES = {SETTLED: _settled, AT_REST: _at_rest, REPEATS: _repeats, OPEN: _open}
_DELAYED_OUTCOMES = {SETTLED: _delayed_settled, AT_REST: _delayed_at_rest, OPEN: _delayed_open}


def _write_values(tracing: Tracing, options: Namespace, notes: list[str]) -> None:
    steps = list(tracing.steps())
    seed = tracing.order.seed
    write_json(
        {
            **source_values(tracing.plan),
            "list": tracing.verdict.name,
            "routers": tracing.verdict.egresses,
            "stable": tracing.verdict.stable,
            "rounds": tracing.verdict.rounds,
            **_grade_values(tracing),
            "order": tracing.order.routers if seed is None else None,
            "seed": seed,
            "delayed": options.delayed,
            "promised": tracing.promised,
            "start": options.start,
            "changes": [_step_values(step) for step in steps if step.before != step.after],
            "round_ends": [step.number for step in steps if step.ended is not None],
            "activations": tracing.activations,
            "outcome": tracing.outcome.kind,
            "last_change": tracing.last_change[0],
            "first_seen": tracing.outcome.first,
            "steady_number": _number_at_rest(tracing),
            "sentence": " ".join(_outcome_lines(tracing)),
            "table": table_values(tracing.table),
            "notes": notes,
        }
    )


def _grade_values(tracing: Tracing) -> dict[str, object]:
    """The grade of a suspect list, and within how many rounds it comes to rest."""
    rest = rest_of(tracing.plan, tracing.verdict)
    values = {} if rest is None else rest.values()
    return {name: values.get(name) for name in ("grade", "rest_rounds")}


def _step_values(step: Step) -> dict[str, object]:
    return {
        "activation": step.number,
        "router": step.router,
        "before": route_values(step.before),
        "after": route_values(step.after),
        "read": step.read,
    }
