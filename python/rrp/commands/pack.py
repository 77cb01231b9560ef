"""`rrp pack PLAN -o OUT`: a text plan as bytes."""

from __future__ import annotations

from argparse import ArgumentParser, Namespace

from ..encoding import NARROW, WIDE, longest
from ..files import keep_input, write_file
from ..inputs import add_set, read_plan
from ..output import bytes_for_output, sizes_line, source_values, with_lines, write_json
from ..output import write_notes
from ..plan import Plan

_RRP1, _RRP2 = f"{longest(NARROW):,}", f"{longest(WIDE):,}"


def arguments(parser: ArgumentParser) -> None:
    """Adds what `pack` takes."""
    what = "a plan in text or JSON; - is standard input"
    parser.add_argument("plan", metavar="PLAN", help=what)
    parser.add_argument("-o", "--output", metavar="OUT", default="-", help="the file to write")
    wide = "write RRP2 also where RRP1 would do, as the statement wide in the plan does"
    parser.add_argument("--wide", action="store_true", help=wide)
    add_set(parser, "write the plan with a change")
    parser.epilog = (
        f"The bytes start RRP1, if no distance is above {_RRP1} and RRP2 is not asked for, else "
        f"RRP2, which holds distances up to {_RRP2}. Exit status: 0 written; 2 error."
    )


def run(options: Namespace) -> int:
    """Writes the bytes of a plan."""
    plan = read_plan(options)
    keep_input(options.plan, options.output, plan.sheets)
    bytes_for_output(options)
    if options.wide and plan.width == NARROW:
        plan = plan.widened()
    to_output = options.output == "-"
    if not to_output or not options.json:
        write_file(options.output, plan.data)
    if options.json:
        _write_values(plan, None if to_output else options.output)
    else:
        write_notes(plan.notes)
        if not to_output:
            size = f"{len(plan.data)} bytes of {plan.mark}"
            print(f"{options.output}: {size}, from {sizes_line(plan)}")
            for line in with_lines(plan):
                print(f"    {line}")
            _print_why(plan)
            _print_nobody(plan)
    return 0


def _print_why(plan: Plan) -> None:
    """Why a plan has to be RRP2, if it has to."""
    for start, end, way in plan.too_far_for_rrp1()[:1]:
        print(f"    RRP2, as it is {way:,} from {start} to {end}, and RRP1 goes up to {_RRP1}")


def _nobody(plan: Plan) -> list[str]:
    """The lists in which nobody is."""
    return [name for name in plan.lists if not plan.egresses(name)]


def _print_nobody(plan: Plan) -> None:
    """In which lists nobody is, which may be a slip of the pen."""
    lists = _nobody(plan)
    if lists:
        noun = "list" if len(lists) == 1 else "lists"
        print(f"    nobody is in the {noun} {', '.join(lists)}")


def _write_values(plan: Plan, output: str | None) -> None:
    """The names by number, which the bytes lack; and the bytes themselves, if no file has them."""
    values = {**source_values(plan), "mark": plan.mark, "output": output}
    values["length"] = len(plan.data)
    if output is None:
        values["bytes"] = plan.data.hex()
    names = {"routers": plan.routers, "lists": plan.lists, "lists_of_nobody": _nobody(plan)}
    write_json({**values, **names, "notes": plan.notes})
