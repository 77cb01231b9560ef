"""`rrp convert PLAN -o OUT`: an RRP1 plan as RRP2, or an RRP2 plan as RRP1."""

from __future__ import annotations

from argparse import ArgumentParser, Namespace

from ..encoding import NARROW, is_bytes, longest
from ..errors import RrpError
from ..files import keep_input, read_file, write_file
from ..filing import is_meant
from ..output import bytes_for_output, write_json
from ..plan import Plan
from ..text import is_json


def arguments(parser: ArgumentParser) -> None:
    """Adds what `convert` takes."""
    parser.add_argument("plan", metavar="PLAN", help="a plan in bytes; - is standard input")
    parser.add_argument("-o", "--output", metavar="OUT", default="-", help="the file to write")
    parser.epilog = (
        "An RRP1 plan becomes RRP2, and an RRP2 plan becomes RRP1, which is refused if a distance "
        f"is above {longest(NARROW):,}. Distances, sessions and lists stay the same, and so does "
        "every verdict; converted back, the plan has the bytes that it had. Exit status: 0 "
        "written; 2 error."
    )


def run(options: Namespace) -> int:
    """Writes the plan of the other mark."""
    name, data = read_file(options.plan)
    if is_meant(data) and not is_bytes(data):
        advice = "rrp pack writes its bytes, and with --wide as RRP2"
        what = "JSON" if is_json(data.decode("utf-8-sig", "replace")) else "text"
        raise RrpError(f"{name} is {what}, which has no mark to convert: {advice}")
    plan = Plan.from_bytes(data, name)
    keep_input(options.plan, options.output)
    bytes_for_output(options)
    converted = plan.widened() if plan.width == NARROW else plan.narrowed()
    to_output = options.output == "-"
    if not to_output or not options.json:
        write_file(options.output, converted.data)
    if options.json:
        write_json(_values(plan, converted, None if to_output else options.output))
    elif not to_output:
        print(f"{options.output}: {_size(converted)}, from {name}: {_size(plan)}")
    return 0


def _size(plan: Plan) -> str:
    return f"{len(plan.data)} bytes of {plan.mark}"


def _values(plan: Plan, converted: Plan, output: str | None) -> dict[str, object]:
    """What was converted into what; and the bytes themselves, if no file has them."""
    values = {
        "plan": plan.source,
        "mark_before": plan.mark,
        "mark": converted.mark,
        "output": output,
        "length": len(converted.data),
    }
    return values if output is not None else {**values, "bytes": converted.data.hex()}
