"""`rrp unpack PLAN`: a plan as text, which `rrp pack` turns into the same bytes."""

from __future__ import annotations

from argparse import ArgumentParser, Namespace

from ..files import keep_input, write_file
from ..inputs import add_plan, add_set, read_plan
from ..output import source_values, with_lines, write_json
from ..plan import Plan
from ..text.writing import identifier_text, write


def arguments(parser: ArgumentParser) -> None:
    """Adds what `unpack` takes."""
    add_plan(parser)
    parser.add_argument("-o", "--output", metavar="OUT", default="-", help="the file to write")
    add_set(parser, "write the plan with a change")
    parser.epilog = (
        "The text states every distance, and no link. What --json writes is read as a plan too. "
        "With both -o and --json, the file has the text. Exit status: 0 written; 2 error."
    )


def run(options: Namespace) -> int:
    """Writes the text of a plan, and its content as JSON if that is asked for."""
    plan = read_plan(options)
    keep_input(options.plan, options.output, plan.sheets)
    if options.output != "-" or not options.json:
        changes = [f"# {options.plan} {line}\n" for line in with_lines(plan)]
        write_file(options.output, "".join([*changes, write(plan)]).encode())
    if options.json:
        write_json(values(plan))
    return 0


def values(plan: Plan) -> dict[str, object]:
    """What a plan says, as plain values. A distance is null where there is no way."""
    routers = [
        {
            "name": name,
            "role": plan.role(name),
            "client_reflection": plan.role(name) == "reflector" and not plan.skips_clients(name),
            "hop_step": plan.has_hop_step(name),
            "identifier": identifier_text(plan.identifier(name)),
        }
        for name in plan.routers
    ]
    rows = zip(plan.routers, plan.model.distances)
    return {
        **source_values(plan),
        "mark": plan.mark,
        "routers": routers,
        "sessions": plan.sessions,
        "distances": {name: dict(zip(plan.routers, row)) for name, row in rows},
        "lists": {name: plan.egresses(name) for name in plan.lists},
    }
