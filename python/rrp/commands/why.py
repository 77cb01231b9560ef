"""`rrp why PLAN LIST ROUTER OTHER`: the rule by which a router relies on another, or the reason why
it does not."""

from __future__ import annotations

from argparse import ArgumentParser, Namespace

from ..accounts import account
from ..inputs import add_plan, add_set, read_plan
from ..output import source_values, write_json, write_start


def arguments(parser: ArgumentParser) -> None:
    """Adds what `why` takes."""
    add_plan(parser)
    parser.add_argument("list", metavar="LIST", help="a list, by name or number")
    parser.add_argument("router", metavar="ROUTER", help="the one that relies, by name or number")
    parser.add_argument("other", metavar="OTHER", help="the one that is relied on")
    add_set(parser)
    parser.epilog = "Exit status: 0 answered, be it yes or no; 2 error."


def run(options: Namespace) -> int:
    """Says why, or why not. Returns 0 either way."""
    plan = read_plan(options)
    egress_list = plan.lists[plan.list_number(options.list)]
    found = account(plan, egress_list, options.router, options.other)
    if options.json:
        values = {**source_values(plan), "list": egress_list, **found.values()}
        write_json({**values, "notes": plan.notes})
    else:
        write_start(plan)
        print(f"{'yes' if found.relies else 'no'}: {found.claim}:")
        for line in found.lines:
            print(f"  {line}")
    return 0
