"""The plan that a command is asked about, with the changes that are asked for."""

from __future__ import annotations

from argparse import ArgumentParser, Namespace

from .errors import RrpError
from .plan import Plan

#: What `--accept` takes: suspect lists of grade 1.
RESTING = "resting"

PLAN_HELP = "a plan, text, JSON or bytes; - is standard input"

#: What a statement of a change may be.
_FORMS = (
    "The statement goes in place of what the plan has on the same two routers, or of the list or "
    "the reflector of that name: link A B 12, link A B none, distance A > B 12, session A B, "
    "session A B none, list NAME A B, list NAME (then nobody is in it), reflector A hop-step, "
    "reflector A no-client-reflection hop-step, reflector A (then it has neither word)"
)


def add_plan(parser: ArgumentParser) -> None:
    """Adds the plan to what a command takes."""
    parser.add_argument("plan", metavar="PLAN", help=PLAN_HELP)


def add_set(parser: ArgumentParser, what: str = "answer for the plan with a change") -> None:
    """Adds changes of the plan to what a command takes, and what it does with them."""
    said = f"{what}; repeatable. {_FORMS}"
    parser.add_argument("--set", metavar="STATEMENT", action="append", default=[], help=said)


def add_accept(parser: ArgumentParser) -> None:
    """Adds which suspect lists a command is to take for good."""
    said = (
        "end with 0 also where every suspect list comes to rest whatever the order (grade 1), "
        "wherever that is, and routers read one another as they stand"
    )
    parser.add_argument("--accept", choices=[RESTING], help=said)


def read_plan(options: Namespace, path: str | None = None) -> Plan:
    """The plan of a path, or the one that is named, with the changes that are asked for."""
    plan = Plan.read(options.plan if path is None else path)
    return plan.changed(*options.set) if options.set else plan


def need_one_plan(options: Namespace) -> None:
    """Refuses changes of several plans, or of a directory."""
    if options.set:
        quotes = "put what belongs to --set in quotes"
        raise RrpError(f"--set changes one plan: name one, and no directory; {quotes}")
