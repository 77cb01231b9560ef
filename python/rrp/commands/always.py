"""`rrp always PLAN`: whether any egress list can make a plan suspect. If one can, it is named and
explained, with what would end that."""

from __future__ import annotations

from argparse import ArgumentParser, Namespace
from collections.abc import Iterator
from shlex import join

from ..always import always_values, always_words, own_list, statement_of
from ..inputs import add_plan, add_set, read_plan
from ..output import plan_line, plan_values, set_words, verdict_words, write_json, write_notes
from ..plan import NO, UNDECIDED, YES, Plan
from ..repairs import Repairs, find_repairs
from ..rest import rest_of
from .show import print_suspect, suspect_values

#: What else there is to say of each answer.
_MORE = {
    YES: (
        "whatever routers are listed, the verdict is stable, with the sessions and distances as "
        "they are",
    ),
    UNDECIDED: (
        "this is neither a yes nor a no: clients with several reflectors leave room for lists that "
        "were not looked for",
    ),
}


def arguments(parser: ArgumentParser) -> None:
    """Adds what `always` takes."""
    add_plan(parser)
    add_set(parser)
    parser.epilog = (
        "The lists of the plan play no part: asked is whether any list of routers at all makes it "
        "suspect. If one does, it is named and explained as rrp show PLAN LIST explains a list, "
        "with changes that were tried for it; another list may still make the plan suspect with "
        "them, so ask again with --set. Undecided says that no such list was found and some may "
        "exist; so it never is where no client has two reflectors, nor where reflectors that "
        "share clients have the same ones, order the others alike and have sessions with the same "
        "reflectors. A failure makes another plan: rrp sweep PLAN --always judges those. "
        "Exit status: 0 no list makes the plan suspect; 1 one does, or undecided; 2 error."
    )


def run(options: Namespace) -> int:
    """Answers for every list. Returns 0 if the answer is yes, else 1."""
    plan = read_plan(options)
    found = plan.every_list()
    values = {**plan_values(plan), **always_values(found)}
    if not options.json:
        write_notes(plan.notes)
        print(plan_line(plan))
        print(always_words(found))
    if found.answer == NO:
        values = {**values, **_explain(plan, found.routers, options)}
    elif not options.json:
        for line in [*_MORE[found.answer], *_advice(options.plan, plan, found.answer)]:
            print(line)
    if options.json:
        write_json({**values, "notes": plan.notes})
    return 0 if found.answer == YES else 1


def _advice(path: str, plan: Plan, answer: str) -> Iterator[str]:
    """How to go on after an answer without a list."""
    changes = set_words(plan.changes)
    if answer == YES:
        command = join(["rrp", "sweep", path, *changes, "--always"])
        yield f"a failure makes another plan: {command} judges those"
    else:
        yield f"to judge the lists of the plan: {join(['rrp', 'check', path, *changes])}"


def _explain(plan: Plan, routers: tuple[str, ...], options: Namespace) -> dict[str, object]:
    """Explains a list that was found as `show` explains one, with the list put into the plan unless
    it is there; its values if JSON is asked for."""
    name, statement, changed = own_list(plan, routers), None, plan
    if name is None:
        statement = statement_of(plan, routers)
        name, changed = statement.split()[1], plan.changed(statement)
    verdict = changed.verdict(name)
    rest = rest_of(changed, verdict)
    if rest is None:
        raise RuntimeError(f"the list {' '.join(routers)} was found, and is stable")
    repairs = find_repairs(changed, verdict)
    if options.json:
        explained = suspect_values(changed, verdict, rest, repairs)
        return {"statement": statement, "list": verdict.name, **explained}
    print(f"the list {name} has these routers" if statement is None else f"with {statement}")
    print(f"{name} is {verdict_words(verdict)}")
    print_suspect(changed, verdict, rest, repairs, options.plan)
    print(f"\n{_ask_again(plan, repairs, options.plan)}")
    return {}


def _ask_again(plan: Plan, repairs: Repairs, path: str) -> str:
    """That another list may be suspect with a change, and how to ask."""
    first = next(iter((*repairs.single, *repairs.pairs)), None)
    statements = ["STATEMENT"] if first is None else first.statements
    command = join(["rrp", "always", path, *set_words([*plan.changes, *statements])])
    return f"with a change another list may be found; to ask again: {command}"
