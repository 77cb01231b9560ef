"""`rrp check PLAN`: the verdict for each list, and beside it the verdict after changes. Of several
plans, a line each."""

from __future__ import annotations

import os
from argparse import ArgumentParser, Namespace
from shlex import join

from ..always import always_values, always_words
from ..columns import row_lines
from ..effects import effect_on
from ..encoding import NARROW, WIDE, longest
from ..errors import RrpError
from ..inputs import PLAN_HELP, add_accept, add_set, need_one_plan
from ..output import plan_line, plan_values, rest_lines, verdict_lines
from ..output import write_json, write_lists, write_notes
from ..plan import NO, Plan, Verdict
from ..rest import Rest, pass_all, promise_lines, rest_of

STRICT_HELP = "end with 1 also where a list is stable but leaves a router without a route"

#: What words after options are more of.
REST = "plans"


def arguments(parser: ArgumentParser) -> None:
    """Adds what `check` takes."""
    what = f"{PLAN_HELP}; or a directory that has plans"
    parser.add_argument("plans", metavar="PLAN", nargs="+", help=what)
    add_set(parser, "judge a change of the plan, if it is one, beside what was")
    parser.add_argument("--strict", action="store_true", help=STRICT_HELP)
    add_accept(parser)
    parser.epilog = (
        "Routers that a stable list leaves without a route are named. Where nobody is in a list, "
        "as where a prefix is gone everywhere, it is told within how many rounds all routes are "
        "flushed; with --strict that ends with 1 too. With --set, routers that settle on another "
        "route are named; as before says that every rank and route is the same, and same cycle "
        "that a list is suspect with the cycle that it had, its routes not compared. Of a suspect "
        "list it is told by its grade whether it comes to rest, and in how many tables it may, "
        "which alone is no promise that its routers get there; rrp steady PLAN LIST shows them. "
        "Last is whether any egress list at all can make the plan suspect, which rrp always PLAN "
        "explains. Several plans have a line each, with the names of the suspect lists and of "
        "those that leave routers without a route. In a directory and all below it, plans are the "
        "files that rrp audit takes for plans. "
        "Exit status: 0 all lists are stable, after the changes if any; 1 some list is suspect, "
        "with --accept one that is not known to come to rest whatever the order; or with --strict "
        "some router ends without a route; 2 error, also where one of several plans is not "
        "judged."
    )


def run(options: Namespace) -> int:
    """Judges every list. Returns 0 if all are stable, after the changes if any, or come to rest if
    that is accepted, else 1. If strict, it also returns 1 where a router ends without a route."""
    if options.strict and options.accept:
        known = "which is known of stable lists alone: leave out --accept"
        raise RrpError(f"--strict asks whether every router ends with a route, {known}")
    if len(options.plans) > 1 or os.path.isdir(options.plans[0]):
        return _run_several(options)
    found = _run_changed(options) if options.set else _run_plain(options)
    passed = pass_all((rest for _, rest in found), bool(options.accept))
    lacking = options.strict and any(verdict.without_route for verdict, _ in found)
    return 0 if passed and not lacking else 1


def _run_several(options: Namespace) -> int:
    """Judges several plans, a line each. Returns 2 where one is not judged."""
    from ..judging import Judged, judged, judged_rows, judged_sums, judged_words
    from ..plan_folders import Failed
    from ..rest import standing_lines
    from ..several import of_all

    need_one_plan(options)
    found = of_all(judged, options.plans, "not judged")
    plans = [each for each in found if isinstance(each, Judged)]
    failures = [each for each in found if isinstance(each, Failed)]
    if options.json:
        errors = [error for each in failures for error in each.errors]
        values = {"judged": [each.values() for each in plans], **judged_sums(found)}
        write_json({**values, "errors": errors})
    else:
        grades = [grade for each in plans for grade in each.grades]
        rows = row_lines(judged_rows(found))
        for line in [*rows, *standing_lines(grades), judged_words(found)]:
            print(line)
        if any(not os.path.exists(each.path) for each in failures):
            print("check judges all lists of a plan: rrp show PLAN LIST explains one")
    lacking = options.strict and any(each.lacking for each in plans)
    suspect = lacking or any(not each.passes(bool(options.accept)) for each in plans)
    return 2 if failures else 1 if suspect else 0


def _run_plain(options: Namespace) -> list[tuple[Verdict, Rest | None]]:
    (path,) = options.plans
    plan = Plan.read(path)
    verdicts = plan.verdicts()
    rests = {verdict.name: rest_of(plan, verdict) for verdict in verdicts}
    if options.json:
        write_lists(plan, verdicts, rests, always_values(plan.every_list()))
    else:
        write_notes(plan.notes)
        print(plan_line(plan))
        rows = [row for each in verdicts for row in _rows(each, rests[each.name])]
        for line in [*row_lines(rows), *rest_lines(path, rests), *_always_lines(plan, path)]:
            print(line)
    return [(verdict, rests[verdict.name]) for verdict in verdicts]


def _run_changed(options: Namespace) -> list[tuple[Verdict, Rest | None]]:
    from ..text.changes import other_roles

    plan = Plan.read(*options.plans)
    changed = plan.changed(*options.set)
    effects = [effect_on(name, plan, changed) for name in changed.lists]
    roles = other_roles(plan, changed)
    if options.json:
        lists = [{"list": each.after.name, **each.values()} for each in effects]
        answer = {**plan_values(changed), "mark_before": plan.mark, "changes": options.set}
        answer["roles"] = [each.values() for each in roles]
        answer["always_before"] = always_values(plan.every_list())
        answer |= always_values(changed.every_list())
        write_json({**answer, "lists": lists, "notes": changed.notes})
    else:
        write_notes(changed.notes)
        print(plan_line(changed))
        if plan.mark != changed.mark:
            why = f"{'a' if changed.width == WIDE else 'no'} distance is above {longest(NARROW):,}"
            print(f"the plan is then {changed.mark} and no longer {plan.mark}, as {why}")
        for line in (line for each in roles for line in each.lines()):
            print(line)
        for line in row_lines([row for each in effects for row in each.rows()]):
            print(line)
        promises = promise_lines(each.rest for each in effects)
        for line in [*promises, *_always_changed(plan, changed)]:
            print(line)
    return [(each.after, each.rest) for each in effects]


def _always_lines(plan: Plan, path: str) -> list[str]:
    """Whether any list can make the plan suspect, and how to see why."""
    found = plan.every_list()
    words = always_words(found)
    explain = f"; to explain: {join(['rrp', 'always', path])}" if found.answer == NO else ""
    return [f"{words}{explain}"]


def _always_changed(plan: Plan, changed: Plan) -> list[str]:
    """Whether any list can make the changed plan suspect, and what was, if that was another."""
    before, after = plan.every_list(), changed.every_list()
    words = always_words(after)
    return [words if before == after else f"{words} (before: {always_words(before)})"]


def _rows(verdict: Verdict, rest: Rest | None) -> list[tuple[str, ...]]:
    """A list with its verdict, and what more there is to say of it below."""
    first, *more = verdict_lines(verdict, rest)
    return [(verdict.name, first), *(("", line) for line in more)]
