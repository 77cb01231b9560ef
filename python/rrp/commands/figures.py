"""`rrp figures PLAN ..`: all lists of a plan in figures, or those of several plans summed."""

from __future__ import annotations

import os
import sys
from argparse import ArgumentParser, Namespace
from collections.abc import Iterable, Iterator
from shlex import join

from ..errors import RrpError
from ..figure_tables import figure_lines, many
from ..figures import Counted, Sums, counted, sums_of
from ..inputs import PLAN_HELP, add_accept, add_set, need_one_plan, read_plan
from ..output import plan_line, set_words, with_lines, write_json, write_notes
from ..plan import ALWAYS_RESTS
from ..plan_folders import NAMES, Failed
from ..several import of_all

#: What the figures of each kind are of.
_OF = {"by_rank": ("rank",), "by_router": ("router", "identifier"), "by_plan": ("plan",)}

#: The columns of the figures as CSV.
_COLUMNS = ("figure", *(name for names in _OF.values() for name in names), "value")

#: What words after options are more of.
REST = "plans"


def arguments(parser: ArgumentParser) -> None:
    """Adds what `figures` takes."""
    what = f"{PLAN_HELP}; or a directory that has plans"
    parser.add_argument("plans", metavar="PLAN", nargs="+", help=what)
    parser.add_argument("--csv", action="store_true", help="write CSV, for a spreadsheet")
    add_accept(parser)
    add_set(parser, "count the plan, if it is one, with a change")
    parser.epilog = (
        "Counted are the stable and the suspect lists, the grades of these, the highest rank "
        "among the stable ones, how many stable lists have each rank as their highest, and for "
        "each router in how many lists it is in a group of two or more, which suspect lists alone "
        "have. Routers that are so most often come first. The figures of several plans are "
        "summed, and routers of the same name and identifier are taken for one. Of a directory "
        f"and all below it, a plan is a file whose name ends in {NAMES}, or that has a verdict "
        "beside it. A file that is named twice is counted once. What is refused, has errors or "
        "cannot be read is named, and not counted. In CSV each line has a figure, what it is of, "
        "and its value. Where no list is stable, the highest rank is empty in CSV and null in "
        "JSON. "
        "Exit status: 0 all lists are stable; 1 some list is suspect, with --accept one that is "
        "not known to come to rest whatever the order; 2 something is not counted, be the lists "
        "that are counted stable or suspect, or another error."
    )


def run(options: Namespace) -> int:
    """Writes the figures. Returns 0 if all lists are stable, or come to rest if that is accepted, 1
    if some list is suspect, 2 if something is not counted."""
    if options.json and options.csv:
        raise RrpError("--json and --csv are two forms of one answer: ask for one of them")
    if len(options.plans) == 1 and not os.path.isdir(options.plans[0]):
        return _run_plan(options)
    need_one_plan(options)
    found = of_all(counted, options.plans, "not counted")
    sums = sums_of([each for each in found if isinstance(each, Counted)])
    failures = [each for each in found if isinstance(each, Failed)]
    if options.json:
        write_json(_values(sums, failures, ()))
    elif options.csv:
        _write_csv(sums, failures)
    else:
        _print_sums(sums, failures)
    return 2 if failures else _status(sums, options)


def _run_plan(options: Namespace) -> int:
    """Writes the figures of one plan."""
    (path,) = options.plans
    plan = read_plan(options, path)
    sums = sums_of([counted(plan)])
    if options.json:
        changes = {"set": plan.changes} if plan.changes else {}
        write_json({**changes, **_values(sums, [], plan.notes)})
        return _status(sums, options)
    write_notes(plan.notes)
    if options.csv:
        write_notes(with_lines(plan))
        _write_csv(sums, [])
        return _status(sums, options)
    for line in [plan_line(plan), *figure_lines(sums, by_plan=False)]:
        print(line)
    if sums.suspect:
        command = join(["rrp", "check", path, *set_words(plan.changes)])
        print(f"to see the verdict for each list: {command}")
    return _status(sums, options)


def _status(sums: Sums, options: Namespace) -> int:
    passed = sums.by_grade.get(ALWAYS_RESTS, 0) if options.accept else 0
    return 1 if sums.suspect > passed else 0


def _failure_lines(failures: Iterable[Failed]) -> list[str]:
    return [f"not counted: {each.why}" for each in failures]


def _print_sums(sums: Sums, failures: list[Failed]) -> None:
    """Prints the figures of several plans, after what is not counted."""
    words = f"{many(len(sums.plans), 'plan')} counted"
    if failures:
        words += f", {len(failures):,} not counted"
    figures = figure_lines(sums, by_plan=True) if sums.plans else ()
    for line in [*_failure_lines(failures), words, *figures]:
        print(line)
    if sums.suspect:
        print("to see the verdict for each list of a plan: rrp check PLAN")


def _values(sums: Sums, failures: list[Failed], notes: Iterable[str]) -> dict[str, object]:
    ranks = enumerate(sums.by_rank)
    return {
        **sums.values(),
        "not_counted": len(failures),
        "by_rank": [{"rank": rank, "stable_lists": count} for rank, count in ranks],
        "by_router": [each.values() for each in sums.by_router],
        "by_plan": [each.values() for each in sums.plans],
        "errors": [error for each in failures for error in each.errors],
        "notes": notes,
    }


def _write_csv(sums: Sums, failures: list[Failed]) -> None:
    """Writes a line for each figure. What is not counted is told on standard error."""
    import csv

    writer = csv.DictWriter(sys.stdout, _COLUMNS, lineterminator="\n")
    writer.writeheader()
    writer.writerows(_csv_lines(_values(sums, failures, ())))
    sys.stdout.flush()
    for line in _failure_lines(failures):
        print(line, file=sys.stderr)


def _csv_lines(values: dict[str, object]) -> Iterator[dict[str, object]]:
    """The figures, each with what it is of. Those of one name are each of another rank, router or
    plan, or there is one."""
    for name in (name for name, value in values.items() if not isinstance(value, (list, tuple))):
        yield {"figure": name, "value": values[name]}
    for kind, names in _OF.items():
        for row in values[kind]:
            known = {name: row[name] for name in names}
            for name in (name for name in row if name not in names):
                yield {"figure": f"{name}_{kind}", **known, "value": row[name]}
