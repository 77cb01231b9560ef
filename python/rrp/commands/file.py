"""`rrp file PLAN ..`: writes the verdict of each plan beside it."""

from __future__ import annotations

import os
import sys
from argparse import ArgumentParser, Namespace
from typing import NamedTuple

from ..errors import LibraryMissing, RrpError
from ..files import read_file, write_file
from ..filing import SUFFIX, is_meant, packed, read_verdict, verdict_path
from ..output import count_words, write_json
from ..verdict_differences import LINES, RIGHT, compare
from ..verdict_files import Entry, digest_of, entry


class Filed(NamedTuple):
    """A verdict that is filed: `filed` newly, `unchanged`, `completed` if its lines alone were
    there, or `replaced` if another was."""

    plan: str
    path: str
    entry: Entry
    change: str

    @property
    def status(self) -> int:
        """0 if all lists are stable, 1 if some list is suspect, 2 if the plan is refused."""
        return 2 if self.entry.refused else 1 if self.entry.suspect else 0

    def words(self) -> str:
        """The verdict in a few words."""
        if self.entry.refused:
            return self.entry.program.rstrip()
        lists, nobody = self.entry.stable + self.entry.suspect, self.entry.nobody
        parts = [count_words(lists, "list"), f"{self.entry.suspect} suspect"]
        if nobody:
            parts.append(f"{nobody} {'names' if nobody == 1 else 'name'} nobody")
        lacking = self.entry.lacking - nobody
        if lacking:
            leave = "leaves" if lacking == 1 else "leave"
            parts.append(f"{lacking} {leave} routers without a route")
        return ", ".join(parts)


def arguments(parser: ArgumentParser) -> None:
    """Adds what `file` takes."""
    parser.add_argument("plans", metavar="PLAN", nargs="+", help="a plan, text or bytes")
    damaged = "file that a plan is refused also where it is so damaged that it looks like no plan"
    parser.add_argument("--damaged", action="store_true", help=damaged)
    parser.epilog = (
        f"The verdict of PLAN is written to PLAN{SUFFIX}: the lines of the verdict program, then "
        "the rank and the route of each router of a stable list and the groups of a suspect one, "
        "and the SHA-256 of the plan's bytes; for a text plan all of that is of the bytes that it "
        "packs into. The verdict of a damaged plan in bytes is that it is refused. Exit status: 0 "
        "all lists are stable, 1 some list is suspect, 2 a plan is refused, cannot be read or has "
        "errors, or a verdict cannot be written."
    )


def run(options: Namespace) -> int:
    """Files the verdict of each plan, also after one that has errors. Returns the highest status
    of all."""
    filed: list[Filed] = []
    failures: list[RrpError] = []
    for path in options.plans:
        try:
            filed.append(_file(path, options.damaged))
        except LibraryMissing:
            raise
        except RrpError as failure:
            failures.append(failure)
    if options.json:
        errors = [each for failure in failures for each in failure.as_json()]
        write_json({"filed": [_values(each) for each in filed], "errors": errors})
    else:
        _print(filed, failures)
    return 2 if failures else max(each.status for each in filed)


def _file(plan: str, damaged: bool) -> Filed:
    if plan == "-":
        raise RrpError("a verdict is filed beside its plan, so name the plan's file instead of -")
    if plan.endswith(SUFFIX):
        raise RrpError(f"{plan} is no plan: a name that ends in {SUFFIX} is that of a verdict")
    name, data = read_file(plan)
    if not damaged and not is_meant(data):
        what = "it neither starts with RRP nor has a statement of a text plan"
        raise RrpError(f"{plan} is no plan: {what}; --damaged files that it is refused")
    due, path = entry(packed(data, name).data), verdict_path(plan)
    change = "filed"
    if os.path.exists(path):
        changes = {RIGHT: "unchanged", LINES: "completed"}
        change = changes.get(compare(read_verdict(path), due).kind, "replaced")
    if change != "unchanged":
        write_file(path, due.text.encode())
    return Filed(plan, path, due, change)


def _print(filed: list[Filed], failures: list[RrpError]) -> None:
    for each in filed:
        print(f"{each.path}: {each.change}: {each.words()}")
    sys.stdout.flush()
    for failure in failures:
        print(failure.report(), file=sys.stderr)


def _values(filed: Filed) -> dict[str, object]:
    lines, digest = filed.entry.program.splitlines(), digest_of(filed.entry.digest)
    values = {"plan": filed.plan, "verdict": filed.path, "change": filed.change}
    return {**values, "lines": lines, "sha256": digest}
