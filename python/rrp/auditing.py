"""Goes over a library of plans with filed verdicts, on all cores."""

from __future__ import annotations

import os
from collections.abc import Iterator
from contextlib import suppress
from typing import NamedTuple

from .cores import on_all_cores
from .errors import RrpError
from .files import read_file
from .filing import SUFFIX, is_meant, packed, read_verdict, verdict_path
from .plan_folders import is_plan, need_file, walk
from .rest import grades_in
from .text.problems import first_problem
from .verdict_differences import CHANGED, FALSE, LINES, RIGHT, compare
from .verdict_files import entry

#: What may be found of a file, beside what is found of a verdict.
UNFILED, STRAY, UNREADABLE = "unfiled", "stray", "unreadable"
KINDS = (RIGHT, LINES, CHANGED, FALSE, UNFILED, STRAY, UNREADABLE)


class Finding(NamedTuple):
    """What was found of a plan, or of a verdict that has none.

    `stable` and `suspect` count the lists of the plan, `grades` has the grade of each suspect
    one, and `refused` says whether the plan is refused. A
    verdict that is false or of another plan is there as it is filed, and as it is due unless the
    plan's text has errors; `differences` has the values that differ.
    """

    path: str
    kind: str
    details: tuple[str, ...] = ()
    stable: int = 0
    suspect: int = 0
    refused: bool = False
    filed: str | None = None
    due: str | None = None
    differences: tuple[dict[str, object], ...] = ()
    grades: tuple[int | None, ...] = ()


class Found(NamedTuple):
    """The plans that have a verdict filed, and findings on all else."""

    plans: list[str]
    findings: list[Finding]

    def count(self) -> int:
        """How many plans there are, with a verdict or without."""
        return len(self.plans) + sum(finding.kind == UNFILED for finding in self.findings)


def find(directory: str) -> Found:
    """Looks through a directory and all below it."""
    if not os.path.isdir(directory):
        raise RrpError(f"{directory} is no directory: name one that has plans and their verdicts")
    found = Found([], [])

    def unread(path: str, why: str) -> None:
        """A directory below cannot be read."""
        found.findings.append(Finding(path, UNREADABLE, (why,)))

    for folder, names in walk(directory, unread):
        _sort_out(folder, names, found)
    return found


def _sort_out(folder: str, names: set[str], found: Found) -> None:
    """Sorts out the files of one folder."""
    for name in sorted(names):
        path = os.path.join(folder, name)
        if name.endswith(SUFFIX):
            plan = name[: -len(SUFFIX)]
            if plan.endswith(SUFFIX):
                details = ("it is filed for a verdict, which is no plan",)
                found.findings.append(Finding(path, STRAY, details))
            elif plan not in names:
                found.findings.append(Finding(path, STRAY, ("it has no plan beside it",)))
        elif verdict_path(name) in names:
            found.plans.append(path)
        elif is_plan(name, names):
            damaged = " with --damaged, as it looks like no plan" if _looks_damaged(path) else ""
            details = (f"no verdict is filed; rrp file writes one{damaged}",)
            found.findings.append(Finding(path, UNFILED, details))


def _looks_damaged(path: str) -> bool:
    """Whether a file can be read, and its content is not meant as a plan."""
    with suppress(RrpError):
        return os.path.isfile(path) and not is_meant(read_file(path)[1])
    return False


def judge(path: str) -> Finding:
    """Says of a plan whether the verdict filed beside it is its own."""
    try:
        for each in (path, verdict_path(path)):
            need_file(each)
        filed = read_verdict(verdict_path(path))
        name, data = read_file(path)
    except RrpError as failure:
        return Finding(path, UNREADABLE, (str(failure),))
    try:
        plan = packed(data, name)
    except RrpError as failure:
        problem = first_problem(failure) or f"the plan packs into no bytes: {failure}"
        return Finding(path, FALSE, (f"a verdict is filed, but {problem}",), filed=filed)
    due = entry(plan.data)
    found = compare(filed, due, plan.names)
    finding = Finding(path, found.kind, found.details, due.stable, due.suspect, due.refused)
    finding = finding._replace(grades=grades_in(plan.data, due.suspects))
    if found.kind in (RIGHT, LINES):
        return finding
    values = tuple(each.values(plan.names, found.same_plan) for each in found.differences)
    return finding._replace(filed=filed, due=due.text, differences=values)


def judge_all(plans: list[str], processes: int | None = None) -> Iterator[Finding]:
    """Judges plans, in as many processes as there are cores or as are given. The findings come in
    any order."""
    return on_all_cores(judge, plans, processes)
