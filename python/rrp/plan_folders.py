"""Plans in a directory and all below it.

A plan is a file whose name ends in .rrp or .plan, or that has a verdict filed beside it.
"""

from __future__ import annotations

import os
from collections.abc import Callable, Iterable, Iterator
from typing import NamedTuple, TypeVar

from .errors import LibraryMissing, RrpError
from .files import need_file
from .filing import SUFFIX, verdict_path
from .plan import Plan
from .text.problems import first_problem

#: What is found of a plan.
_Found = TypeVar("_Found")

PLAN_SUFFIXES = (".rrp", ".plan")

#: How the name of a plan ends, in words.
NAMES = " or ".join(PLAN_SUFFIXES)


def is_plan(name: str, names: set[str]) -> bool:
    """Whether a file of a folder with these names is a plan."""
    if name.endswith(SUFFIX):
        return False
    return name.endswith(PLAN_SUFFIXES) or verdict_path(name) in names


def walk(
    directory: str, unread: Callable[[str, str], None]
) -> Iterator[tuple[str, set[str]]]:
    """Each folder with the names of its files, in order. Told is which directory cannot be read,
    and why."""

    def failed(failure: OSError) -> None:
        """A directory cannot be read."""
        unread(str(failure.filename), failure.strerror or str(failure))

    for folder, subfolders, names in os.walk(directory, onerror=failed):
        subfolders.sort()
        yield folder, set(names)


class Failed(NamedTuple):
    """A plan that is refused, has errors or cannot be read, or a directory that cannot be read or
    has no plan: why, in one line, and as plain values."""

    path: str
    why: str
    errors: list[dict[str, object]]


class Files(NamedTuple):
    """Plans that were named, plans that lie below directories that were, and what failed: the path
    of a directory that cannot be read or has no plan, and why."""

    named: list[str]
    below: list[str]
    failures: list[tuple[str, RrpError]]


def files_of(paths: Iterable[str]) -> Files:
    """The plans of files and directories, each file once, also where it is named twice."""
    files, seen = Files([], [], []), set()
    for path in paths:
        below = os.path.isdir(path)
        for each in _below(path, files.failures) if below else [path]:
            place = os.path.realpath(each)
            if place not in seen:
                seen.add(place)
                (files.below if below else files.named).append(each)
    return files


def _below(directory: str, failures: list[tuple[str, RrpError]]) -> list[str]:
    """The plans of a directory. What failed is added to the failures."""
    before = len(failures)

    def unread(path: str, why: str) -> None:
        """A directory cannot be read."""
        failures.append((path, RrpError(f"{path} cannot be read: {why}")))

    plans = [
        os.path.join(folder, name)
        for folder, names in walk(directory, unread)
        for name in sorted(names)
        if is_plan(name, names)
    ]
    if not plans and len(failures) == before:
        failures.append((directory, no_plan(directory)))
    return plans


def of_file(work: Callable[[Plan], _Found], path: str, below: bool) -> _Found | Failed:
    """What is found of the plan of a file, unless that is refused, has errors or cannot be read.
    What lies below a directory has to be a file."""
    try:
        if below:
            need_file(path)
        return work(Plan.read(path))
    except LibraryMissing:
        raise
    except RrpError as failure:
        return failed(path, failure)


def failed(path: str, failure: RrpError) -> Failed:
    """Why something failed."""
    problem = first_problem(failure)
    why = str(failure).split("\n", 1)[0] if problem is None else f"{path}: {problem}"
    return Failed(path, why, failure.as_json())


def no_plan(directory: str) -> RrpError:
    """The failure for a directory without a plan."""
    return RrpError(f"{directory} has no plan: no name there ends in {NAMES}")
