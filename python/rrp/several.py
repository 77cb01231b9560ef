"""The same asked of several plans: of files, and of all plans below directories."""

from __future__ import annotations

from collections.abc import Callable, Sequence
from typing import TypeVar

from .cores import on_all_cores
from .plan import Plan
from .plan_folders import Failed, failed, files_of, of_file
from .progress import with_progress

#: What is found of a plan. It has the path.
_Found = TypeVar("_Found")


def of_all(
    work: Callable[[Plan], _Found], paths: Sequence[str], words: str
) -> list[_Found | Failed]:
    """What is found of the plans of files and directories, on all cores, with a bar that counts
    what failed in these words. It comes in the order of the paths' names."""
    files = files_of(paths)
    plans, below = [*files.named, *files.below], set(files.below)
    if not plans and len(paths) == 1:
        raise files.failures[0][1]
    found = on_all_cores(lambda path: of_file(work, path, path in below), plans)
    judged = list(with_progress(found, len(plans), _has_failed, words))
    judged += [failed(*failure) for failure in files.failures]
    return sorted(judged, key=lambda each: each.path)


def _has_failed(found: object) -> bool:
    return isinstance(found, Failed)
