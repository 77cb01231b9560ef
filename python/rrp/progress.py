"""A bar on the terminal while many plans, or failures of one, are gone through."""

from __future__ import annotations

import sys
from collections.abc import Callable, Iterable, Iterator
from time import monotonic
from typing import TypeVar

#: What is found of a plan.
_Found = TypeVar("_Found")

#: How wide the bar is, and the seconds from one showing to the next.
_WIDTH = 30
_SECONDS = 0.1


def with_progress(
    found: Iterable[_Found],
    total: int,
    wrong: Callable[[_Found], bool],
    words: str,
    noun: str = "plans",
) -> Iterator[_Found]:
    """What is found of so many plans, with a bar while it comes if standard error is a terminal. It
    counts what is wrong, in these words."""
    if not sys.stderr.isatty():
        yield from found
        return
    shown, count = 0.0, 0
    for done, each in enumerate(found, 1):
        count += wrong(each)
        if monotonic() - shown >= _SECONDS:
            shown = monotonic()
            bar = f"[{'#' * (_WIDTH * done // total):.<{_WIDTH}}]"
            sys.stderr.write(f"\r{bar} {done:,} of {total:,} {noun}, {count:,} {words}")
            sys.stderr.flush()
        yield each
    sys.stderr.write("\r\x1b[K")
    sys.stderr.flush()
