"""Work on many plans, on all cores. Whatever is asked of a plan is asked of each by itself."""

from __future__ import annotations

import os
from collections.abc import Callable, Iterator
from contextlib import suppress
from typing import TYPE_CHECKING, TypeVar

from . import library
from .errors import RrpError

if TYPE_CHECKING:
    from multiprocessing.connection import Connection

#: What is found of a plan.
_Found = TypeVar("_Found")

#: What is done with a plan's path.
Work = Callable[[str], _Found]

#: So many plans are gone through before they are reported. Fewer are gone through in one process.
_CHUNK = 100


def on_all_cores(
    work: Work[_Found], plans: list[str], processes: int | None = None
) -> Iterator[_Found]:
    """What is found of plans, in as many processes as there are cores or as are given. It comes in
    any order."""
    library.library()
    count = processes or len(os.sched_getaffinity(0))
    if count == 1 or len(plans) <= _CHUNK:
        yield from map(work, plans)
        return
    missing = len(plans)
    for found in _parts(work, [plans[part::count] for part in range(count)]):
        missing -= len(found)
        yield from found
    if missing:
        raise RrpError(f"{missing} plans were not judged, as a process was ended: try again")


def _parts(work: Work[_Found], parts: list[list[str]]) -> Iterator[list[_Found]]:
    """What is found by a process a part, as it comes."""
    from multiprocessing import get_context
    from multiprocessing.connection import wait

    context, receivers = get_context("fork"), []
    for part in parts:
        receiver, sender = context.Pipe(duplex=False)
        receivers.append(receiver)
        given = work, part, sender, receivers
        started = context.Process(target=_work_through, args=given, daemon=True)
        started.start()
        sender.close()
    while receivers:
        for receiver in wait(receivers):
            try:
                found = receiver.recv()
            except EOFError:
                receivers.remove(receiver)
                continue
            if isinstance(found, Exception):
                raise found
            yield found


def _work_through(
    work: Work[_Found], plans: list[str], sender: Connection, receivers: list[Connection]
) -> None:
    """Goes through plans in a process of its own, which ends if nobody takes what is found any
    more."""
    for receiver in receivers:
        receiver.close()
    with suppress(OSError):
        try:
            for start in range(0, len(plans), _CHUNK):
                sender.send([work(path) for path in plans[start : start + _CHUNK]])
        except Exception as fault:
            sender.send(RuntimeError(repr(fault)))
