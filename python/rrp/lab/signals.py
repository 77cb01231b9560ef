"""Signals that would end the command at once, while there is something to take down."""

from __future__ import annotations

import os
import signal
from collections.abc import Iterator
from contextlib import contextmanager

_SIGNALS = (signal.SIGINT, signal.SIGTERM, signal.SIGHUP)

#: Whether signals wait, and the number of one that does.
_waiting: dict[str, object] = {"wait": False, "number": None}


class Interrupted(BaseException):
    """A signal came that ends the command, by this number."""


@contextmanager
def raised() -> Iterator[None]:
    """Within it a signal is raised, so that what is open is closed; then it ends the command."""
    ended_by = None
    try:
        with _handled(_raise):
            yield
    except Interrupted as interrupted:
        ended_by = interrupted.args[0]
    if ended_by is not None:
        signal.signal(ended_by, signal.SIG_DFL)
        os.kill(os.getpid(), ended_by)


@contextmanager
def waiting() -> Iterator[None]:
    """Within it a signal that is to be raised waits; it is raised at the end."""
    _waiting.update(wait=True, number=None)
    try:
        yield
    finally:
        _waiting["wait"] = False
    if _waiting["number"] is not None:
        raise Interrupted(_waiting["number"])


@contextmanager
def ignored() -> Iterator[None]:
    """Within it signals are ignored."""
    with _handled(signal.SIG_IGN):
        yield


@contextmanager
def _handled(handler: object) -> Iterator[None]:
    """Has another handler for signals, but for those that whoever started the command ignores."""
    before = {each: signal.getsignal(each) for each in _SIGNALS}
    heeded = [each for each in _SIGNALS if before[each] is not signal.SIG_IGN]
    for each in heeded:
        signal.signal(each, handler)
    try:
        yield
    finally:
        for each in heeded:
            signal.signal(each, before[each])


def _raise(number: int, frame: object) -> None:
    if not _waiting["wait"]:
        raise Interrupted(number)
    _waiting["number"] = number
