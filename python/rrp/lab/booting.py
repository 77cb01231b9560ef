"""Boots a lab by its own script, and waits until its routers rest."""

from __future__ import annotations

import os
import signal
import time
from collections.abc import Sequence
from contextlib import suppress
from subprocess import CompletedProcess

from ..errors import RrpError
from ..plan import Plan
from .daemons import Daemons
from .failures import Failure
from .hearing import Hearing, Sessions
from .programs import answer, said
from .script import SCRIPT
from .signals import ignored

#: The seconds within which all sessions come up, or go down where they fail, and those from one
#: look at them to the next.
_WITHIN, _LOOK = 180.0, 0.2

#: The seconds from one reading of the routes to the next, more than the three that a daemon of BIRD
#: may keep an update if nothing else wakes it. Routers that rest are read twice alike; those that
#: are not after so many readings move.
GAP, READINGS = 4.0, 5


class Lab:
    """The routers of a plan's list, in a folder that `write_lab` wrote. Whatever was started within
    `with` is gone after it."""

    def __init__(self, plan: Plan, daemons: Daemons) -> None:
        self.plan, self.daemons = plan, daemons
        self.namespace = f"rrp-lab-{os.getpid()}"
        self._begun = False
        self._failed: list[set[str]] = []

    def __enter__(self) -> Lab:
        return self

    def __exit__(self, *why: object) -> None:
        if self._begun:
            with ignored():
                self._script("down")

    def up(self, order: Sequence[str] = (), pause: float = 0.0) -> None:
        """Starts the routers, by number or in the order given, so many seconds apart, and waits
        until all sessions are established."""
        self._begun = True
        words = [self.daemons.labels[router] for router in order]
        started = self._script("up", *words, PAUSE=f"{pause:g}")
        if started.returncode:
            raise RrpError(f"the lab cannot be booted: {said(started)}")
        self._wait_for_sessions()

    def fail(self, failure: Failure) -> None:
        """Ends a session at both ends, or a router's daemons without a word to its neighbours; and
        waits until the sessions that are lost by that are."""
        self._failed.append(set(failure.routers))
        if len(failure.routers) == 1:
            self._kill(failure.routers[0])
        else:
            for router, other in (failure.routers, failure.routers[::-1]):
                self.daemons.end_session(router, other)
        self._wait_for_sessions()

    def _kill(self, router: str) -> None:
        for name in self.daemons.pid_files(router):
            with open(os.path.join(self.daemons.folder, name), encoding="ascii") as file:
                process = int(file.read())
            with suppress(ProcessLookupError):
                os.kill(process, signal.SIGKILL)

    def _wait_for_sessions(self) -> None:
        """Waits until all sessions are established, but for those that have failed: until they are
        not."""
        until = time.monotonic() + _WITHIN
        while True:
            wrong = [pair for router in self._running() for pair in self._wrong_sessions(router)]
            if not wrong:
                return
            if time.monotonic() > until:
                (router, other), *more = wrong
                which = f"that of {router} with {other} and {len(more)} more are not so"
                raise RrpError(f"not all sessions are up, or down, after {_WITHIN:g} s: {which}")
            time.sleep(_LOOK)

    def _wrong_sessions(self, router: str) -> list[tuple[str, str]]:
        """The ends of sessions at a router that are not as they should be."""
        established = self.daemons.sessions(router).established
        return [
            (router, other)
            for other in self.plan.neighbours(router)
            if established.get(other, False) == self._has_failed(router, other)
        ]

    def _has_failed(self, *routers: str) -> bool:
        """Whether a router has, or a session between two routers, or one of its two ends."""
        return any(failed <= set(routers) for failed in self._failed)

    def _running(self) -> list[str]:
        return [router for router in self.plan.routers if not self._has_failed(router)]

    def hearing_at_rest(self) -> Hearing | None:
        """What all routers hear, once two readings some seconds apart are alike and no update came
        between them. None if no two readings are."""
        before = self._reading()
        for _ in range(READINGS - 1):
            time.sleep(GAP)
            reading = self._reading()
            if reading == before:
                return reading[1]
            before = reading
        return None

    def _reading(self) -> tuple[list[Sessions], Hearing]:
        """All counts of updates, and after them what all routers hear."""
        running = self._running()
        counts = [self.daemons.sessions(router) for router in running]
        nothing = {router: () for router in self.plan.routers}
        return counts, {**nothing, **{each: self.daemons.routes(each) for each in running}}

    def _script(self, *words: str, **environment: str) -> CompletedProcess[str]:
        folder = self.daemons.folder
        return answer([f"./{SCRIPT}", *words], folder, NAMESPACE=self.namespace, **environment)
