"""The daemons of a lab of BIRD 2."""

from __future__ import annotations

import re

from ...errors import RrpError
from ...plan import Plan
from ..daemons import Daemons
from ..hearing import Heard, Sessions
from ..programs import answer, need_programs, said
from ..script import SCRIPT, script
from .configurations import configuration, protocol_name
from .reading import read_routes, read_sessions
from .script import FUNCTIONS, WHERE


class Bird(Daemons):
    """The daemons of a lab of BIRD 2."""

    name = "BIRD 2"
    package = "bird2"

    def __init__(self, plan: Plan, folder: str) -> None:
        super().__init__(plan, folder)
        self._names = {protocol_name(plan, router): router for router in plan.routers}

    @classmethod
    def version(cls) -> str:
        """The version of BIRD."""
        need_programs([("bird", cls.package), ("birdc", cls.package)])
        found = re.search(r"BIRD version ((\d+)\S*)", said(answer(["bird", "--version"])))
        if found is None or found[2] != "2":
            raise RrpError(f"a lab needs bird of version 2: apt-get install {cls.package}")
        return f"BIRD {found[1]}"

    @classmethod
    def files(cls, plan: Plan, egress_list: str) -> dict[str, str]:
        """A configuration a router, and the script."""
        named = zip(plan.routers, cls(plan, "").labels.values())
        return {
            SCRIPT: script(plan, egress_list, cls.name, cls.package, WHERE, FUNCTIONS),
            **{f"{each}.conf": configuration(plan, egress_list, router) for router, each in named},
        }

    def sessions(self, router: str) -> Sessions:
        """The sessions of a router."""
        return read_sessions(self._names, self._birdc(router, "show", "protocols", "all"))

    def routes(self, router: str) -> tuple[Heard, ...]:
        """The routes that a router hears."""
        text = self._birdc(router, "show", "route", "table", "master4", "all")
        return read_routes(self.plan, router, text)

    def end_session(self, router: str, other: str) -> None:
        """Ends the session of a router with another, at this end."""
        self._birdc(router, "disable", protocol_name(self.plan, other))

    def pid_files(self, router: str) -> list[str]:
        """The file that has the process number of a router's daemon."""
        return [f"{self.labels[router]}.pid"]

    def _birdc(self, router: str, *words: str) -> str:
        return self.ask(router, "birdc", "-s", f"{self.labels[router]}.ctl", *words)
