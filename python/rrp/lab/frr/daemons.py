"""The daemons of a lab of FRR."""

from __future__ import annotations

import os
import re

from ...errors import RrpError
from ...plan import Plan
from ..addresses import AUTONOMOUS_SYSTEM, PREFIX, session_address
from ..daemons import Daemons
from ..hearing import Heard, Sessions
from ..programs import answer, need_programs, said
from ..script import SCRIPT, script
from .configurations import LONGEST, configuration, network
from .reading import read_routes, read_sessions
from .script import FUNCTIONS, WHERE


class Frr(Daemons):
    """The daemons of a lab of FRR: zebra, which tells distances, and bgpd."""

    name = "FRR"
    package = "frr"

    @classmethod
    def version(cls) -> str:
        """The version of FRR."""
        need_programs([(each, cls.package) for each in ("zebra", "bgpd", "vtysh")])
        found = re.search(r"bgpd version (\S+)", said(answer(["bgpd", "--version"])))
        if found is None:
            raise RrpError(f"a lab needs bgpd of FRR: apt-get install {cls.package}")
        return f"FRR {found[1]}"

    @classmethod
    def refuse(cls, plan: Plan) -> None:
        """Refuses a plan that FRR cannot follow: with the hop step, or with too far a distance."""
        super().refuse(plan)
        ways = [way for row in plan.model.distances for way in row if way is not None]
        if max(ways) > LONGEST:
            raise RrpError(
                f"{plan.source} has a distance of {max(ways):,}: FRR takes no more than "
                f"{LONGEST:,} of a kernel route's metric, so that such a plan is not booted"
            )

    @classmethod
    def files(cls, plan: Plan, egress_list: str) -> dict[str, str]:
        """A folder a router, and the script."""
        files = {SCRIPT: script(plan, egress_list, cls.name, cls.package, WHERE, FUNCTIONS)}
        for router, label in cls(plan, "").labels.items():
            files[f"{label}/bgpd.conf"] = configuration(plan, egress_list, router)
            files[f"{label}/network"] = network(plan, router)
        return files

    def sessions(self, router: str) -> Sessions:
        """The sessions of a router."""
        return read_sessions(self.plan, self._vtysh(router, "show bgp neighbors json"))

    def routes(self, router: str) -> tuple[Heard, ...]:
        """The routes that a router hears."""
        text = self._vtysh(router, f"show bgp ipv4 unicast {PREFIX} json")
        return read_routes(self.plan, router, text)

    def end_session(self, router: str, other: str) -> None:
        """Ends the session of a router with another, at this end."""
        address = session_address(self.plan.router_number(other))
        shut = f"neighbor {address} shutdown"
        self._vtysh(router, "configure terminal", f"router bgp {AUTONOMOUS_SYSTEM}", shut)

    def pid_files(self, router: str) -> list[str]:
        """The files that have the process numbers of a router's daemons."""
        return [f"{self.labels[router]}/{daemon}.pid" for daemon in ("bgpd", "zebra")]

    def _vtysh(self, router: str, *commands: str) -> str:
        place = os.path.join(os.path.abspath(self.folder), self.labels[router])
        words = [word for command in commands for word in ("-c", command)]
        return self.ask(router, "vtysh", "--vty_socket", place, *words)
