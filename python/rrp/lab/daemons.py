"""What a lab asks of an implementation of BGP."""

from __future__ import annotations

from abc import ABC, abstractmethod

from ..errors import RrpError
from ..plan import Plan
from .addresses import labels
from .hearing import Heard, Sessions
from .programs import answer, said


class Daemons(ABC):
    """The daemons of a plan's routers, in the folder of a lab. `name` is the implementation's, with
    its version where that counts, and `package` the Debian package that it is in."""

    name: str
    package: str

    def __init__(self, plan: Plan, folder: str) -> None:
        self.plan, self.folder = plan, folder
        self.labels = dict(zip(plan.routers, labels(plan)))

    @classmethod
    @abstractmethod
    def version(cls) -> str:
        """The version that is installed. What is missing is told in one line."""

    @classmethod
    def refuse(cls, plan: Plan) -> None:
        """Refuses a plan that the daemons cannot follow."""
        stepping = [router for router in plan.routers if plan.has_hop_step(router)]
        if stepping:
            raise RrpError(
                f"{plan.source} has the hop step, at {stepping[0]}: {cls.name} has nothing like "
                "it, so that such a plan is not booted"
            )

    @classmethod
    @abstractmethod
    def files(cls, plan: Plan, egress_list: str) -> dict[str, str]:
        """The configurations of a list, by the names of their files, and the script `lab`."""

    @abstractmethod
    def sessions(self, router: str) -> Sessions:
        """The sessions of a router."""

    @abstractmethod
    def routes(self, router: str) -> tuple[Heard, ...]:
        """The routes that a router hears."""

    @abstractmethod
    def end_session(self, router: str, other: str) -> None:
        """Ends the session of a router with another, at this end."""

    @abstractmethod
    def pid_files(self, router: str) -> list[str]:
        """The files that have the process numbers of a router's daemons."""

    def ask(self, router: str, *words: str) -> str:
        """What a program says of a router's daemon."""
        ended = answer(words, self.folder)
        if ended.returncode:
            raise RrpError(f"the daemon of {router} does not answer: {said(ended)}")
        return ended.stdout
