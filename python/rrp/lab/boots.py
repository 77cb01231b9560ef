"""Boots of a list: what is seen of each before anything fails, and after each failure."""

from __future__ import annotations

import os
import tempfile
from collections.abc import Iterator, Sequence
from contextlib import contextmanager
from random import Random
from typing import NamedTuple

from ..plan import Plan, Verdict
from ..tables import Table
from .bird.daemons import Bird
from .booting import Lab
from .comparing import Finding, finding
from .daemons import Daemons
from .failures import Failure, without
from .folders import write_lab
from .frr.daemons import Frr
from .hearing import table_of

#: The implementations of BGP that a lab may be of.
IMPLEMENTATIONS: dict[str, type[Daemons]] = {"bird": Bird, "frr": Frr}

#: Routers that are started in an order drawn are so many seconds apart, all of them together no
#: more than the seconds after it: so sessions come up in about that order.
_APART, _TOGETHER = 0.3, 4.0


class Stage(NamedTuple):
    """What is seen of a boot before anything fails, or after a failure. `plan` and `verdict` are as
    they are then, and `table` is what the routers hold at rest, None if they move."""

    failure: Failure | None
    plan: Plan
    verdict: Verdict
    table: Table | None
    finding: Finding


def boot(
    plan: Plan,
    egress_list: str,
    failures: Sequence[Failure] = (),
    seed: int | None = None,
    output: str | None = None,
    daemons: type[Daemons] = Bird,
) -> list[Stage]:
    """Boots a list and takes it down again. With a seed, the routers start in an order that it
    draws. The lab's folder is the one given, which stays, or a new one, which does not."""
    with _folder(output) as folder:
        write_lab(daemons, plan, egress_list, folder)
        with Lab(plan, daemons(plan, folder)) as lab:
            lab.up(*_order(plan, seed))
            return list(_stages(plan, egress_list, failures, lab))


@contextmanager
def _folder(output: str | None) -> Iterator[str]:
    if output is not None:
        yield output
        return
    with tempfile.TemporaryDirectory(prefix="rrp-lab-") as folder:
        os.chmod(folder, 0o755)  # FRR's daemons are no root
        yield os.path.join(folder, "lab")


def _order(plan: Plan, seed: int | None) -> tuple[Sequence[str], float]:
    """The routers in the order in which they start, and the seconds between them."""
    if seed is None:
        return (), 0.0
    order = Random(seed).sample(plan.routers, len(plan.routers))
    return order, round(min(_APART, _TOGETHER / len(order)), 3)


def _stages(
    plan: Plan, egress_list: str, failures: Sequence[Failure], lab: Lab
) -> Iterator[Stage]:
    yield _stage(plan, egress_list, None, lab)
    for failure in failures:
        plan = without(plan, failure)
        lab.fail(failure)
        yield _stage(plan, egress_list, failure, lab)


def _stage(plan: Plan, egress_list: str, failure: Failure | None, lab: Lab) -> Stage:
    verdict, hearing = plan.verdict(egress_list), lab.hearing_at_rest()
    table = None if hearing is None else table_of(plan, hearing)
    return Stage(failure, plan, verdict, table, finding(plan, verdict, hearing))
