"""Random lists that are booted: each does as its verdict promises. What is seen is counted.

RRP_LAB_LISTS says how many lists are booted, with the daemons that RRP_LAB_BOOT names, and
RRP_LAB_SEED which. Without the first none are. Every third list is a suspect one. A quarter as
many lists of larger plans are booted too.
"""

from __future__ import annotations

import os
import random
import tempfile
import unittest
from collections import Counter
from collections.abc import Callable, Iterator
from itertools import combinations

from rrp import Plan, encoding
from rrp.rest import rest_of

from .networks import random_network
from .test_lab_boots import DAEMONS, Case, boot_all, write_plan

LISTS = int(os.environ.get("RRP_LAB_LISTS", "0"))
SEED = int(os.environ.get("RRP_LAB_SEED", "4456"))

#: The roles without the hop step, which daemons do not have.
_WITHOUT_STEP = {
    encoding.HOP_STEP: encoding.REFLECTOR,
    encoding.SKIPPING_HOP_STEP: encoding.SKIPPING,
}


def small_network(draw: random.Random) -> Plan:
    """A random plan of four to ten routers, without the hop step."""
    model = random_network(draw).model
    roles = [_WITHOUT_STEP.get(role, role) for role in model.roles]
    return Plan(encoding.encode(model._replace(roles=roles)))


def large_network(draw: random.Random) -> Plan:
    """A random plan of 20 to 40 routers: up to eight reflectors, some without client reflection, in
    a mesh that lacks some sessions, and clients of up to three of them."""
    reflectors, count = draw.randint(4, 8), draw.randint(20, 40)
    sessions = {pair for pair in combinations(range(reflectors), 2) if draw.random() < 0.8}
    for client in range(reflectors, count):
        parents = draw.sample(range(reflectors), draw.randint(1, 3))
        sessions.update((parent, client) for parent in parents)
    kinds = [encoding.REFLECTOR, encoding.REFLECTOR, encoding.SKIPPING]
    ways = [*range(1, 41), None]
    model = encoding.Model(
        roles=draw.choices(kinds, k=reflectors) + [encoding.CLIENT] * (count - reflectors),
        identifiers=list(range(1, count + 1)),
        sessions=sorted(sessions),
        distances=[
            [0 if u == e else draw.choice(ways) for e in range(count)] for u in range(count)
        ],
        lists=[sorted(draw.sample(range(count), draw.randint(1, 6))) for _ in range(3)],
    )
    return Plan(encoding.encode(model))


def random_lists(
    draw: random.Random, network: Callable[[random.Random], Plan]
) -> Iterator[tuple[Plan, str]]:
    """Lists of random plans, two stable ones and a suspect one in turn."""
    drawn = {stable: _drawn(draw, network, stable) for stable in (True, False)}
    while True:
        for stable in (True, False, True):
            yield next(drawn[stable])


def _drawn(
    draw: random.Random, network: Callable[[random.Random], Plan], stable: bool
) -> Iterator[tuple[Plan, str]]:
    """The lists of random plans that are stable, or those that are suspect."""
    while True:
        plan = network(draw)
        yield from ((plan, each.name) for each in plan.verdicts() if each.stable == stable)


def kind_of(plan: Plan, name: str) -> str:
    """What a list is."""
    verdict = plan.verdict(name)
    return "stable" if verdict.stable else f"suspect, rests {rest_of(plan, verdict).place}"


def seen_of(stage: dict) -> str:
    """What is seen of a list."""
    senders = stage["outcome"] == "rests" and stage["senders"]
    return f"{stage['outcome']} but for senders" if senders else stage["outcome"]


@unittest.skipUnless(LISTS, "RRP_LAB_LISTS does not say how many lists are to be booted")
class RandomLists(unittest.TestCase):
    """Random lists as real daemons."""

    def test_random_lists(self) -> None:
        self.judge(LISTS, small_network)

    def test_lists_of_large_plans(self) -> None:
        self.judge(LISTS // 4, large_network)

    def judge(self, count: int, network: Callable[[random.Random], Plan]) -> None:
        """So many lists do as their verdicts promise."""
        drawn = random_lists(random.Random(SEED), network)
        lists, counts = [each for _, each in zip(range(count), drawn)], Counter()
        with tempfile.TemporaryDirectory() as folder:
            cases = [Case(write_plan(folder, plan.data), name) for plan, name in lists]
            booted = boot_all(cases)
        print(f"{len(cases)} lists were booted with {DAEMONS}")
        for (plan, name), (status, (stage,)) in zip(lists, booted):
            counts[kind_of(plan, name), seen_of(stage)] += 1
            with self.subTest(plan=plan.data.hex(), list=name):
                self.assertEqual(status, 0, stage)
        for (what, seen), count in sorted(counts.items()):
            print(f"{count:>5}  {what}: {seen} ({network.__name__})")


if __name__ == "__main__":
    unittest.main()
