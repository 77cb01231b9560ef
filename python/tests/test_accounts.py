"""`rrp why`: the sentences agree with the library's other answers, for every pair."""

from __future__ import annotations

import random
import unittest
from itertools import product

from rrp import Plan
from rrp.accounts import account, best_client
from rrp.plan import REASONS, RULES

from .networks import random_network
from .support import EXAMPLES, STORED_PLANS, TESTS, rrp

BUNDLED = (
    f"{EXAMPLES}/net.rrp",
    f"{EXAMPLES}/m3.plan",
    f"{TESTS}/plans/reasons.rrp",
    f"{STORED_PLANS}/no-way-from-0-to-3.plan",
    f"{STORED_PLANS}/cycle-of-four.plan",
    f"{STORED_PLANS}/role-3.plan",
    f"{EXAMPLES}/hop.rrp",
)


def plans() -> list[Plan]:
    """The bundled plans and some random ones."""
    draw = random.Random(4456)
    return [*map(Plan.read, BUNDLED), *(random_network(draw) for _ in range(30))]


class Accounts(unittest.TestCase):
    """Every pair of every plan."""

    def test_yes_agrees_with_relies(self) -> None:
        told = set()
        for plan in plans():
            for name, router, other in product(plan.lists, plan.routers, plan.routers):
                found = account(plan, name, router, other)
                self.assertEqual(found.relies, plan.relies(name, router, other))
                told.add(found.explanation.words)
        self.assertEqual(told, {*RULES.values(), *REASONS.values()})

    def test_routes_and_margins_are_those_of_the_plan(self) -> None:
        for plan in plans():
            for name, router, other in product(plan.lists, plan.routers, plan.routers):
                found = account(plan, name, router, other)
                self.hold_routes(plan, name, found)

    def hold_routes(self, plan: Plan, name: str, found) -> None:
        """The egresses are listed, and distances and margin are those between router and egress."""
        for egress, distance in (
            (found.offer, found.offer_distance),
            (found.own, found.own_distance),
        ):
            if egress is not None:
                self.assertIn(egress, plan.egresses(name))
                self.assertEqual(distance, plan.distance(found.router, egress))
                self.assertIn(egress, found.sentence)
        if found.margin is not None:
            self.assertEqual(found.margin, found.offer_distance - found.own_distance)
            self.assertIn(f"(margin {found.margin})", found.sentence)
            comparison = plan.compare(found.router, found.offer, found.own, found.direct, True)
            better = found.offer if found.relies else found.own
            due = None if found.offer == found.own else better
            self.assertEqual((comparison.better, comparison.margin), (due, found.margin))
        if found.offer is not None:
            passed_on = plan.role(found.other) == "reflector"
            passed_on = passed_on and found.other not in plan.egresses(name)
            self.assertEqual(found.direct, not passed_on)

    def test_best_client(self) -> None:
        net = Plan.read(f"{EXAMPLES}/net.rrp")
        self.assertEqual(best_client(net, "transit", "lon-rr"), "lon-a")
        self.assertIsNone(best_client(net, "peering", "par-rr"))

    def test_command_says_yes_or_no(self) -> None:
        path = f"{TESTS}/plans/reasons.rrp"
        plan = Plan.read(path)
        for router, other in product(plan.routers, plan.routers):
            answer = rrp("why", path, "tie", router, other)
            expected = "yes: " if plan.relies("tie", router, other) else "no: "
            self.assertEqual((answer.status, answer.errors), (0, ""))
            self.assertTrue(answer.output.startswith(f"{expected}{router} "), answer.output)


if __name__ == "__main__":
    unittest.main()
