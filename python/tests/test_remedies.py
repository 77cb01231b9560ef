"""`rrp show`: a change that is shown ends the reliance, and no smaller one does."""

from __future__ import annotations

import json
import random
import unittest
from itertools import permutations

from rrp import Plan
from rrp.encoding import NARROW, WIDE, longest
from rrp.remedies import Change, Remedy, smallest_remedy

from .networks import random_network
from .support import EXAMPLES, STORED_PLANS, TESTS, read, rrp

SUSPECT = (
    (f"{EXAMPLES}/net.rrp", "transit"),
    (f"{EXAMPLES}/m3.plan", "l0"),
    (f"{EXAMPLES}/wide.rrp", "transit"),
    (f"{TESTS}/plans/reasons.rrp", "tie"),
    (f"{TESTS}/plans/far.rrp", "all"),
    (f"{STORED_PLANS}/cycle-of-four.plan", "l0"),
    (f"{STORED_PLANS}/role-3.plan", "l4"),
)


def smaller_changes(plan: Plan, size: int) -> list[Change]:
    """Every change of any one distance to another number that is smaller than the size given."""
    changes = []
    for start, end in permutations(plan.routers, 2):
        was = plan.distance(start, end)
        if was is not None:
            most = longest(plan.width)
            values = range(max(0, was - size + 1), min(most + 1, was + size))
            changes += [Change(start, end, was, value) for value in values if value != was]
    return changes


class Shown(unittest.TestCase):
    """What `rrp show` prints, applied as `rrp check --set` applies it."""

    def test_each_change_ends_its_reliance(self) -> None:
        for path, name in SUSPECT:
            answer = rrp("show", path, name, "--json")
            self.assertEqual(answer.status, 1)
            shown = json.loads(answer.output)
            self.assertEqual(len(shown["reliances"]), len(shown["cycle"]))
            for reliance in shown["reliances"]:
                self.hold(path, name, reliance)

    def hold(self, path: str, name: str, reliance: dict) -> None:
        """The reliance is gone with the change, and the verdict is the one that was shown."""
        pair = reliance["router"], reliance["other"]
        statement = reliance["change"]["statement"]
        plan = Plan.read(path)
        self.assertTrue(plan.relies(name, *pair))
        self.assertFalse(plan.changed(statement).relies(name, *pair))
        judged = json.loads(rrp("check", path, "--set", statement, "--json").output)
        (after,) = [each["after"] for each in judged["lists"] if each["list"] == name]
        self.assertEqual(after, reliance["change"]["then"])

    def test_the_text_has_the_same_changes(self) -> None:
        for path, name in SUSPECT:
            shown = json.loads(rrp("show", path, name, "--json").output)
            text = rrp("show", path, name).output
            for reliance in shown["reliances"]:
                self.assertIn(f": {reliance['change']['statement']} (now ", text)
                claim, reason = reliance["sentence"].split(": ")
                self.assertIn(f". {claim}:\n   {reason}\n", text)


class Smallest(unittest.TestCase):
    """Held against trying every smaller change of every distance of the plan."""

    def hold(self, plan: Plan, name: str, pair: tuple[str, str]) -> Remedy:
        """The remedy ends the reliance, and is the smallest that does."""
        remedy = smallest_remedy(plan, name, *pair)
        changed = remedy.change.applied(plan)
        self.assertFalse(changed.relies(name, *pair))
        self.assertEqual(remedy.verdict, changed.verdict(name))
        size = min(remedy.change.size, 40)
        for change in smaller_changes(plan, size):
            self.assertTrue(change.applied(plan).relies(name, *pair), (change, remedy))
        return remedy

    def stable_if_any(self, plan: Plan, name: str, pair: tuple[str, str], remedy: Remedy) -> None:
        """Where a change of the same size makes the list stable too, the remedy does."""
        changes = smaller_changes(plan, remedy.change.size + 1)
        alike = [each.applied(plan) for each in changes if each.size == remedy.change.size]
        ending = [changed for changed in alike if not changed.relies(name, *pair)]
        stable = any(changed.verdict(name).stable for changed in ending)
        self.assertEqual(remedy.verdict.stable, stable)

    def test_random_networks(self) -> None:
        draw, cycles, starts = random.Random(4456), 0, set()
        while cycles < 40:
            plan = random_network(draw)
            for verdict in plan.verdicts():
                cycles += not verdict.stable
                for pair in zip(verdict.cycle, [*verdict.cycle[1:], *verdict.cycle[:1]]):
                    remedy = self.hold(plan, verdict.name, pair)
                    self.stable_if_any(plan, verdict.name, pair, remedy)
                    starts.add(pair.index(remedy.change.start))
                    starts.add(remedy.change.becomes > remedy.change.was)
        self.assertEqual(starts, {0, 1, False, True})

    def test_every_reliance_on_an_offer(self) -> None:
        draw = random.Random(4456)
        for _ in range(12):
            plan = random_network(draw)
            for pair in permutations(plan.routers, 2):
                found = plan.explain("l0", *pair)
                if found.relies and found.words == "better offer":
                    self.hold(plan, "l0", pair)

    def test_only_no_way_ends_it(self) -> None:
        plan = Plan.read(f"{TESTS}/plans/far.rrp")
        remedy = self.hold(plan, "all", ("a", "b"))
        self.assertEqual(remedy.change.statement, "distance a > cb none")
        for value in range(0, longest(NARROW) + 1, 5):
            for end, was in (("cb", 0), ("ca", 65534)):
                changed = Change("a", end, was, value).applied(plan)
                self.assertTrue(changed.relies("all", "a", "b"))

    def test_only_no_way_ends_it_in_rrp2(self) -> None:
        text = read(f"{TESTS}/plans/far.rrp").replace("65534", "4294967294")
        plan = Plan.parse(text)
        self.assertEqual(plan.mark, "RRP2")
        remedy = self.hold(plan, "all", ("a", "b"))
        self.assertEqual(remedy.change.statement, "distance a > cb none")
        self.assertGreater(remedy.change.size, longest(WIDE))

    def test_what_ends_it_in_rrp2_alone(self) -> None:
        plan = Plan.parse(f"{read(f'{TESTS}/plans/far.rrp')}wide\n")
        remedy = self.hold(plan, "all", ("a", "b"))
        self.assertEqual(remedy.change.statement, "distance a > cb 65535")

    def test_a_distance_may_become_the_longest(self) -> None:
        for width in (NARROW, WIDE):
            most = longest(width)
            text = read(f"{TESTS}/plans/far.rrp").replace("65534", str(most))
            text = text.replace("cb 3 of", "cb 5 of").replace("a > cb 0", f"a > cb {most - 4}")
            remedy = self.hold(Plan.parse(text), "all", ("a", "b"))
            self.assertEqual(remedy.change.statement, f"distance a > cb {most}")

    def test_the_longest_distances_of_each_mark(self) -> None:
        for width in (NARROW, WIDE):
            draw, cycles, marks = random.Random(4456), 0, set()
            while cycles < 12:
                plan = random_network(draw, longest(width) - 12, width)
                for verdict in plan.verdicts():
                    cycles += not verdict.stable
                    for pair in zip(verdict.cycle, [*verdict.cycle[1:], *verdict.cycle[:1]]):
                        remedy = self.hold(plan, verdict.name, pair)
                        marks.add(remedy.change.applied(plan).width)
            self.assertEqual(marks, {width})

    def test_widened_it_is_the_same(self) -> None:
        draw, cycles = random.Random(4456), 0
        while cycles < 40:
            plan = random_network(draw)
            for verdict in plan.verdicts():
                cycles += not verdict.stable
                for pair in zip(verdict.cycle, [*verdict.cycle[1:], *verdict.cycle[:1]]):
                    remedy = smallest_remedy(plan, verdict.name, *pair)
                    wide = smallest_remedy(plan.widened(), verdict.name, *pair)
                    self.assertEqual(wide, remedy)

    def test_none_ends_it(self) -> None:
        net = Plan.read(f"{EXAMPLES}/net.rrp")
        self.assertTrue(net.relies("transit", "lon-b", "lon-rr"))
        self.assertIsNone(smallest_remedy(net, "transit", "lon-b", "lon-rr"))


if __name__ == "__main__":
    unittest.main()
