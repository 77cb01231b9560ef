"""`rrp diff`: what is said to differ is what differs by name, and nothing else ends with 1."""

from __future__ import annotations

import json
import random
import unittest

from rrp import Plan, encoding
from rrp.plan_differences import differences_of, differs

from .folders import InFolder, write
from .networks import random_network
from .support import EXAMPLES, read, rrp
from .test_effects import varied

NET = f"{EXAMPLES}/net.rrp"


def same_by_name(before: Plan, after: Plan) -> bool:
    """Whether two plans of the same routers have the same verdicts, ranks, egresses and senders."""
    if before.lists != after.lists:
        return False
    for old, new in zip(before.verdicts(), after.verdicts()):
        if set(old.egresses) != set(new.egresses) or old.stable != new.stable:
            return False
        if old.stable and (old.ranks != new.ranks or dict(old.table) != dict(new.table)):
            return False
        if not old.stable and (old.cycle, old.groups) != (new.cycle, new.groups):
            return False
        if before.steady_numbers(old.name) != after.steady_numbers(new.name):
            return False
    return True


class Plans(unittest.TestCase):
    """Differences of random plans."""

    def test_what_differs_is_found(self) -> None:
        draw, found = random.Random(4456), set()
        for _ in range(200):
            plan = random_network(draw)
            other = varied(plan, draw)
            differ = differences_of(plan, other).differ
            self.assertEqual(differ, not same_by_name(plan, other))
            found.add(differ)
        self.assertEqual(found, {False, True})

    def test_a_plan_does_not_differ_from_itself(self) -> None:
        draw = random.Random(3)
        for _ in range(30):
            plan = random_network(draw)
            found = differences_of(plan, plan)
            self.assertEqual((found.differ, found.parts), (False, ()))

    def test_numbers_are_no_part_of_names(self) -> None:
        """With other identifiers the same routers have other numbers; without a tie that these
        break, nothing differs but the identifiers."""
        text = read(f"{EXAMPLES}/hop.rrp")
        turned = text.replace("10.0.0.1", "10.9.9.9").replace("10.0.1.1", "9.0.0.1")
        before, after = Plan.parse(text), Plan.parse(turned)
        self.assertNotEqual(before.routers, after.routers)
        found = differences_of(before, after)
        self.assertEqual((found.differ, found.parts), (False, ("identifiers",)))

    def test_a_cycle_may_start_anywhere(self) -> None:
        text = read(f"{EXAMPLES}/hop.rrp").replace(" hop-step", "")
        before, after = Plan.parse(text), Plan.parse(text.replace("10.0.0.1", "10.9.9.9"))
        cycles = before.verdict("transit").cycle, after.verdict("transit").cycle
        self.assertNotEqual(*cycles)
        (found,) = [each for each in differences_of(before, after).effects if not each.after.stable]
        self.assertEqual((found.label, differs(found)), ("same cycle", False))

    def test_a_router_more_is_told_and_the_others_compared(self) -> None:
        plan = Plan.read(NET)
        more = Plan.parse(f"{read(NET)}client new 10.0.9.9 of lon-rr\nlink new lon-rr 5\n")
        found = differences_of(plan, more)
        self.assertEqual((found.routers_before, found.routers_after), ((), ("new",)))
        self.assertTrue(found.differ)
        self.assertFalse(any(map(differs, found.effects)))

    def test_other_tables_to_rest_in_differ(self) -> None:
        model = Plan.read(f"{EXAMPLES}/m3.plan").model
        steady = Plan(encoding.encode(model))
        self.assertEqual(len(steady.steady_numbers(0)), 2)
        found = differences_of(steady, steady).effects[0]
        self.assertFalse(differs(found))
        fewer = found._replace(rest=found.rest._replace(numbers=(1,)))
        self.assertTrue(differs(fewer))


class Command(InFolder):
    """What the command says, and its exit status."""

    def test_the_same(self) -> None:
        answer = rrp("diff", NET, NET)
        self.assertEqual(answer.status, 0)
        self.assertTrue(answer.output.endswith("differs; the plans state the same\n"))

    def test_a_weight_that_moves_nothing(self) -> None:
        answer = rrp("diff", NET, "--set", "link lon-a lon-b 10")
        self.assertEqual(answer.status, 0)
        self.assertTrue(answer.output.endswith("differs; the plans state other distances\n"))

    def test_lists_in_one_alone(self) -> None:
        write("other.rrp", read(NET).replace("list customer", "list voice"))
        answer = rrp("diff", NET, "other.rrp")
        self.assertEqual(answer.status, 1)
        self.assertIn("\nlists only before: customer\nlists only after: voice\n", answer.output)
        values = json.loads(rrp("diff", NET, "other.rrp", "--json").output)
        self.assertEqual(values["lists_only_before"], ["customer"])
        self.assertEqual(values["lists_only_after"], ["voice"])
        self.assertEqual([each["list"] for each in values["lists"]], ["transit", "peering"])

    def test_the_routers_that_differ_are_those_of_check(self) -> None:
        for change in ("link lon-rr par-a 12", "session lon-rr man-a none", "list peering lon-b"):
            checked = json.loads(rrp("check", NET, "--set", change, "--json").output)["lists"]
            answer = rrp("diff", NET, "--set", change, "--json")
            self.assertEqual(answer.status, 1)
            compared = json.loads(answer.output)["lists"]
            told = {each["list"] for each in compared if each.pop("differs")}
            self.assertEqual(compared, checked)
            due = {each["list"] for each in checked if each["as_before"] is False}
            self.assertEqual(told, due)

    def test_errors_end_with_2(self) -> None:
        for words in (
            ["diff"],
            ["diff", NET],
            ["diff", NET, "missing.rrp"],
            ["diff", NET, NET, "--set", "link lon-rr par-a 12"],
            ["diff", "-", "-"],
            ["diff", NET, "--set", "client lon-a hop-step"],
        ):
            self.assertEqual(rrp(*words).status, 2, words)


if __name__ == "__main__":
    unittest.main()
