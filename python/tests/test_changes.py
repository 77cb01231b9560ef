"""`--set` on every command that answers for a plan, and `Plan.changed`."""

from __future__ import annotations

import json
import unittest

from rrp import Plan, TextErrors

from .folders import InFolder, write
from .support import EXAMPLES, read, rrp

NET = f"{EXAMPLES}/net.rrp"
CHANGE = "link lon-rr par-a 12"

#: The commands, with the words after the plan.
COMMANDS = {
    "show": ["transit"],
    "why": ["transit", "lon-rr", "par-rr"],
    "run": ["transit"],
    "steady": ["transit"],
    "hop-set": ["transit"],
    "dot": ["transit"],
    "figures": [],
    "unpack": [],
    "pack": [],
    "sweep": ["--sessions"],
    "check": [],
}


class Commands(InFolder):
    """The answer is that for a plan whose text has the change in it."""

    def setUp(self) -> None:
        super().setUp()
        write("changed.rrp", read(NET).replace("link lon-rr par-a 6", CHANGE))
        self.assertNotEqual(read("changed.rrp"), read(NET))

    def answer(self, *words: str) -> dict[str, object]:
        """What a command says as JSON, but for what says which plan it is."""
        values = json.loads(rrp(*words, "--json").output)
        for name in ("plan", "set"):
            values.pop(name, None)
        for each in values.get("by_plan", []):
            each.pop("plan")
        return values

    def test_answers_are_those_of_the_changed_plan(self) -> None:
        for command, words in COMMANDS.items():
            if command == "check":
                continue
            with self.subTest(command):
                changed = self.answer(command, NET, *words, "--set", CHANGE)
                self.assertEqual(changed, self.answer(command, "changed.rrp", *words))
                self.assertNotEqual(changed, self.answer(command, NET, *words))

    def test_every_answer_says_that_the_plan_is_changed(self) -> None:
        for command, words in COMMANDS.items():
            asked = [command, NET, *words, "--set", CHANGE]
            values = json.loads(rrp(*asked, "--json").output)
            self.assertEqual(values["set"], [CHANGE], command)
            if command == "pack":
                asked += ["-o", "out.plan"]
            answer = rrp(*asked)
            said = answer.output + answer.errors
            self.assertIn(f"with {CHANGE}\n", said.replace("\\n", "\n"), command)
            plain = rrp(command, NET, *words, "--json").output
            self.assertNotIn("set", json.loads(plain), command)

    def test_what_is_unpacked_with_a_change_packs_into_its_bytes(self) -> None:
        write("out.rrp", rrp("unpack", NET, "--set", CHANGE).output)
        self.assertEqual(Plan.read("out.rrp").data, Plan.read("changed.rrp").data)

    def test_commands_that_are_shown_keep_the_changes(self) -> None:
        change = "link par-rr fra-a 3"
        for words in (["show", NET, "transit"], ["hop-set", NET, "transit"], ["hop-set", NET]):
            output = rrp(*words, "--set", change).output
            shown = [line for line in output.splitlines() if "rrp check" in line]
            self.assertGreater(len(shown), 0)
            for line in shown:
                self.assertIn(f"{NET} --set '{change}' --set '", line)
        pair = "reflector lon-rr"
        output = rrp("show", f"{EXAMPLES}/hop.rrp", "--set", pair).output
        self.assertIn(f"hop.rrp --set '{pair}' transit\n", output)

    def test_several_plans_take_no_change(self) -> None:
        for command in ("check", "figures"):
            answer = rrp(command, NET, "changed.rrp", "--set", CHANGE)
            self.assertEqual((answer.status, answer.output), (2, ""), command)
            self.assertIn("--set changes one plan", answer.errors)


class Slips(unittest.TestCase):
    """One error for one slip."""

    def test_one_error_each(self) -> None:
        for change, message in (
            ("client lon-a hop-step", "client is no change"),
            ("client lon-a 10.0.1.1 of par-rr", "client is no change"),
            ("clent lon-a hop-step", "no statement starts with clent"),
            ("reflectr lon-rr hop-step", "no statement starts with reflectr"),
            ("mesh lon-rr nobody", "mesh is no change"),
            ("wide 12", "wide is no change"),
            ("links from links.csv", "links is no change"),
        ):
            with self.assertRaises(TextErrors) as raised:
                Plan.read(NET).changed(change)
            problems = raised.exception.problems
            self.assertEqual([each.message for each in problems], [message], change)


class InPython(unittest.TestCase):
    """`Plan.changed`."""

    def test_changed(self) -> None:
        plan = Plan.read(NET)
        changed = plan.changed(CHANGE, "session lon-rr man-a none")
        self.assertEqual(changed.changes, (CHANGE, "session lon-rr man-a none"))
        self.assertEqual((plan.changes, plan.distance("lon-rr", "par-a")), ((), 6))
        self.assertEqual(changed.distance("lon-rr", "par-a"), 12)
        self.assertNotIn("man-a", changed.neighbours("lon-rr"))
        self.assertEqual(changed.changed("list new lon-a").changes[-1], "list new lon-a")
        self.assertEqual(changed.with_hop_step(["lon-rr"]).changes, changed.changes)

    def test_one_after_the_other_is_both_at_once(self) -> None:
        plan, more = Plan.read(NET), "link fra-rr lon-a none"
        self.assertEqual(plan.changed(CHANGE).changed(more).data, plan.changed(CHANGE, more).data)

    def test_a_plan_in_bytes(self) -> None:
        plan = Plan.read(f"{EXAMPLES}/m3.plan").changed("distance r0 > r3 12")
        self.assertEqual((plan.distance("r0", "r3"), plan.verdict("l0").stable), (12, True))
        with self.assertRaises(TextErrors):
            plan.changed("link r0 r3 12")


if __name__ == "__main__":
    unittest.main()
