"""`rrp show`: the changes that make a suspect list stable, held against trying them all."""

from __future__ import annotations

import json
import random
import re
import shlex
import unittest
from itertools import permutations

from rrp import Plan, library
from rrp.candidates import WeightChange
from rrp.remedies import Change
from rrp.repairs import Repairs, find_repairs

from .networks import random_links, random_network
from .support import EXAMPLES, STORED_PLANS, TESTS, rrp

PAIRS = f"{EXAMPLES}/pairs.rrp"

SUSPECT = (
    (f"{EXAMPLES}/net.rrp", "transit"),
    (PAIRS, "transit"),
    (f"{EXAMPLES}/m3.plan", "l0"),
    (f"{EXAMPLES}/wide.rrp", "transit"),
    (f"{EXAMPLES}/rest.rrp", "transit"),
    (f"{EXAMPLES}/load.rrp", "all"),
    (f"{TESTS}/plans/reasons.rrp", "tie"),
    (f"{TESTS}/plans/far.rrp", "all"),
    (f"{TESTS}/plans/skipped.rrp", "all"),
    (f"{TESTS}/plans/thirteen.rrp", "all"),
    (f"{TESTS}/plans/two-pairs.rrp", "all"),
    (f"{STORED_PLANS}/cycle-of-four.plan", "l0"),
    (f"{STORED_PLANS}/role-3.plan", "l4"),
)


def suspects(plan: Plan) -> list[tuple[Repairs, str]]:
    """What is found for each suspect list of a plan."""
    lists = [verdict for verdict in plan.verdicts() if not verdict.stable]
    return [(find_repairs(plan, each), each.name) for each in lists]


def stable(plan: Plan, name: str) -> bool:
    """Whether a list is stable."""
    return library.verdict(plan.data, plan.list_number(name)).stable


def every_distance(plan: Plan, name: str) -> list[int]:
    """The sizes of all changes of one distance, to no way or to a number up to 15, that make a list
    stable."""
    sizes = []
    for start, end in permutations(plan.routers, 2):
        was = plan.distance(start, end)
        for value in (*range(16), None):
            change = Change(start, end, was, value)
            if value != was and stable(change.applied(plan), name):
                sizes.append(change.size)
    return sizes


def every_weight(plan: Plan, name: str) -> list[int]:
    """The sizes of all changes of one weight to a number up to 45 that make a list stable."""
    sizes, links = [], plan.draft.links
    for (start, end), way in links.items():
        back = links.get((end, start))
        one_way = back is None or back.value != way.value
        if one_way or start < end:
            for value in range(1, 46):
                change = WeightChange(start, end, one_way, way.value, value)
                if value != way.value and stable(plan.changed(change.statement), name):
                    sizes.append(change.size)
    return sizes


class Shown(unittest.TestCase):
    """What `rrp show` has, applied as `rrp check --set` applies it."""

    def found(self, path: str, name: str) -> dict:
        """The repairs that JSON has."""
        answer = rrp("show", path, name, "--json")
        self.assertEqual(answer.status, 1)
        return json.loads(answer.output)["repairs"]

    def test_each_is_as_judged(self) -> None:
        for path, name in SUSPECT:
            found = self.found(path, name)
            self.assertTrue(found["single"] or found["pairs"], path)
            for repair in found["single"] + found["pairs"]:
                statements = [change["statement"] for change in repair["changes"]]
                words = [word for each in statements for word in ("--set", each)]
                judged = json.loads(rrp("check", path, *words, "--json").output)
                self.hold(judged["lists"], name, repair)

    def hold(self, lists: list[dict], name: str, repair: dict) -> None:
        """The verdicts for all lists are those that the repair has."""
        (after,) = [each["after"] for each in lists if each["list"] == name]
        self.assertEqual(after, repair["then"])
        self.assertTrue(after["stable"])
        became = {(True, False): "become_suspect", (False, False): "stay_suspect"}
        became |= {(False, True): "become_stable", (True, True): "stay_stable"}
        due: dict[str, list[str]] = {kind: [] for kind in became.values()}
        for each in (each for each in lists if each["list"] != name):
            due[became[each["before"]["stable"], each["after"]["stable"]]].append(each["list"])
        self.assertEqual(repair["other_lists"], due)

    def test_weights_where_there_are_links(self) -> None:
        for path, name in SUSPECT:
            kind = "weights" if Plan.read(path).draft.links else "distances"
            found = self.found(path, name)
            self.assertEqual(found["of"], kind)
            for repair in found["single"] + found["pairs"]:
                for change in repair["changes"]:
                    word = "link" if kind == "weights" else "distance"
                    self.assertEqual(change["statement"].split()[0], word)

    def test_the_text_has_the_same(self) -> None:
        for path, name in SUSPECT:
            found, text = self.found(path, name), rrp("show", path, name).output
            for repair in found["single"] + found["pairs"]:
                statements = [change["statement"] for change in repair["changes"]]
                words = " and ".join(
                    f"{each['statement']} (now {'none' if each['was'] is None else each['was']})"
                    for each in repair["changes"]
                )
                command = ["rrp", "check", path]
                command += [word for each in statements for word in ("--set", each)]
                self.assertIn(f". {words}\n   tried: the list is then stable: ", text)
                self.assertIn(f"routes too: {shlex.join(command)}\n", text)
            count = f"{found['tried']:,} that matter were tried"
            self.assertIn(count, text)

    def test_of_a_changed_plan(self) -> None:
        before = ["link lon-rr lon-b 11", "link lon-rr par-a 8"]
        words = [word for each in before for word in ("--set", each)]
        text = rrp("show", f"{EXAMPLES}/net.rrp", "transit", *words).output
        commands = re.findall("routes too: rrp (.*)\n", text)
        self.assertEqual(len(commands), 4)
        self.assertIn(". link lon-rr par-a 10 (now 8)\n", text)
        for command in commands:
            judged = json.loads(rrp(*shlex.split(command), "--json").output)
            self.assertEqual((judged["changes"][:2], len(judged["changes"])), (before, 3))
            self.assertTrue(judged["lists"][0]["after"]["stable"])

    def test_recommended_is_the_first_single_one(self) -> None:
        for path, name in SUSPECT:
            shown = json.loads(rrp("show", path, name, "--json").output)
            single = shown["repairs"]["single"]
            due = single[0]["changes"][0]["statement"] if single else None
            self.assertEqual(shown["recommended"], due)


class Single(unittest.TestCase):
    """One change: it is found if there is one, and none is smaller."""

    def hold(self, repairs: Repairs, sizes: list[int]) -> None:
        """The repairs are those of all changes that serve, by their sizes."""
        self.assertTrue(repairs.all_tried)
        self.assertEqual(bool(repairs.single), bool(sizes))
        for repair in repairs.single:
            self.assertIn(repair.changes[0].size, sizes)
        clean = [each for each in repairs.single if each.order[:2] == (0, 0)]
        if clean:
            self.assertGreaterEqual(clean[0].changes[0].size, min(sizes))

    def test_distances(self) -> None:
        draw, served = random.Random(4456), []
        while len(served) < 30:
            plan = random_network(draw)
            for repairs, name in suspects(plan):
                sizes = every_distance(plan, name)
                self.hold(repairs, sizes)
                served.append(bool(sizes))
        self.assertEqual(set(served), {True, False})

    def test_weights(self) -> None:
        draw, served = random.Random(4456), 0
        while served < 20:
            plan = Plan.parse(random_links(draw, draw.random() < 0.2))
            for repairs, name in suspects(plan):
                sizes = every_weight(plan, name)
                self.hold(repairs, sizes)
                served += bool(sizes)

    def test_the_smallest_without_harm(self) -> None:
        draw, count = random.Random(4456), 0
        while count < 10:
            text = random_links(draw)
            alone = [line for line in text.splitlines() if line.split()[:1] != ["list"]]
            for line in (line for line in text.splitlines() if line.startswith("list ")):
                plan = Plan.parse("\n".join([*alone, line]))
                for repairs, name in suspects(plan):
                    sizes = every_weight(plan, name)
                    if repairs.single and not repairs.single[0].verdict.without_route:
                        self.assertEqual(repairs.single[0].changes[0].size, min(sizes))
                        count += 1


class Pairs(unittest.TestCase):
    """Two changes where one does not serve."""

    def test_paired_reflectors(self) -> None:
        plan = Plan.read(PAIRS)
        ((repairs, name),) = suspects(plan)
        self.assertEqual((repairs.single, every_weight(plan, name)), ((), []))
        self.assertEqual(len(repairs.pairs), 3)
        self.assertTrue(all(len(each.changes) == 2 for each in repairs.pairs))
        text = rrp("show", PAIRS, name).output
        self.assertIn("no change of one weight makes the list stable: all ", text)
        self.assertIn("\ntwo weights do; ", text)

    def test_another_list_made_suspect_is_told(self) -> None:
        draw, seen = random.Random(4456), set()
        for _ in range(300):
            for repairs, _ in suspects(Plan.parse(random_links(draw))):
                for repair in repairs.single:
                    lines = repair.lines("plan")
                    told = re.search("becomes? suspect: l", "\n".join(lines))
                    self.assertEqual(told is not None, repair.harms)
                    seen.add(repair.harms)
                harmed = bool(repairs.single) and repairs.single[0].harms
                said = " makes the list stable and another list suspect; all "
                self.assertEqual(said in repairs.lines("plan")[0], harmed)
                self.assertEqual(repairs.pairs_sought, harmed or not repairs.single)
        self.assertEqual(seen, {True, False})


class Bounds(unittest.TestCase):
    """How much is tried, and what is said of it."""

    def test_what_is_left_out_is_told(self) -> None:
        plan = Plan.read(PAIRS)
        repairs = find_repairs(plan, plan.verdict("transit"), 20)
        self.assertEqual((repairs.tried, repairs.all_tried), (20, False))
        self.assertLessEqual(repairs.pairs_tried, 20)
        self.assertFalse(repairs.all_pairs_tried)
        lines = repairs.lines("plan")
        self.assertIn("the 20 smallest that matter were tried", lines[0])
        self.assertTrue(lines[1].startswith("no two weights that were tried do: "), lines[1])
        self.assertIn("show the list again", lines[2])

    def test_most_single_changes(self) -> None:
        plan = Plan.read(f"{EXAMPLES}/net.rrp")
        due = find_repairs(plan, plan.verdict("transit"))
        for most, all_tried in ((due.tried, True), (due.tried - 1, False)):
            repairs = find_repairs(plan, plan.verdict("transit"), most)
            self.assertEqual((repairs.tried, repairs.all_tried), (most, all_tried))


if __name__ == "__main__":
    unittest.main()
