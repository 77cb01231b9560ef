"""`rrp check --set`: what is said to change is what changes, router by router; and who ends without
a route."""

from __future__ import annotations

import json
import random
import re
import tempfile
import unittest

from rrp import Plan, encoding
from rrp.effects import Effect, effect, effect_on
from rrp.output import without_route_lines

from .networks import random_network
from .support import EXAMPLES, STORED_PLANS, TESTS, rrp

NET = f"{EXAMPLES}/net.rrp"
LEFT_OUT = f"{TESTS}/plans/left-out.rrp"

#: What is said of a list that is suspect with the same cycle before a change and after it.
NOT_COMPARED = "routes are not compared: a suspect list has no settled table"

#: What is said of a list without a table to rest in.
NEVER = "rests in no table: its routers never come to rest"


def varied(plan: Plan, draw: random.Random) -> Plan:
    """The plan with a few other distances, a session less, a reflector of another role, or another
    list, perhaps of nobody."""
    model = encoding.decode(plan.data)
    routers = range(len(model.roles))
    for _ in range(draw.choice([0, 1, 3])):
        start, end = draw.sample(routers, 2)
        model.distances[start][end] = draw.choice([None, *range(12)])
    if draw.random() < 0.3:
        model.sessions.remove(draw.choice(model.sessions))
    if draw.random() < 0.3:
        reflectors = [each for each in routers if model.roles[each] != encoding.CLIENT]
        model.roles[draw.choice(reflectors)] = draw.choice([*encoding.REFLECTORS.values()])
    if draw.random() < 0.3:
        model.lists[0] = sorted(draw.sample(routers, draw.choice([0, 2, 2, 2])))
    return Plan(encoding.encode(model), plan.routers, plan.lists)


def effects(count: int) -> list[Effect]:
    """What variations do to the lists of random networks."""
    draw, found = random.Random(4456), []
    for _ in range(count):
        plan = random_network(draw)
        pairs = zip(plan.verdicts(), varied(plan, draw).verdicts())
        found += [effect(*pair) for pair in pairs]
    return found


def number(words: str, lines: list[str]) -> int:
    """How many routers are said to do something."""
    found = [re.match(rf"(\d+) routers? {words}", line) for line in lines]
    return sum(int(each.group(1)) for each in found if each)


class Effects(unittest.TestCase):
    """Against the two tables themselves."""

    def test_as_before_says_that_nothing_changes(self) -> None:
        seen = set()
        for found in effects(900):
            before, after = found.before, found.after
            parts = [(each.ranks, each.table, each.cycle, each.groups) for each in (before, after)]
            same = parts[0] == parts[1]
            self.assertEqual(found.label == "as before", same and after.stable)
            unknown = same and not after.stable
            self.assertEqual(found.values()["as_before"], None if unknown else same)
            if same:
                lacking = without_route_lines(after)
                lines = [line for line in found.lines() if line not in lacking]
                self.assertEqual(lines, [] if after.stable else [NOT_COMPARED])
                self.assertTrue(after.stable or found.label == "same cycle")
            seen.add((before.stable, after.stable, found.label, same))
        labels = {"as before", "same verdict", None}
        self.assertLessEqual({(True, True, label) for label in labels}, {each[:3] for each in seen})
        suspect = {(False, False, "same cycle", same) for same in (False, True)}
        self.assertLessEqual(suspect, seen)

    def test_every_router_that_moves_is_named(self) -> None:
        kinds = set()
        for found in effects(400):
            if found.moved is None:
                self.assertFalse(found.before.stable and found.after.stable)
                self.assertIsNone(found.values()["routes"])
                continue
            kinds |= self.hold_routes(found)
        self.assertEqual(kinds, {"egress", "lost", "gained", "sender"})

    def hold_routes(self, found: Effect) -> set[str]:
        """The routes that change are those of the tables. Returns the kinds that occur."""
        due = {"egress": [], "lost": [], "gained": [], "sender": []}
        for router, old in found.before.table.items():
            new = found.after.table[router]
            if new is None and old is not None:
                due["lost"].append(router)
            elif old is None and new is not None:
                due["gained"].append(router)
            elif old is not None and old.egress != new.egress:
                due["egress"].append(router)
            elif old is not None and old.sender != new.sender:
                due["sender"].append(router)
        routes, lines = found.values()["routes"], found.lines()
        said = {kind: [each["router"] for each in some] for kind, some in routes.items()}
        self.assertEqual(said, due)
        verbs = ("changes? egress", "loses?", "gains?", "keeps?")
        for verb, routers in zip(verbs, due.values()):
            self.assertEqual(number(verb, lines), len(routers), lines)
            for router in routers:
                self.assertRegex("\n".join(lines), rf"\b{router}\b")
        return {kind for kind, routers in due.items() if routers}

    def test_ranks_that_change_are_named(self) -> None:
        changed = 0
        for found in effects(200):
            if found.ranked is not None:
                old, new = found.before.ranks, found.after.ranks
                due = [(each, old[each], new[each]) for each in new if old[each] != new[each]]
                self.assertEqual(found.ranked, due)
                self.assertEqual(number("changes? rank", found.lines()), len(due))
                changed += bool(due)
        self.assertGreater(changed, 10)


class Command(unittest.TestCase):
    """What the command says of the bundled plan."""

    def judged(self, *changes: str) -> dict[str, dict]:
        """The lists of the bundled plan with changes, by name."""
        words = [word for change in changes for word in ("--set", change)]
        answer = json.loads(rrp("check", NET, *words, "--json").output)
        return {each.pop("list"): each for each in answer["lists"]}

    def test_the_text_has_the_facts_of_the_json(self) -> None:
        changes = ["link lon-b man-a none", "session lon-rr man-a none", "list peering lon-a"]
        for change in [*changes, "reflector par-rr hop-step", "reflector fra-rr hop-step"]:
            text = rrp("check", NET, "--set", change).output
            plan, changed = self.plans(change)
            for name, values in self.judged(change).items():
                found = effect_on(name, plan, changed)
                self.assertEqual((found.before, found.after.name), (plan.verdict(name), name))
                self.assertEqual(json.loads(json.dumps(found.values())), values)
                for line in found.lines():
                    self.assertIn(f" {line}\n", text)

    def plans(self, change: str) -> tuple[Plan, Plan]:
        """The bundled plan before a change and after it."""
        plan = Plan.read(NET)
        return plan, plan.changed(change)

    def test_a_cut_link_moves_routers_though_the_verdict_is_the_same(self) -> None:
        customer = self.judged("link lon-b man-a none")["customer"]
        self.assertTrue(customer["same_verdict"])
        self.assertFalse(customer["as_before"])
        self.assertEqual(len(customer["routes"]["egress"]), 7)
        text = rrp("check", NET, "--set", "link lon-b man-a none").output
        self.assertRegex(text, "customer  same verdict  stable: .*\n +7 routers change egress:\n")
        self.assertIn("  from man-a to mrs-a: lon-rr, fra-rr, lon-a, lon-b, fra-a, ", text)

    def test_a_lost_session_takes_a_route_away(self) -> None:
        peering = self.judged("session lon-rr man-a none")["peering"]
        self.assertEqual([each["router"] for each in peering["routes"]["lost"]], ["man-a"])
        text = rrp("check", NET, "--set", "session lon-rr man-a none").output
        lost = "1 router loses its route: man-a\n"
        self.assertRegex(text, f"peering   same verdict  stable: .*\n +{lost}")

    def test_a_new_list_has_nothing_to_compare(self) -> None:
        new = self.judged("list new fra-a")["new"]
        self.assertEqual((new["before"], new["routes"], new["as_before"]), (None, None, False))
        self.assertIsNone(new["members"])

    def test_a_suspect_list_is_never_as_before(self) -> None:
        for change, members, lines in (
            ("session lon-rr man-a none", [[], []], []),
            ("list transit lon-a par-a fra-a", [[], []], []),
            ("list transit lon-a par-a fra-a muc-a", [["muc-a"], []], ["added to the list: muc-a"]),
        ):
            transit = self.judged(change)["transit"]
            self.assertEqual((transit["same_verdict"], transit["as_before"]), (True, None), change)
            self.assertEqual(list(transit["members"].values()), members)
            found = effect_on("transit", *self.plans(change))
            self.assertEqual(found.label, "same cycle")
            self.assertEqual(found.lines(), [NEVER, *lines, NOT_COMPARED])

    def test_members_are_told_where_no_routes_are_compared(self) -> None:
        found = effect_on("transit", *self.plans("list transit lon-a par-b"))
        self.assertIsNone(found.label)
        told = ["added to the list: par-b", "taken from the list: par-a, fra-a"]
        self.assertEqual(found.lines(), told)
        found = effect_on("peering", *self.plans("list peering lon-b fra-a"))
        self.assertEqual(found.members, (("fra-a",), ("fra-b",)))
        self.assertNotIn("the list: ", " ".join(found.lines()))


class WithoutRoute(unittest.TestCase):
    """Routers that a stable list leaves without a route."""

    def test_all_are_named(self) -> None:
        draw, lacking = random.Random(4456), 0
        plans = [random_network(draw) for _ in range(60)]
        for verdict in (each for plan in plans for each in plan.verdicts()):
            if not verdict.stable:
                self.assertIsNone(verdict.without_route)
                continue
            due = tuple(router for router in verdict.ranks if verdict.table[router] is None)
            self.assertEqual(verdict.without_route, due)
            lacking += bool(due) and not verdict.nobody
        self.assertGreater(lacking, 5)

    def test_check_names_them(self) -> None:
        answer = rrp("check", f"{STORED_PLANS}/no-way-from-0-to-3.plan")
        self.assertIn("    2 routers end without a route: r0, r2\n", answer.output)
        lists = json.loads(rrp("check", LEFT_OUT, "--json").output)["lists"]
        self.assertEqual([each["without_route"] for each in lists], [["z"], []])

    def test_show_names_them_under_their_list(self) -> None:
        lines = rrp("show", LEFT_OUT).output.splitlines()
        due = ["one   stable   x", "               1 router ends without a route: z"]
        self.assertEqual(lines[2:5], [*due, "two   stable   x, z"])
        lines = rrp("show", LEFT_OUT, "one").output.splitlines()
        self.assertIn("1 router ends without a route: z", lines)

    def test_a_run_that_stays_names_them_last(self) -> None:
        said = "1 router ends without a route: z."
        self.assertTrue(rrp("run", LEFT_OUT, "one").output.endswith(f"\n{said}\n"))
        values = json.loads(rrp("run", LEFT_OUT, "one", "--json").output)
        self.assertTrue(values["sentence"].endswith(f" rounds. {said}"))
        for words in (["two"], ["one", "--rounds", "0"], ["one", "--order", "z"]):
            self.assertNotIn("without a route", rrp("run", LEFT_OUT, *words).output, words)

    def test_a_suspect_list_at_rest_names_them_too(self) -> None:
        with tempfile.TemporaryDirectory() as folder:
            path = f"{folder}/lone.rrp"
            with open(path, "w", encoding="utf-8") as file:
                file.write(f"{rrp('unpack', f'{EXAMPLES}/m3.plan').output}client lone 50\n")
            lines = rrp("run", path, "l0", "--order", "r1,r0,r2,r3,lone").output.splitlines()
        self.assertTrue(lines[-4].startswith("at rest after "), lines)
        self.assertEqual(lines[-2], "1 router ends without a route: lone.")

    def test_strict(self) -> None:
        meshed = ["--set", "session x z"]
        suspect = ["check", NET]
        for words, status in (
            (["check", LEFT_OUT], 0),
            (["check", LEFT_OUT, "--strict"], 1),
            (["check", LEFT_OUT, "--strict", "--set", "session y z"], 1),
            (["check", LEFT_OUT, "--strict", *meshed], 0),
            ([*suspect, "--strict"], 1),
            ([*suspect, "--set", "link lon-rr par-a 12", "--strict"], 0),
        ):
            for json_word in ([], ["--json"]):
                self.assertEqual(rrp(*words, *json_word).status, status, words)


if __name__ == "__main__":
    unittest.main()
