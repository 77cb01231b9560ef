"""Where to load the hop step: a smallest set of reflectors, and of these the lowest number; what
the commands say of it, all of which was tried."""

from __future__ import annotations

import json
import random
import re
import shlex
import unittest
from collections import Counter
from collections.abc import Iterable, Iterator
from itertools import combinations
from unittest import mock

from rrp import HopSet, Plan, Refused, RrpError, TooManyGrouped, library
from rrp.columns import width
from rrp.encoding import decode, encode, with_step
from rrp.hop_sets import Tried, none_needed, step_statements, tried_on

from .folders import InFolder, write
from .networks import random_network
from .support import EXAMPLES, FAULT, TESTS, read, rrp
from .test_roundtrip import random_model, stored_plans
from .test_steady import cycles, meshes, tangle

M3, NET, HOP = f"{EXAMPLES}/m3.plan", f"{EXAMPLES}/net.rrp", f"{EXAMPLES}/hop.rrp"
LOAD = f"{EXAMPLES}/load.rrp"
PLANS = f"{TESTS}/plans"
TWO = f"{PLANS}/two-pairs.rrp"
SENTENCE = "more than 12 routers lie in groups of two or more"
SET = "a smallest set of reflectors to load the hop step on"
NOT_ALL = "the fewest reflectors for all lists at once are not worked out"

#: Role 1 with the hop step is 4, and 3 is 5; the others stay.
STEP = {1: 4, 3: 5, 2: 2, 4: 4, 5: 5}

#: A cycle of a, b and c, and c relies on b too: a is in the cycle that is shown, and is not enough.
CHORD = """
distance a > ca 10
distance a > cb 6
distance b > cb 10
distance b > cc 6
distance c > cc 10
distance c > ca 6
distance c > cb 8
"""

#: Neighbours in a row of five rely on one another, and the one in the middle on the two ends too.
#: It relies on most routers, and a set with it needs three.
ROW = """
distance a > x 10
distance a > y 6
distance b > x 6
distance b > y 10
distance b > z 6
distance c > x 6
distance c > y 6
distance c > z 10
distance d > x 6
distance d > y 10
distance d > z 6
distance e > x 10
distance e > y 6
"""


def routers(letters: str, sessions: str) -> str:
    """The lines of reflectors named by letters, and of sessions named by two letters each."""
    lines = [f"reflector {letter} {place}" for place, letter in enumerate(letters, 1)]
    return "\n".join([*lines, *(f"session {pair[0]} {pair[1]}" for pair in sessions.split()), ""])


def stepped(plan: Plan, routers: Iterable[str]) -> Plan:
    """The plan with the hop step at some routers, by other roles of what it says."""
    chosen = {plan.router_number(router) for router in routers}
    roles = [STEP[role] if at in chosen else role for at, role in enumerate(plan.model.roles)]
    return Plan(encode(plan.model._replace(roles=roles)), plan.routers, plan.lists)


def serving(plan: Plan, name: str, among: Iterable[str], size: int) -> Iterator[tuple[str, ...]]:
    """The sets of so many routers that make a list stable once they have the hop step."""
    for routers in combinations(among, size):
        if stepped(plan, routers).verdict(name).stable:
            yield routers


def lists_of(draw: random.Random, plan: Plan) -> Plan:
    """The plan with more lists, of some of its clients each."""
    clients = [at for at, router in enumerate(plan.routers) if plan.role(router) == "client"]
    lists = [sorted(draw.sample(clients, draw.randint(2, len(clients)))) for _ in range(6)]
    return Plan(encode(plan.model._replace(lists=[*plan.model.lists, *lists])))


class Checked(InFolder):
    """Sets held against trying all others."""

    def check(self, plan: Plan, name: str) -> HopSet:
        """The set for a list: no smaller set of reflectors serves, anywhere in the plan, nor one of
        the same size with a lower number."""
        found, before = plan.hop_set(name), plan.verdict(name)
        self.assertEqual((found.name, found.grouped), (name, before.grouped))
        self.assertEqual(found.number, plan.hop_set_number(name))
        places = [found.grouped.index(router) for router in found.routers]
        self.assertEqual(sum(1 << place for place in places), found.number)
        self.assertEqual(found.verdict, stepped(plan, found.routers).verdict(name))
        self.assertTrue(found.verdict.stable)
        self.assertEqual(before.stable, found.number == 0)
        reflectors = [each for each in plan.routers if plan.role(each) == "reflector"]
        for size in range(len(found.routers)):
            self.assertEqual(list(serving(plan, name, reflectors, size)), [])
        alike = serving(plan, name, found.grouped, len(found.routers))
        numbers = [sum(1 << found.grouped.index(each) for each in routers) for routers in alike]
        self.assertEqual(found.number, min(numbers))
        return found


class Sets(Checked):
    """`Plan.hop_set`."""

    def number(self, text: str) -> int:
        """The number of the set for the list `all` of a plan, which is checked."""
        return self.check(Plan.parse(text), "all").number

    def test_small_networks(self) -> None:
        draw, sizes, lowest = random.Random(4456), Counter(), Counter()
        plans = [random_network(draw) for _ in range(120)]
        plans += [tangle(draw, size) for size in (3, 4, 5, 6) for _ in range(25)]
        for plan in plans:
            for name in plan.lists:
                found = self.check(plan, name)
                sizes[len(found.routers)] += 1
                lowest[found.number == (1 << len(found.routers)) - 1] += 1
        self.assertLessEqual({0, 1, 2, 3}, set(sizes))
        self.assertGreater(lowest[False], 10)

    def test_stored_plans(self) -> None:
        counts = Counter()
        for path, data in stored_plans():
            plan = Plan.from_bytes(data, path)
            for name in plan.lists[:4]:
                if len(plan.verdict(name).grouped) > 12:
                    self.assertRaises(TooManyGrouped, plan.hop_set, name)
                    continue
                found = plan.hop_set(name)
                if len(found.routers) < 3 and len(plan.routers) <= 16:
                    self.check(plan, name)
                counts[len(found.routers)] += 1
        self.assertLessEqual({0, 1}, set(counts))

    def test_m3(self) -> None:
        for plan in (Plan.read(M3), Plan.read(M3).widened()):
            found = self.check(plan, "l0")
            self.assertEqual((found.number, found.routers), (1, ("r0",)))
            self.assertEqual(found.statements, ("reflector r0 hop-step",))
            self.assertEqual(list(found.verdict.ranks.values()), [1, 2, 0, 0])
            self.assertEqual(self.check(plan, "l1")[1:5], (0, (), (), ()))

    def test_one_of_each_cycle(self) -> None:
        for size in (2, 3, 4, 7, 12):
            self.assertEqual(self.number(cycles(size)), 1, size)
        self.assertEqual(self.number(cycles(3, 4, 2)), 0b010001001)

    def test_all_but_one(self) -> None:
        for size in (2, 3, 4, 5):
            self.assertEqual(self.number(meshes(size)), 2 ** (size - 1) - 1, size)
        self.assertEqual(Plan.parse(meshes(12)).hop_set_number("all"), 2047)
        self.assertEqual(Plan.parse(meshes(3, 3, 3, 3)).hop_set_number("all"), 0o3333)

    def test_the_router_that_two_cycles_share(self) -> None:
        self.assertEqual(self.number(read(f"{PLANS}/two-cycles.rrp")), 2)

    def test_a_cycle_with_a_chord(self) -> None:
        clients = "client ca 4 of a\nclient cb 5 of b\nclient cc 6 of c\nlist all ca cb cc\n"
        text = routers("abc", "ab ac bc") + clients + CHORD
        self.assertEqual(Plan.parse(text).verdict("all").cycle, ("a", "b", "c"))
        self.assertEqual(self.number(text), 2)

    def test_not_the_one_that_relies_on_most(self) -> None:
        clients = "client x 6 of a e\nclient y 7 of b d\nclient z 8 of c\nlist all x y z\n"
        text = routers("abcde", "ab ac bc cd ce de") + clients + ROW
        plan = Plan.parse(text)
        counts = [len(plan.reliances("all", router)) for router in "abcde"]
        self.assertEqual(max(counts), counts[2])
        self.assertEqual(self.number(text), 0b01010)
        with_middle = [set(each) for each in serving(plan, "all", "abcde", 3) if "c" in each]
        self.assertIn({"a", "c", "d"}, with_middle)
        self.assertFalse(any("c" in each for each in serving(plan, "all", "abcde", 2)))

    def test_a_smaller_set_goes_before_a_lower_number(self) -> None:
        text = routers("abc", "ac bc") + "client x 4 of a b\nclient y 5 of c\nlist all x y\n"
        for router, own, other in (("a", "x", "y"), ("b", "x", "y"), ("c", "y", "x")):
            text += f"distance {router} > {own} 10\ndistance {router} > {other} 6\n"
        self.assertEqual(self.number(text), 4)

    def test_bits_are_of_routers_in_groups(self) -> None:
        found = self.check(Plan.read(f"{PLANS}/between.rrp"), "all")
        self.assertEqual((found.number, found.routers), (5, ("a", "c")))
        self.assertEqual(found.grouped, ("a", "b", "c", "d"))

    def test_reliances_on_listed_reflectors_stay(self) -> None:
        plan = Plan.read(f"{PLANS}/one-table.rrp")
        found = self.check(plan, "all")
        self.assertEqual(found.routers, ("a",))
        self.assertEqual(found.verdict.table["a"].egress, "e")
        changed = plan.with_hop_step(["a"])
        self.assertTrue(changed.relies("all", "a", "e"))
        self.assertFalse(changed.relies("all", "a", "b"))

    def test_names(self) -> None:
        named = Plan(Plan.read(M3).data, ["0", "ü", "二", "-"], ["1", "0"])
        self.assertEqual(named.hop_set("1").statements, ("reflector 0 hop-step",))
        self.assertEqual(named.hop_set("0").routers, ())
        with self.assertRaisesRegex(RrpError, "no list"):
            named.hop_set("2")


class Steps(unittest.TestCase):
    """`Plan.with_hop_step`, and the statements that do the same."""

    def test_only_roles_change(self) -> None:
        draw = random.Random(4456)
        for _ in range(60):
            model = random_model(draw)
            count = len(model.roles)
            chosen = draw.sample(range(count), draw.randint(0, count))
            roles = [STEP[role] if at in chosen else role for at, role in enumerate(model.roles)]
            changed = with_step(encode(model), chosen)
            self.assertEqual(decode(changed), model._replace(roles=roles))
            self.assertEqual(changed, encode(model._replace(roles=roles)))

    def test_plans(self) -> None:
        plan = Plan.parse(read(f"{PLANS}/roles.rrp"), "roles.rrp")
        changed = plan.with_hop_step(["a", "c", "d"])
        self.assertEqual(changed.model.roles[:5], [4, 1, 5, 4, 5])
        names = changed.routers, changed.lists, changed.source, changed.notes
        self.assertEqual(names, (plan.routers, plan.lists, plan.source, plan.notes))
        self.assertEqual(plan.with_hop_step([]).data, plan.data)
        self.assertEqual(plan.with_hop_step([0, 2]).data, plan.with_hop_step("ac").data)
        self.assertEqual(plan.widened().with_hop_step("a").narrowed().data[26], 4)

    def test_clients_have_none(self) -> None:
        plan = Plan.read(NET)
        with self.assertRaisesRegex(RrpError, "lon-a is a client, and only reflectors have"):
            plan.with_hop_step(["lon-rr", "lon-a"])
        with self.assertRaisesRegex(RrpError, "no router"):
            plan.with_hop_step(["nobody"])

    def test_statements(self) -> None:
        skips = "reflector fra-rr no-client-reflection hop-step"
        self.assertEqual(step_statements(Plan.read(NET), ["fra-rr"]), (skips,))
        for path in (NET, LOAD, M3, HOP, f"{PLANS}/roles.rrp", f"{PLANS}/thirteen.rrp"):
            plan = Plan.read(path)
            reflectors = [each for each in plan.routers if plan.role(each) == "reflector"]
            changed = plan.changed(*step_statements(plan, reflectors))
            self.assertEqual(changed.data, plan.with_hop_step(reflectors).data, path)

    def test_none_needed(self) -> None:
        self.assertEqual(none_needed(Plan.read(NET)), "no reflector")
        self.assertEqual(none_needed(Plan.read(HOP)), "no further reflector")


class Trials(unittest.TestCase):
    """What becomes of lists with the step at some reflectors."""

    def test_kinds(self) -> None:
        plan = Plan.read(LOAD)
        tried = tried_on(plan, ["lon-rr"], plan.lists)
        self.assertEqual(tried, ((), ("south", "all"), ("north",), ("paris",)))
        self.assertEqual(tried_on(plan, [], ["paris", "north"]), ((), ("north",), (), ("paris",)))
        without = Plan.read(HOP).model
        with mock.patch.object(Plan, "with_hop_step") as changed:
            changed.return_value = Plan(encode(without._replace(roles=[1, 1, 2, 2])))
            named = Plan(encode(without))
            self.assertEqual(tried_on(named, [], ["l0", "l1"]), (("l0",), (), (), ("l1",)))

    def test_words(self) -> None:
        self.assertEqual(Tried((), (), (), ()).words, "")
        self.assertEqual(Tried((), (), (), ("a", "b")).words, "2 stay stable")
        self.assertEqual(Tried((), (), ("a",), ("b",)).words, "1 becomes stable: a; 1 stays stable")
        words = "1 becomes suspect: a; 2 stay suspect: b, c; 1 becomes stable: d; 1 stays stable"
        self.assertEqual(Tried(("a",), ("b", "c"), ("d",), ("e",)).words, words)

    def test_no_list_becomes_suspect(self) -> None:
        draw, stable = random.Random(12), 0
        for plan in (random_network(draw) for _ in range(150)):
            reflectors = [each for each in plan.routers if plan.role(each) == "reflector"]
            chosen = draw.sample(reflectors, draw.randint(0, len(reflectors)))
            tried = tried_on(plan, chosen, plan.lists)
            self.assertEqual(tried.become_suspect, ())
            stable += len(tried.stay_stable)
            for name in plan.lists:
                pairs = [(one, other) for one in plan.routers for other in plan.routers]
                changed = plan.with_hop_step(chosen)
                more = [each for each in pairs if changed.relies(name, *each)]
                self.assertTrue(all(plan.relies(name, *each) for each in more))
        self.assertGreater(stable, 40)


class TooMany(InFolder):
    """More than 12 routers in groups of two or more."""

    def test_thirteen_and_twelve(self) -> None:
        self.assertEqual(Plan.parse(cycles(12)).hop_set_number("all"), 1)
        plan = Plan.parse(cycles(13), "ring.rrp")
        for call in (plan.hop_set, plan.hop_set_number):
            with self.assertRaises(TooManyGrouped) as caught:
                call("all")
            failure = caught.exception
            self.assertEqual((failure.number, failure.sentence), (15, SENTENCE))
            self.assertIn(f"ring.rrp: refused 15: {SENTENCE}\n", str(failure))
            counted = "the list all has 13 such routers: where to load the hop step is not worked"
            self.assertIn(counted, str(failure))

    def test_routers_in_no_group_do_not_count(self) -> None:
        text = cycles(6, 6) + "".join(f"reflector x{place} {place + 1}\n" for place in range(20))
        self.assertEqual(Plan.parse(text).hop_set_number("all"), 0b000001000001)

    def test_another_refusal_is_no_such_failure(self) -> None:
        plan = Plan.read(M3)
        with mock.patch.object(library, "hop_set", side_effect=Refused(8)):
            with self.assertRaises(Refused) as caught:
                plan.hop_set_number(0)
        self.assertNotIsInstance(caught.exception, TooManyGrouped)

    def test_a_list(self) -> None:
        write("ring.rrp", cycles(13))
        answer = rrp("hop-set", "ring.rrp", "all")
        self.assertEqual((answer.status, answer.output), (2, ""))
        self.assertIn(f"rrp: ring.rrp: refused 15: {SENTENCE}\n", answer.errors)
        self.assertIn("where to load the hop step is not worked out\n", answer.errors)
        (error,) = json.loads(rrp("hop-set", "ring.rrp", "all", "--json").output)["errors"]
        self.assertIn(f"refused 15: {SENTENCE}; the list all has 13 such", error["message"])
        self.assertIn("rrp show PLAN LIST", error["advice"])

    def test_all_lists(self) -> None:
        write("ring.rrp", cycles(13) + "list few ca0 ca1\n")
        answer = rrp("hop-set", "ring.rrp")
        self.assertEqual((answer.status, answer.errors[:5]), (1, "note:"))
        self.assertIn(f"all   suspect  not worked out: {SENTENCE} (13 do)\n", answer.output)
        self.assertIn("few   stable   no reflector needs it\n", answer.output)
        self.assertNotIn("named", answer.output)
        values = json.loads(rrp("hop-set", "ring.rrp", "--json").output)
        self.assertEqual([each["hop_set"] is None for each in values["lists"]], [True, False])
        self.assertEqual((values["named"], values["together"]["routers"]), ([], []))
        self.assertEqual(values["together"]["lists"]["stay_suspect"], ["all"])

    def test_one_list_of_two(self) -> None:
        pair = "reflector p 1\nreflector q 2\nsession p q\nclient cp 3 of p\nclient cq 4 of q\n"
        ways = [("p", "cp", 10), ("p", "cq", 6), ("q", "cq", 10), ("q", "cp", 6)]
        lines = [f"distance {one} > {other} {way}\n" for one, other, way in ways]
        write("two.rrp", "".join([cycles(13), pair, *lines, "list pair cp cq\n"]))
        output = rrp("hop-set", "two.rrp").output
        self.assertIn("\nrouter  lists that it is named for\np       1: pair\n", output)
        self.assertIn("named: 1 stays suspect: all; 1 becomes stable: pair\n", output)
        self.assertIn(NOT_ALL, output)

    def test_show(self) -> None:
        write("ring.rrp", cycles(13))
        lines = rrp("show", "ring.rrp", "all").output.splitlines()
        self.assertEqual(lines[-3], "")
        why = f"not worked out: {SENTENCE} (13 do)"
        self.assertEqual(lines[-2], f"where to load the hop step instead is {why}")
        self.assertTrue(lines[-1].startswith("   first end the cycle, "), lines[-1])
        values = json.loads(rrp("show", "ring.rrp", "all", "--json").output)
        self.assertIsNone(values["hop_set"])


class Wrong(unittest.TestCase):
    """No set is shown with which the list was not found stable."""

    def test_a_set_that_does_not_serve(self) -> None:
        for path, count in ((M3, 4), (f"{PLANS}/two-cycles.rrp", 8), (NET, 8)):
            plan = Plan.read(path)
            grouped = plan.verdict(0).grouped
            for number in range(2 * count):
                routers = [each for at, each in enumerate(grouped) if number >> at & 1]
                good = number < count and stepped(plan, routers).verdict(0).stable
                with mock.patch.object(library, "hop_set", return_value=number):
                    if good:
                        self.assertEqual(plan.hop_set(0).routers, tuple(routers))
                        continue
                    with self.assertRaisesRegex(RuntimeError, f"number {number} does not"):
                        plan.hop_set(0)

    def test_commands(self) -> None:
        for words in (["hop-set", M3, "0"], ["hop-set", M3], ["hop-set", M3, "--json"]):
            with mock.patch.object(library, "hop_set", return_value=0):
                answer = rrp(*words)
            self.assertEqual((answer.status, answer.output), (2, ""), words)
            self.assertIn(FAULT, answer.errors)


class Command(InFolder):
    """`rrp hop-set PLAN LIST`."""

    def test_suspect(self) -> None:
        answer = rrp("hop-set", LOAD, "south")
        lines = answer.output.splitlines()
        self.assertEqual((answer.status, lines[1]), (1, f"{SET}: par-rr"))
        self.assertEqual(lines[2][:42], "   tried: the list is then stable: highest")
        others = "2 become stable: north, all; 1 stays stable"
        self.assertEqual(lines[3], f"   tried on the other lists: {others}")
        self.assertTrue(lines[4].endswith(f"rrp check {LOAD} --set 'reflector par-rr hop-step'"))
        self.assertTrue(lines[5].startswith("no smaller set makes the list stable by the step; "))
        bits = "routers in groups of two or more count: par-rr 1, fra-rr 2"
        self.assertEqual(lines[6:], [f"the set's number is 1; {bits}"])

    def test_lists_that_stay_suspect_are_named(self) -> None:
        output = rrp("hop-set", LOAD, "north").output
        self.assertIn("other lists: 2 stay suspect: south, all; 1 stays stable\n", output)

    def test_no_other_list(self) -> None:
        self.assertNotIn("other lists", rrp("hop-set", TWO, "all").output)

    def test_stable(self) -> None:
        for path, name, who in ((NET, "peering", "no"), (HOP, "transit", "no further")):
            answer = rrp("hop-set", path, name)
            self.assertEqual(answer.status, 0)
            first, last = answer.output.splitlines()
            self.assertTrue(first.startswith(f"{name} is stable: "), first)
            self.assertEqual(last, f"{who} reflector needs the hop step for this list")

    def test_nobody(self) -> None:
        answer = rrp("hop-set", f"{EXAMPLES}/gone.rrp", "gone")
        self.assertEqual(answer.status, 0)
        self.assertIn("\nno reflector needs the hop step for this list\n", answer.output)

    def test_the_command_that_is_shown(self) -> None:
        for path, name in ((NET, "transit"), (LOAD, "all"), (M3, "l0"), (TWO, "all")):
            lines = rrp("hop-set", path, name).output.splitlines()
            words = [line.split(": ", 1)[1] for line in lines if "to judge it" in line][0]
            found = Plan.read(path).hop_set(name)
            self.assertEqual(shlex.split(words)[3::2], ["--set"] * len(found.routers))
            judged = json.loads(rrp(*shlex.split(words)[1:], "--json").output)
            (after,) = [each["after"] for each in judged["lists"] if each["list"] == name]
            values = json.loads(rrp("hop-set", path, name, "--json").output)["hop_set"]
            self.assertEqual((after["stable"], after), (True, values["then"]))
            self.assertEqual(shlex.split(words)[4::2], values["statements"])

    def test_who_ends_without_a_route(self) -> None:
        text = read(LOAD).replace("mesh lon-rr par-rr fra-rr", "session lon-rr par-rr")
        write("cut.rrp", text + "session par-rr fra-rr\n")
        told = "2 routers end without a route: fra-rr, fra-a\n"
        for words in (["hop-set", "cut.rrp", "north"], ["hop-set", "cut.rrp"]):
            self.assertIn(told, rrp(*words).output)
        self.assertIn(told, rrp("show", "cut.rrp", "north").output)

    def test_role_3_becomes_5(self) -> None:
        text = read(LOAD).replace("lon-rr 10.0.0.1", "lon-rr 10.0.0.1 no-client-reflection")
        write("skips.rrp", text)
        (statement,) = Plan.read("skips.rrp").hop_set("north").statements
        self.assertEqual(statement, "reflector lon-rr no-client-reflection hop-step")
        self.assertIn(f"--set '{statement}'\n", rrp("hop-set", "skips.rrp", "north").output)

    def test_long_names(self) -> None:
        text = re.sub(r"\br(\d\d)\b", r"reflector-of-site-\1", read(f"{PLANS}/twelve.rrp"))
        text = re.sub(r"\b([a-d]\d)\b", r"reflector-of-site-\1", text)
        write("long.rrp", text)
        lines = rrp("hop-set", "long.rrp", "all").output.splitlines()
        start = next(at for at, line in enumerate(lines) if line.startswith("the set's number"))
        self.assertGreater(len(lines) - start, 1)
        self.assertLessEqual(max(width(line) for line in lines[start:]), 110)

    def test_json(self) -> None:
        values = json.loads(rrp("hop-set", LOAD, "south", "--json").output)
        due = ["plan", "list", "routers", "stable", "cycle", "groups", "hop_set", "notes"]
        self.assertEqual(list(values), due)
        found = values["hop_set"]
        self.assertEqual((found["routers"], found["number"]), (["par-rr"], 1))
        self.assertEqual(found["grouped"], ["par-rr", "fra-rr"])
        self.assertEqual(found["statements"], ["reflector par-rr hop-step"])
        self.assertEqual(found["other_lists"]["become_stable"], ["north", "all"])
        stable = json.loads(rrp("hop-set", LOAD, "paris", "--json").output)
        found = stable["hop_set"]
        self.assertEqual((found["routers"], found["number"], found["statements"]), ([], 0, []))
        self.assertEqual(found["then"]["highest_rank"], stable["highest_rank"])
        self.assertEqual(found["other_lists"]["stay_suspect"], ["north", "south", "all"])

    def test_notes(self) -> None:
        asked = "hop-set", f"{PLANS}/between.rrp"
        for words in (asked, (*asked, "all")):
            (note,) = json.loads(rrp(*words, "--json").output)["notes"]
            self.assertEqual(rrp(*words).errors, f"note: {note}\n")


class AllLists(InFolder):
    """`rrp hop-set PLAN`."""

    def test_named(self) -> None:
        answer = rrp("hop-set", LOAD)
        self.assertEqual(answer.status, 1)
        counts = "\n\nrouter  lists that it is named for\nlon-rr  1: north\npar-rr  2: south, all\n"
        self.assertIn(counts, answer.output)
        self.assertIn(f"\neach set is for its own list: {NOT_ALL}\n", answer.output)
        tried = "every router named: 3 become stable: north, south, all; 1 stays stable\n"
        self.assertIn(tried, answer.output)
        both = "--set 'reflector lon-rr hop-step' --set 'reflector par-rr hop-step'\n"
        self.assertTrue(answer.output.endswith(both))

    def test_the_union_is_not_the_answer(self) -> None:
        plan = Plan.read(LOAD)
        self.assertEqual(tried_on(plan, ["par-rr"], plan.lists).stay_suspect, ())
        values = json.loads(rrp("hop-set", LOAD, "--json").output)
        self.assertEqual(values["together"]["routers"], ["lon-rr", "par-rr"])

    def test_where_one_set_has_them_all(self) -> None:
        write("one.rrp", read(LOAD).replace("list north", "list north-and-fra fra-a"))
        output = rrp("hop-set", "one.rrp").output
        self.assertNotIn(NOT_ALL, output)
        self.assertIn("\npar-rr  3: north-and-fra, south, all\n", output)

    def test_stable(self) -> None:
        for path, who in ((HOP, "no further"), (f"{EXAMPLES}/gone.rrp", "no")):
            answer = rrp("hop-set", path)
            self.assertEqual(answer.status, 0)
            cells = [re.split("  +", row)[1:] for row in answer.output.splitlines()[2:]]
            self.assertEqual(cells, [["stable", f"{who} reflector needs it"]] * 2)

    def test_random_networks(self) -> None:
        draw, several = random.Random(4456), 0
        for plan in (lists_of(draw, tangle(draw, 5)) for _ in range(30)):
            with open("x.plan", "wb") as file:
                file.write(plan.data)
            values = json.loads(rrp("hop-set", "x.plan", "--json").output)
            sets = {each["list"]: each["hop_set"]["routers"] for each in values["lists"]}
            self.assertEqual(sets, {name: list(plan.hop_set(name).routers) for name in plan.lists})
            named = {each["router"]: each["lists"] for each in values["named"]}
            for router in plan.routers:
                due = [name for name in plan.lists if router in sets[name]]
                self.assertEqual(named.get(router, []), due)
            for each in values["named"]:
                self.assertEqual(each["count"], len(each["lists"]))
            tried = values["together"]["lists"]
            self.assertEqual(tried["stay_suspect"] + tried["become_suspect"], [])
            largest = max(map(len, sets.values()))
            several += len(named) > largest
            self.assertEqual(NOT_ALL in rrp("hop-set", "x.plan").output, len(named) > largest)
        self.assertGreater(several, 2)
        self.assertLess(several, 30)

    def test_json(self) -> None:
        values = json.loads(rrp("hop-set", LOAD, "--json").output)
        due = ["plan", "mark", "sizes", "lists", "named", "together", "notes"]
        self.assertEqual(list(values), due)
        self.assertEqual([each["hop_set"]["number"] for each in values["lists"]], [1, 1, 2, 0])
        due = {"router": "par-rr", "lists": ["south", "all"], "count": 2}
        self.assertEqual(values["named"][1], due)
        statements = ["reflector lon-rr hop-step", "reflector par-rr hop-step"]
        self.assertEqual(values["together"]["statements"], statements)

    def test_statuses(self) -> None:
        self.assertEqual(rrp("hop-set", NET, "nothing").status, 2)
        self.assertEqual(rrp("hop-set").status, 2)
        self.assertEqual(rrp("hop-set", "missing.rrp").status, 2)
        self.assertEqual(rrp("hop-set", NET, "transit", "peering").status, 2)


class Shown(InFolder):
    """`rrp show` of a suspect list ends with the set."""

    def last(self, path: str, name: str) -> list[str]:
        """The lines after the last that is empty."""
        lines = rrp("show", path, name).output.splitlines()
        return lines[len(lines) - lines[::-1].index("") :]

    def test_lines(self) -> None:
        for path, name in ((NET, "transit"), (LOAD, "north"), (TWO, "all")):
            first, *more = self.last(path, name)
            found = Plan.read(path).hop_set(name)
            self.assertEqual(first, f"{SET} instead: {', '.join(found.routers)}")
            answer = rrp("hop-set", path, name).output
            self.assertTrue(more)
            self.assertIn("\n".join(["", *more, ""]), answer)

    def test_stable_lists_have_none(self) -> None:
        for path, name in ((NET, "peering"), (HOP, "transit")):
            self.assertNotIn("hop step", rrp("show", path, name).output)
            self.assertNotIn("hop_set", rrp("show", path, name, "--json").output)
        self.assertNotIn("hop step", rrp("show", NET).output)

    def test_json(self) -> None:
        for path, name in ((NET, "transit"), (LOAD, "north"), (M3, "l0")):
            shown = json.loads(rrp("show", path, name, "--json").output)
            due = json.loads(rrp("hop-set", path, name, "--json").output)
            self.assertEqual(shown["hop_set"], due["hop_set"])

    def test_a_list_that_becomes_suspect_would_be_said(self) -> None:
        def worse(plan: Plan, routers: list[str], lists: Iterable[str]) -> Tried:
            return Tried(tuple(lists), (), (), ())

        with mock.patch("rrp.hop_sets.tried_on", worse):
            for command in ("show", "hop-set"):
                answer = rrp(command, NET, "transit")
                said = "tried on the other lists: 2 become suspect: peering, customer\n"
                self.assertIn(said, answer.output)


if __name__ == "__main__":
    unittest.main()
