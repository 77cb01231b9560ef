"""Whether any egress list can make a plan suspect: the library's answer against all lists of small
plans, and what the commands say of it."""

from __future__ import annotations

import json
import random
import unittest
from collections import Counter
from itertools import combinations
from unittest import mock

from rrp import EveryList, Plan, encoding, library
from rrp.always import always_words, statement_of
from rrp.plan import NO, UNDECIDED, YES

from .folders import InFolder, write
from .networks import random_network
from .support import EXAMPLES, TESTS, rrp
from .test_roundtrip import stored_plans
from .test_steady import cycles
from .test_sweep import FRAGILE

M3, NET, HOP = f"{EXAMPLES}/m3.plan", f"{EXAMPLES}/net.rrp", f"{EXAMPLES}/hop.rrp"
UNDECIDED_PLAN = f"{TESTS}/plans/undecided.rrp"
SOME_MAY_EXIST = "undecided: no list found that makes this plan suspect; some may exist"
NONE_CAN = "no egress list can make this plan suspect"


def with_lists(plan: Plan, lists: list[list[int]]) -> bytes:
    """The bytes of a plan with other lists."""
    return encoding.encode(plan.model._replace(lists=lists))


def clients(plan: Plan) -> list[int]:
    """The clients of a plan."""
    return [number for number, role in enumerate(plan.model.roles) if role == encoding.CLIENT]


def suspect_lists(plan: Plan, numbers: list[int]) -> list[tuple[int, ...]]:
    """All lists of some routers that make a plan suspect, by judging each."""
    every = [list(each) for size in range(len(numbers) + 1) for each in combinations(numbers, size)]
    found = []
    for start in range(0, len(every), library.MAX_LISTS):
        part = every[start : start + library.MAX_LISTS]
        data = with_lists(plan, part)
        verdicts = (library.verdict(data, number) for number in range(len(part)))
        found += [tuple(each) for each, one in zip(part, verdicts) if not one.stable]
    return found


def single(plan: Plan) -> bool:
    """Whether no client has two reflectors."""
    parents = Counter()
    for one, other in plan.model.sessions:
        roles = plan.model.roles[one], plan.model.roles[other]
        if encoding.CLIENT in roles and roles != (encoding.CLIENT, encoding.CLIENT):
            parents[other if roles[1] == encoding.CLIENT else one] += 1
    return max(parents.values(), default=0) < 2


class Answers(unittest.TestCase):
    """`Plan.every_list`."""

    def check(self, plan: Plan) -> str:
        """The answer is right of all lists of clients: a yes of each, and the list of a no is one
        of those that are suspect."""
        found = plan.every_list()
        suspect = suspect_lists(plan, clients(plan))
        if found.answer == NO:
            numbers = tuple(plan.router_number(name) for name in found.routers)
            self.assertEqual(numbers, tuple(sorted(set(numbers))))
            self.assertIn(numbers, suspect)
        else:
            self.assertEqual(found.routers, ())
        if found.answer == YES or single(plan):
            self.assertEqual(found.answer == YES, not suspect)
            self.assertNotEqual((found.answer, single(plan)), (UNDECIDED, True))
        return found.answer

    def test_all_lists_of_small_plans(self) -> None:
        draw, counts = random.Random(4456), Counter()
        for _ in range(150):
            plan = random_network(draw)
            counts[self.check(plan), single(plan)] += 1
        for answer in (YES, NO):
            for alone in (True, False):
                self.assertGreater(counts[answer, alone], 0, counts)

    def test_listed_reflectors_make_no_other_list_suspect(self) -> None:
        draw, checked = random.Random(11), 0
        while checked < 15:
            plan = random_network(draw)
            if plan.every_list().answer == YES and len(plan.routers) <= 7:
                self.assertEqual(suspect_lists(plan, list(range(len(plan.routers)))), [])
                checked += 1

    def test_its_own_lists_play_no_part(self) -> None:
        draw = random.Random(7)
        for _ in range(30):
            plan = random_network(draw)
            for lists in ([[]], [clients(plan)], [[0]] * 64):
                self.assertEqual(Plan(with_lists(plan, lists)).every_list(), plan.every_list())

    def test_stored_plans(self) -> None:
        for path, data in stored_plans():
            plan = Plan.from_bytes(data, path)
            found = plan.every_list()
            if found.answer == YES:
                self.assertTrue(all(verdict.stable for verdict in plan.verdicts()), path)
            if found.answer == NO:
                numbers = [plan.router_number(name) for name in found.routers]
                self.assertFalse(library.verdict(with_lists(plan, [numbers]), 0).stable, path)

    def test_known_ones(self) -> None:
        yes, no = ((14, 14), (6, 14), (10, 10)), ((6, 6), (9, 10))
        for one, other, due in [*((*each, YES) for each in yes), *((*each, NO) for each in no)]:
            plan = Plan.read(M3).changed(f"distance r0 > r3 {one}", f"distance r1 > r2 {other}")
            routers = ("r2", "r3") if due == NO else ()
            for each in (plan, plan.widened()):
                self.assertEqual(each.every_list(), EveryList(due, routers))
        stepped = Plan.parse(cycles(3)).with_hop_step(["a0", "a1", "a2"])
        self.assertEqual(stepped.every_list(), (YES, ()))

    def test_undecided_is_no_yes(self) -> None:
        plan = Plan.read(UNDECIDED_PLAN)
        self.assertEqual(plan.every_list(), (UNDECIDED, ()))
        self.assertEqual(suspect_lists(plan, clients(plan)), [])
        self.assertFalse(single(plan))


class Words(InFolder):
    """What the commands say."""

    def test_words(self) -> None:
        self.assertEqual(always_words(EveryList(YES, ())), NONE_CAN)
        self.assertEqual(always_words(EveryList(UNDECIDED, ())), SOME_MAY_EXIST)
        no = "some egress list makes this plan suspect: a, b"
        self.assertEqual(always_words(EveryList(NO, ("a", "b"))), no)

    def test_status(self) -> None:
        for words, status in (
            ([HOP], 0),
            ([M3], 1),
            ([NET], 1),
            ([NET, "--set", "link lon-rr par-a 12"], 0),
            ([UNDECIDED_PLAN], 1),
            (["missing.rrp"], 2),
        ):
            for more in ([], ["--json"]):
                self.assertEqual(rrp("always", *words, *more).status, status, words)

    def test_undecided(self) -> None:
        lines = rrp("always", UNDECIDED_PLAN).output.splitlines()
        self.assertEqual(lines[1], SOME_MAY_EXIST)
        self.assertNotIn(NONE_CAN, "\n".join(lines))
        values = json.loads(rrp("always", UNDECIDED_PLAN, "--json").output)
        self.assertEqual((values["every_list"], values["suspect_list"]), (UNDECIDED, None))
        self.assertEqual(rrp("check", UNDECIDED_PLAN).output.splitlines()[-1], SOME_MAY_EXIST)
        self.assertEqual(rrp("check", UNDECIDED_PLAN).status, 0)

    def test_a_list_is_explained_as_show_does(self) -> None:
        write("m3.rrp", read_lists(M3, "list other r3"))
        answer = rrp("always", "m3.rrp")
        lines = answer.output.splitlines()
        self.assertEqual(lines[1], "some egress list makes this plan suspect: r2, r3")
        self.assertEqual(lines[2], "with list found r2 r3")
        shown = rrp("show", "m3.rrp", "found", "--set", "list found r2 r3").output.splitlines()
        self.assertEqual(lines[2:-2], shown)
        asked = "with a change another list may be found; to ask again: rrp always m3.rrp --set "
        self.assertEqual(lines[-1], f"{asked}'distance r0 > r2 6'")
        self.assertEqual(rrp("always", "m3.rrp", "--set", "distance r0 > r2 6").status, 0)
        values = json.loads(rrp("always", "m3.rrp", "--json").output)
        told = json.loads(
            rrp("show", "m3.rrp", "found", "--set", "list found r2 r3", "--json").output
        )
        for name in ("cycle", "groups", "grade", "reliances", "repairs", "hop_set", "recommended"):
            self.assertEqual(values[name], told[name], name)
        self.assertEqual(values["suspect_list"], ["r2", "r3"])

    def test_a_list_of_the_plan(self) -> None:
        lines = rrp("always", M3).output.splitlines()
        self.assertEqual(lines[2], "the list l0 has these routers")
        self.assertEqual(lines[3:-2], rrp("show", M3, "l0").output.splitlines())
        self.assertIsNone(json.loads(rrp("always", M3, "--json").output)["statement"])

    def test_where_the_list_goes(self) -> None:
        plan = Plan.read(M3)
        self.assertEqual(statement_of(plan, ["r2"]), "list found r2")
        self.assertEqual(statement_of(plan.changed("list found r3"), ["r2"]), "list found-2 r2")
        full = Plan(with_lists(plan, [[3]] * 64))
        self.assertEqual(statement_of(full, ["r2", "r3"]), "list l63 r2 r3")
        with open("full.plan", "wb") as file:
            file.write(full.data)
        self.assertIn("\nwith list l63 r2 r3\nl63 is suspect: ", rrp("always", "full.plan").output)

    def test_a_list_that_is_stable_is_a_fault(self) -> None:
        given = library.EveryListed(0, bytes([2]))
        with mock.patch.object(library, "every_list", return_value=given):
            answer = rrp("always", M3)
        self.assertEqual(answer.status, 2)
        self.assertIn("fault of the tool", answer.errors)

    def test_check(self) -> None:
        self.assertEqual(rrp("check", HOP).output.splitlines()[-1], NONE_CAN)
        last = rrp("check", M3).output.splitlines()[-1]
        said = "some egress list makes this plan suspect: r2, r3"
        self.assertEqual(last, f"{said}; to explain: rrp always {M3}")
        changed = rrp("check", M3, "--set", "distance r0 > r3 14").output.splitlines()[-1]
        self.assertEqual(changed, f"{NONE_CAN} (before: {said})")
        same = rrp("check", HOP, "--set", "list more lon-a").output.splitlines()[-1]
        self.assertEqual(same, NONE_CAN)
        values = json.loads(rrp("check", M3, "--json").output)
        self.assertEqual((values["every_list"], values["suspect_list"]), (NO, ["r2", "r3"]))
        values = json.loads(rrp("check", M3, "--set", "distance r0 > r3 14", "--json").output)
        self.assertEqual((values["every_list"], values["always_before"]["every_list"]), (YES, NO))
        values = json.loads(rrp("check", M3, HOP, "--json").output)
        self.assertEqual([each["every_list"] for each in values["judged"]], [YES, NO])

    def test_sweep(self) -> None:
        write("fragile.rrp", FRAGILE)
        plain, told = rrp("sweep", "fragile.rrp"), rrp("sweep", "fragile.rrp", "--always")
        self.assertTrue(told.output.startswith(plain.output))
        added = told.output[len(plain.output) :].splitlines()
        values = json.loads(rrp("sweep", "fragile.rrp", "--always", "--json").output)
        plan = Plan.read("fragile.rrp")
        self.assertEqual(added[1], f"as it is, {always_words(plan.every_list())}")
        for each in values["failures"]:
            (failure,) = each["failures"]
            self.assertIn(each["every_list"], (YES, NO, UNDECIDED))
            if failure["kind"] == "link":
                found = plan.changed(f"link {' '.join(failure['routers'])} none").every_list()
                self.assertEqual(each["every_list"], found.answer)
                self.assertEqual(tuple(each["suspect_list"] or ()), found.routers)
        kept = sum(each["every_list"] == YES for each in values["failures"])
        self.assertEqual(values["always"]["kept"], kept)

    def test_sweep_of_a_plan_that_keeps_it_but_for_some_failures(self) -> None:
        words = "sweep", NET, "--set", "link lon-rr par-a 12", "--always"
        answer = rrp(*words)
        lines = answer.output.splitlines()
        start = lines.index(f"as it is, {NONE_CAN}")
        values = json.loads(rrp(*words, "--json").output)
        lost = values["always"]["lost"]
        self.assertGreater(len(lost), 1)
        self.assertEqual(lines[start + 1], f"{len(lost)} of 42 failures lose that")
        self.assertEqual(len(lines[start + 2 :]), len(lost))
        for line, each in zip(lines[start + 2 :], lost):
            self.assertIn(", ".join(each["suspect_list"] or ["undecided"]), line)
        self.assertEqual((answer.status, len(lost) + values["always"]["kept"]), (1, 42))

    def test_sweep_without_it_says_nothing(self) -> None:
        values = json.loads(rrp("sweep", HOP, "--json").output)
        self.assertNotIn("always", values)
        self.assertNotIn("every_list", values["failures"][0])
        self.assertEqual(rrp("sweep", HOP, "--always").status, rrp("sweep", HOP).status)

    def test_pairs_that_lose_it_together(self) -> None:
        values = json.loads(rrp("sweep", HOP, "--links", "--pairs", "--always", "--json").output)
        alone = {json.dumps(each["failures"][0]) for each in values["always"]["lost"]}
        for each in values["always"]["lost_by_pairs"]:
            self.assertFalse(alone & {json.dumps(one) for one in each["failures"]})


def read_lists(path: str, *lists: str) -> str:
    """The text of a plan with other lists."""
    lines = rrp("unpack", path).output.splitlines()
    return "\n".join([*(line for line in lines if not line.startswith("list ")), *lists, ""])


if __name__ == "__main__":
    unittest.main()
