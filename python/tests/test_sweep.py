"""`rrp sweep`: every failure is judged as the changed plan is; what is said is what the library
says of it; what is not judged is told."""

from __future__ import annotations

import io
import json
import random
import unittest
from contextlib import redirect_stderr, redirect_stdout
from time import process_time

from rrp import Plan, encoding
from rrp.command import main
from rrp.failures import KINDS, LINK, ROUTER, SESSION, Failure, failures_of, statements_of
from rrp.failures import without
from rrp.sweeping import CUT, KEPT, MOVED, SUSPECT, Judged, NotJudged, Outcome, Sweep
from rrp.sweeping import beyond, pairs_of
from rrp.text.assembly import assemble

from .folders import InFolder, write
from .networks import linked_text, random_network
from .support import EXAMPLES, rrp

NET = f"{EXAMPLES}/net.rrp"

#: A list that is stable, and suspect without the link from p to x; and one of a single router.
FRAGILE = """\
reflector p 1
reflector q 2
client x 3 of p
client y 4 of q
session p q
link p x 4
link q y 10
link p y 6
link q x 6
link p q 20
list all x y
list only y
"""


def all_failures(plan: Plan) -> list[Failure]:
    """All that may fail in a plan."""
    return [each for kind in KINDS for each in failures_of(plan, kind)]


def judged_by_hand(plan: Plan, failures: tuple[Failure, ...]) -> dict[str, tuple]:
    """What failures do to each list, from the verdicts of the changed plan: whether it is then
    stable, who ends without a route and had one, and who has another egress."""
    statements = [line for each in failures for line in statements_of(plan, each)]
    changed = plan.changed(*dict.fromkeys(statements))
    failed = {each.routers[0] for each in failures if each.kind == ROUTER}
    found = {}
    for old, new in zip(plan.verdicts(), changed.verdicts()):
        lost, moved = set(), set()
        for router in plan.routers if new.stable else ():
            was = old.table[router] if old.stable else None
            if new.table[router] is None and (was or not old.stable):
                lost.add(router)
            elif was and new.table[router].egress != was.egress:
                moved.add(router)
        found[old.name] = new.stable, new.cycle, lost - failed, moved - failed
    return found


def told(plan: Plan, judged: Judged) -> dict[str, tuple]:
    """The same as a sweep has it."""
    found = {}
    for verdict in plan.verdicts():
        default = Outcome(verdict.name, verdict.stable, verdict.cycle)
        each = next((one for one in judged.outcomes if one.name == verdict.name), default)
        moved = {move.router for move in each.moved}
        found[verdict.name] = not each.cycle, each.cycle, set(each.lost), moved
    return found


class Failures(unittest.TestCase):
    """What may fail, and the plan without it."""

    def test_all_kinds(self) -> None:
        plan = Plan.read(NET)
        counts = [len(failures_of(plan, kind)) for kind in KINDS]
        self.assertEqual(counts, [14, 16, 12])
        self.assertEqual(failures_of(plan, LINK)[0].words, "link lon-rr lon-a")

    def test_a_link_both_ways_is_one_failure(self) -> None:
        text = FRAGILE.replace("link p q 20", "link p > q 2\nlink q > p 3\nlink x y none")
        plan = Plan.parse(text)
        links = failures_of(plan, LINK)
        self.assertEqual(len(links), 5)
        left = without(plan.draft, [Failure(LINK, ("q", "p"))])
        self.assertFalse({("p", "q"), ("q", "p")} & set(left.links))

    def test_a_router_takes_all_that_it_has(self) -> None:
        plan = Plan.read(NET)
        left = assemble(without(plan.draft, [Failure(ROUTER, ("lon-b",))]))
        self.assertEqual(left.routers, plan.routers)
        self.assertEqual(left.neighbours("lon-b"), ())
        self.assertEqual(left.egresses("peering"), ("fra-b",))
        self.assertIsNone(left.distance("lon-rr", "lon-b"))
        self.assertIsNone(left.distance("lon-b", "lon-rr"))
        self.assertIsNone(left.distance("lon-rr", "man-a"))

    def test_the_only_egress_leaves_a_list_of_nobody(self) -> None:
        plan = Plan.parse(FRAGILE)
        sweep = Sweep(plan, range(2))
        found = sweep.judge((Failure(ROUTER, ("y",)),))
        only = next(each for each in found.outcomes if each.name == "only")
        self.assertEqual((only.kind, only.lost), (CUT, ("p", "q", "x")))

    def test_a_client_without_a_parent_is_cut_off(self) -> None:
        plan = Plan.parse(FRAGILE)
        found = Sweep(plan, [1]).judge((Failure(SESSION, ("p", "x")),))
        self.assertEqual([(each.kind, each.lost) for each in found.outcomes], [(CUT, ("x",))])


def removed(plan: Plan, failed: str) -> Plan:
    """The plan in which a router is not there at all, and those above it have lower numbers."""
    model, gone = plan.model, plan.router_number(failed)
    kept = [number for number in range(len(plan.routers)) if number != gone]
    place = {number: new for new, number in enumerate(kept)}
    left = encoding.Model(
        roles=[model.roles[number] for number in kept],
        identifiers=[model.identifiers[number] for number in kept],
        sessions=[(place[a], place[b]) for a, b in model.sessions if gone not in (a, b)],
        distances=[[model.distances[one][other] for other in kept] for one in kept],
        lists=[[place[each] for each in some if each != gone] for some in model.lists],
        width=model.width,
    )
    return Plan(encoding.encode(left), [plan.routers[number] for number in kept], plan.lists)


class Removed(unittest.TestCase):
    """A router that fails stays in the plan, and is judged as one that is not there."""

    def test_verdicts_are_those_without_the_router(self) -> None:
        draw, suspect = random.Random(9), 0
        for _ in range(40):
            plan = random_network(draw)
            failed = draw.choice(plan.routers)
            isolated = assemble(without(plan.draft, [Failure(ROUTER, (failed,))]))
            for old, new in zip(isolated.verdicts(), removed(plan, failed).verdicts()):
                self.assertEqual((old.stable, old.cycle), (new.stable, new.cycle))
                self.assertEqual((old.highest, old.groups), (new.highest, new.groups))
                if new.stable:
                    self.assertEqual({**old.table, failed: None}, {**new.table, failed: None})
                    self.assertEqual({**old.ranks, failed: 0}, {**new.ranks, failed: 0})
                suspect += not new.stable
        self.assertGreater(suspect, 3)


class Judging(unittest.TestCase):
    """What a sweep says of each failure, against the verdicts of the plan that is so changed."""

    def hold(self, plan: Plan, asked: list[tuple[Failure, ...]]) -> set[str]:
        """Every failure is judged as the changed plan is. Returns the kinds that occur."""
        sweep, kinds = Sweep(plan, range(len(plan.lists))), set()
        for failures in asked:
            found = sweep.judge(failures)
            self.assertEqual(told(plan, found), judged_by_hand(plan, failures), found.words)
            kinds.add(found.kind)
        return kinds

    def test_plans_with_links(self) -> None:
        draw, kinds = random.Random(4456), set()
        for _ in range(4):
            plan = Plan.parse(linked_text(draw, 3, 22, 4))
            kinds |= self.hold(plan, [(each,) for each in all_failures(plan)])
        self.assertEqual(kinds, {SUSPECT, CUT, MOVED, KEPT})

    def test_plans_in_bytes(self) -> None:
        draw, kinds = random.Random(1), set()
        for _ in range(25):
            plan = random_network(draw)
            self.assertEqual(failures_of(plan, LINK), [])
            kinds |= self.hold(plan, [(each,) for each in all_failures(plan)])
        self.assertEqual(kinds, {SUSPECT, CUT, MOVED, KEPT})

    def test_pairs(self) -> None:
        plan = Plan.read(NET)
        pairs = pairs_of(all_failures(plan))
        self.assertEqual(len(pairs), 42 * 41 // 2)
        self.hold(plan, random.Random(3).sample(pairs, 60))

    def test_all_cores_say_the_same(self) -> None:
        plan = Plan.read(NET)
        asked = pairs_of(all_failures(plan))[:250]
        sweep = Sweep(plan, range(3))
        one, two = (sorted(sweep.judge_all(asked, count)) for count in (1, 2))
        self.assertEqual(one, two)
        self.assertEqual(len(one), 250)

    def test_pairs_are_told_beyond_either_alone(self) -> None:
        def judged(*outcomes: Outcome) -> Judged:
            return Judged((), outcomes)

        both = judged(Outcome("a", True, ("p", "q")), Outcome("b", True, (), ("r", "s")))
        alone = [judged(Outcome("b", True, (), ("r",))), judged()]
        self.assertEqual(
            beyond(both, alone).outcomes,
            (Outcome("a", True, ("p", "q")), Outcome("b", True, (), ("s",))),
        )
        self.assertEqual(beyond(both, [both, judged()]).outcomes, ())
        self.assertEqual(beyond(both, [both, judged()]).kind, KEPT)


class Command(InFolder):
    """What the command says."""

    def test_exit_status(self) -> None:
        write("fragile.rrp", FRAGILE)
        answer = rrp("sweep", "fragile.rrp", "--json")
        counts = json.loads(answer.output)["counts"]
        self.assertEqual((answer.status, counts["suspect"]), (1, 1))
        text = rrp("sweep", "fragile.rrp")
        self.assertEqual(text.status, 1)
        self.assertRegex(text.output, "\n *1 makes a stable list suspect\n")
        self.assertRegex(text.output, "\nlink p x +all +suspect: p -> q -> p; comes to rest ")
        self.assertEqual(rrp("sweep", "fragile.rrp", "only").status, 0)

    def test_a_list_that_is_suspect_already_counts_for_nothing(self) -> None:
        answer = rrp("sweep", NET)
        self.assertEqual(answer.status, 0)
        said = "\nas it is, transit is suspect: lon-rr -> par-rr -> fra-rr -> lon-rr\n"
        said += "    rests in no table: its routers never come to rest\n"
        self.assertIn(f"{said}    it is suspect under 27 of 42 failures (", answer.output)
        self.assertIn("never comes to rest: ", answer.output)

    def test_json_has_every_failure(self) -> None:
        values = json.loads(rrp("sweep", NET, "--json").output)
        self.assertEqual(values["judged"], {"links": 14, "sessions": 16, "routers": 12, "pairs": 0})
        self.assertEqual(len(values["failures"]), 42)
        self.assertEqual(sum(values["counts"].values()), 42)
        kinds = [each["kind"] for each in values["failures"]]
        order = [SUSPECT, CUT, MOVED, KEPT]
        self.assertEqual(kinds, sorted(kinds, key=order.index))

    def test_kinds_and_lists_may_follow_options(self) -> None:
        values = json.loads(rrp("sweep", NET, "--links", "peering", "--json").output)
        self.assertEqual(values["judged"], {"links": 14, "sessions": 0, "routers": 0, "pairs": 0})
        self.assertEqual([each["list"] for each in values["as_it_is"]], ["peering"])
        names = {one["list"] for each in values["failures"] for one in each["lists"]}
        self.assertEqual(names, {"peering"})

    def test_all_shows_all(self) -> None:
        short, every = rrp("sweep", NET), rrp("sweep", NET, "--all")
        self.assertIn(".. and 11 failures more that do something: --all shows them\n", short.output)
        self.assertNotIn("--all", every.output)
        for each in json.loads(rrp("sweep", NET, "--json").output)["failures"]:
            (failure,) = each["failures"]
            words = "\n" + " ".join([failure["kind"], *failure["routers"], " "])
            self.assertEqual(words in every.output, each["kind"] != KEPT, words)

    def test_links_of_bytes_are_said_not_to_be_judged(self) -> None:
        m3 = f"{EXAMPLES}/m3.plan"
        answer = rrp("sweep", m3)
        said = "\nlinks are not judged: the plan states distances and has no links\n"
        self.assertIn(said, answer.output)
        self.assertIn("\nwhere a router fails, distances between other routers stay", answer.output)
        self.assertEqual(rrp("sweep", m3, "--links").status, 2)
        self.assertNotIn("links are not", rrp("sweep", m3, "--sessions").output)

    def test_stated_distances_are_said_to_stay(self) -> None:
        write("stated.rrp", f"{FRAGILE}distance p > y 3\n")
        said = "\n1 distance is stated and stays as stated, whatever link fails\n"
        self.assertIn(said, rrp("sweep", "stated.rrp").output)

    def test_what_is_too_far_is_not_judged(self) -> None:
        text = FRAGILE.replace("link p y 6\n", "").replace("link q x 6\n", "link q x 6000\n")
        write("far.rrp", text.replace("link p q 20", "link p q 60000"))
        answer = rrp("sweep", "far.rrp", "--links")
        self.assertEqual(answer.status, 2)
        self.assertIn("\nnot judged: link p x: refused 12: ", answer.output)
        values = json.loads(rrp("sweep", "far.rrp", "--links", "--json").output)
        self.assertEqual((len(values["failures"]), len(values["not_judged"])), (3, 1))

    def test_changes_come_first(self) -> None:
        answer = rrp("sweep", NET, "--set", "link lon-rr par-a 12", "--sessions", "transit")
        self.assertIn("\nwith link lon-rr par-a 12\n", answer.output)
        self.assertIn(" --set 'link lon-rr par-a 12' --set 'session ", answer.output)

    def test_pairs_are_counted_and_told(self) -> None:
        write("fragile.rrp", FRAGILE)
        values = json.loads(rrp("sweep", "fragile.rrp", "--links", "--pairs", "--json").output)
        self.assertEqual(values["judged"]["pairs"], 10)
        self.assertEqual(sum(values["pair_counts"].values()), 10)
        self.assertEqual(sum(values["beyond_counts"].values()), 10)
        text = rrp("sweep", "fragile.rrp", "--links", "--pairs").output
        self.assertIn("\njudged two at once: 10 pairs\n", text)


class Terminal(io.StringIO):
    """A standard error that is a terminal."""

    def isatty(self) -> bool:
        """It is."""
        return True


class Bar(unittest.TestCase):
    """What is shown while failures are judged."""

    def test_a_bar_counts_failures(self) -> None:
        errors, output = Terminal(), io.StringIO()
        with redirect_stderr(errors), redirect_stdout(output):
            status = main(["sweep", NET])
        self.assertEqual(status, 0)
        self.assertRegex(errors.getvalue(), r"\r\[[#.]{30}\] \d+ of 42 failures, \d+ suspect")
        self.assertTrue(errors.getvalue().endswith("\r\x1b[K"))
        self.assertEqual(output.getvalue(), rrp("sweep", NET).output)


class Speed(unittest.TestCase):
    """A network as large as planners have."""

    def test_102_links_and_8_lists_take_less_than_a_second(self) -> None:
        plan = Plan.parse(linked_text(random.Random(7), 12, 102, 8))
        links = failures_of(plan, LINK)
        self.assertEqual((len(plan.routers), len(links), len(plan.lists)), (60, 102, 8))
        started = process_time()
        found = list(Sweep(plan, range(8)).judge_all([(each,) for each in links], 1))
        taken = process_time() - started
        self.assertEqual(sum(isinstance(each, NotJudged) for each in found), 0)
        self.assertEqual(len(found), 102)
        self.assertLess(taken, 1.0)


if __name__ == "__main__":
    unittest.main()
