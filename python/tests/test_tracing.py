"""`rrp run`: runs end where the library says, from any table and in any order."""

from __future__ import annotations

import json
import os
import random
import tempfile
import unittest

from rrp import Plan, Route
from rrp.table_files import read_table, table_values
from rrp.tracing import AT_REST, OPEN, REPEATS, SETTLED, Order, Tracing

from .networks import random_network, random_table
from .support import EXAMPLES, FAULT, ROOT, read, rrp

NET = f"{EXAMPLES}/net.rrp"


def made(tracing: Tracing) -> list[str]:
    """Makes a run, and gives the routers that were activated."""
    return [step.router for step in tracing.steps()]


class Runs(unittest.TestCase):
    """Runs of random networks."""

    def setUp(self) -> None:
        self.draw = random.Random(4456)

    def runs(self, count: int) -> list[Tracing]:
        """Runs from left-over routes, in fixed and in random orders that have every router."""
        found = []
        for number in range(count):
            plan = random_network(self.draw)
            order = Order(plan.routers, seed=number)
            if number % 2:
                extra = self.draw.choices(plan.routers, k=3)
                routers = [*plan.routers, *extra]
                self.draw.shuffle(routers)
                order = Order(routers)
            for verdict in plan.verdicts():
                table = random_table(plan, verdict.name, self.draw)
                limit = verdict.rounds or 8
                found.append(Tracing(plan, verdict, order, table, limit))
        return found

    def test_the_library_says_the_same_of_the_whole(self) -> None:
        for tracing in self.runs(60):
            start = tracing.table
            routers = made(tracing)
            ran = tracing.plan.run(tracing.verdict.name, routers, start)
            self.assertEqual(ran.table, tracing.table)
            self.assertEqual((ran.applied, ran.rounds), (tracing.activations, tracing.rounds))

    def test_stable_lists_settle_in_time(self) -> None:
        runs = [tracing for tracing in self.runs(120) if tracing.verdict.stable]
        self.assertGreater(len(runs), 100)
        for tracing in runs:
            made(tracing)
            self.assertEqual(tracing.outcome.kind, SETTLED)
            self.assertEqual(tracing.table, tracing.verdict.table)
            self.assertLessEqual(tracing.rounds, tracing.verdict.rounds)

    def test_suspect_lists_end_as_said(self) -> None:
        runs = [tracing for tracing in self.runs(300) if not tracing.verdict.stable]
        kinds = set()
        for tracing in runs:
            made(tracing)
            kinds.add(tracing.outcome.kind)
            after = [
                tracing.plan.activate(tracing.verdict.name, router, tracing.table)
                for router in tracing.plan.routers
            ]
            resting = all(table == tracing.table for table in after)
            self.assertEqual(resting, tracing.outcome.kind == AT_REST)
            self.assertNotEqual(tracing.outcome.kind, SETTLED)
        self.assertIn(AT_REST, kinds)

    def test_what_repeats_goes_on_repeating(self) -> None:
        plan = Plan.read(NET)
        verdict = plan.verdict("transit")
        for _ in range(20):
            order = self.draw.sample(plan.routers, len(plan.routers))
            start = random_table(plan, "transit", self.draw)
            tracing = Tracing(plan, verdict, Order(order), start, 40)
            routers = made(tracing)
            self.assertEqual(tracing.outcome.kind, REPEATS)
            first = tracing.outcome.first
            self.assertEqual(first % len(order), len(routers) % len(order))
            once = plan.run("transit", routers[:first], start).table
            self.assertEqual(once, tracing.table)
            again = plan.run("transit", routers[first:] * 3, once).table
            self.assertEqual(again, once)

    def test_order_that_leaves_routers_out(self) -> None:
        plan = Plan.read(NET)
        for name, routers in (("peering", ["lon-rr", "par-rr"]), ("transit", ["lon-rr"])):
            verdict = plan.verdict(name)
            tracing = Tracing(plan, verdict, Order(routers), plan.empty_table(name), 3)
            made(tracing)
            self.assertEqual((tracing.outcome.kind, tracing.outcome.changes), (REPEATS, 0))
            self.assertEqual(tracing.rounds, 0)
            self.assertNotIn(tracing.mover(), [None, *routers])

    def test_a_random_order_may_meet_a_table_again(self) -> None:
        plan = Plan.read(NET)
        verdict, start = plan.verdict("transit"), plan.empty_table("transit")
        first = set()
        for seed in range(20):
            tracing = Tracing(plan, verdict, Order(plan.routers, seed), start, 20)
            routers = made(tracing)
            self.assertEqual((tracing.outcome.kind, tracing.rounds), (OPEN, 20))
            if tracing.outcome.first is not None:
                first.add(tracing.outcome.first)
                there = plan.run("transit", routers[: tracing.outcome.first], start).table
                self.assertEqual(there, tracing.table)
        self.assertTrue(first)


class TableFiles(unittest.TestCase):
    """Tables that are written and read."""

    def setUp(self) -> None:
        folder = tempfile.TemporaryDirectory()
        self.addCleanup(folder.cleanup)
        self.path = f"{folder.name}/table"
        self.net = Plan.read(NET)

    def write(self, text: str) -> str:
        """A file with this text."""
        with open(self.path, "w", encoding="utf-8") as file:
            file.write(text)
        return self.path

    def test_what_run_writes_is_read(self) -> None:
        draw = random.Random(4456)
        for name in self.net.lists:
            table = random_table(self.net, name, draw)
            values = json.dumps({"table": table_values(table)})
            self.assertEqual(read_table(self.write(values), self.net, name), (table, ()))
            held = [(router, table[router]) for router in table]
            lines = [f"{router} {' '.join(route or ['nothing'])}\n" for router, route in held]
            draw.shuffle(lines)
            text = self.write("".join(lines))
            self.assertEqual(read_table(text, self.net, name), (table, ()))

    def test_by_the_commands(self) -> None:
        self.write(rrp("run", NET, "transit", "--rounds", "2", "--json").output)
        answer = rrp("run", NET, "transit", "--from", self.path, "--rounds", "0", "--json")
        self.assertEqual(json.loads(answer.output)["table"], json.loads(read(self.path))["table"])
        self.write(rrp("show", NET, "peering", "--json").output)
        answer = rrp("run", NET, "peering", "--from", self.path)
        self.assertIn("settled after 0 activations", answer.output)

    def test_the_form_that_is_documented(self) -> None:
        section = read(f"{ROOT}/docs/TEXT-PLANS.md").split("## Routing tables\n")[1]
        lines = section.split("```text\n")[1].split("```")[0]
        table, notes = read_table(self.write(lines), self.net, "peering")
        due = self.net.empty_table("peering").with_route("lon-rr", Route("fra-b", "fra-rr"))
        self.assertEqual((table, notes), (due, ()))

    def test_left_out(self) -> None:
        table, notes = read_table(self.write("# nothing\n"), self.net, "transit")
        self.assertEqual((table, notes), (self.net.empty_table("transit"), ()))

    def test_notes_cut_long_names(self) -> None:
        plan = Plan.parse(f"reflector {'x' * 65} 1\nlist l {'x' * 65}\n")
        notes = read_table(self.write(f"{'x' * 65} nothing\n"), plan, "l").notes
        self.assertEqual(notes, (f"{'x' * 62}.. is in the list l, and starts with its own route",))

    def test_no_table(self) -> None:
        for text in ("{", '{"table": 3}', '{"table": {"lon-rr": 3}}', "{}", '{"table": null}'):
            answer = rrp("run", NET, "transit", "--from", self.write(text))
            self.assertEqual((answer.status, answer.output), (2, ""), text)
            self.assertTrue(answer.errors.startswith(f"rrp: {self.path}"), answer.errors)

    def test_fuzz(self) -> None:
        draw, words = random.Random(4456), [*self.net.routers, "nothing", "#", ">", "{", "é", "\0"]
        for _ in range(int(os.environ.get("RRP_FUZZ", "600")) // 4):
            lines = [" ".join(draw.choices(words, k=draw.randint(0, 4))) for _ in range(4)]
            answer = rrp("run", NET, "peering", "--from", self.write("\n".join(lines)))
            self.assertIn(answer.status, (0, 2), lines)
            self.assertNotIn(FAULT, answer.errors, lines)
            if answer.status == 2:
                self.assertEqual(answer.output, "")
                self.assertNotEqual(answer.errors, "")


class Words(unittest.TestCase):
    """The words of the command."""

    def test_wrong_words(self) -> None:
        for words in (
            ["--rounds", "-1"],
            ["--rounds", "x"],
            ["--random", "1.5"],
            ["--random", "1", "--order", "lon-rr"],
        ):
            answer = rrp("run", NET, "peering", *words)
            self.assertEqual((answer.status, answer.output), (2, ""), words)
            self.assertIn("usage: rrp run", answer.errors)

    def test_a_seed_gives_the_same_run(self) -> None:
        first, again, other = (rrp("run", NET, "transit", "--random", seed) for seed in "112")
        self.assertEqual(first, again)
        self.assertNotEqual(first.output.splitlines()[1:], other.output.splitlines()[1:])

    def test_help_has_the_form_of_a_table(self) -> None:
        self.assertIn("ROUTER EGRESS FROM, or ROUTER nothing", rrp("run", "--help").output)


if __name__ == "__main__":
    unittest.main()
