"""`rrp run --delayed`: runs whose activations read their neighbours late keep the promise, and read
no moment that they may not."""

from __future__ import annotations

import json
import random
import unittest

from rrp import Plan, Route
from rrp.delays import Delays
from rrp.tables import Table
from rrp.tracing import AT_REST, OPEN, SETTLED, Order, Step, Tracing

from .networks import random_network, random_table
from .support import EXAMPLES, rrp

NET, GONE, M3 = f"{EXAMPLES}/net.rrp", f"{EXAMPLES}/gone.rrp", f"{EXAMPLES}/m3.plan"


class Earliest(random.Random):
    """Draws the lowest number that may be drawn."""

    def randint(self, a: int, b: int) -> int:
        """The first."""
        return a


class Latest(random.Random):
    """Draws the highest number that may be drawn."""

    def randint(self, a: int, b: int) -> int:
        """The last."""
        return b


def delayed(draw: random.Random, chance: random.Random, plan: Plan, which: str) -> Delays:
    """A run from left-over routes in a random order, as long as promised."""
    verdict = plan.verdict(which)
    order = Order(plan.routers, seed=draw.randrange(1000))
    limit = verdict.delayed_rounds or 8
    return Delays(plan, verdict, order, random_table(plan, which, draw), limit, chance)


def tables_of(start: Table, steps: list[Step]) -> list[Table]:
    """The table at each moment."""
    tables = [start]
    for step in steps:
        tables.append(tables[-1].with_route(step.router, step.after))
    return tables


class Runs(unittest.TestCase):
    """Runs of random networks, and of some in which all is as late as may be."""

    def setUp(self) -> None:
        self.draw = random.Random(4456)

    def runs(self, count: int) -> list[Delays]:
        """Runs on every list of so many plans."""
        chances = [random.Random(1), Earliest(), Latest()]
        plans = [random_network(self.draw) for _ in range(count)]
        return [
            delayed(self.draw, chances[number % 3], plan, which)
            for number, plan in enumerate(plans)
            for which in plan.lists
        ]

    def test_stable_lists_settle_in_time_and_stay(self) -> None:
        runs = [tracing for tracing in self.runs(60) if tracing.verdict.stable]
        self.assertGreater(len(runs), 50)
        for tracing in runs:
            steps = list(tracing.steps())
            self.assertEqual(tracing.outcome.kind, SETTLED)
            self.assertEqual(tracing.table, tracing.verdict.table)
            self.assertEqual(tracing.promised, 2 * tracing.verdict.highest + 3)
            number, rounds = tracing.last_change
            self.assertLessEqual(rounds, tracing.promised)
            self.assertTrue(all(step.before == step.after for step in steps[number:]))

    def test_suspect_lists_promise_nothing(self) -> None:
        kinds = set()
        for tracing in self.runs(60):
            if tracing.verdict.stable:
                continue
            list(tracing.steps())
            kinds.add(tracing.outcome.kind)
            self.assertIsNone(tracing.promised)
            after = [
                tracing.plan.activate(tracing.verdict.name, router, tracing.table)
                for router in tracing.plan.routers
            ]
            if tracing.outcome.kind == AT_REST:
                self.assertTrue(all(table == tracing.table for table in after))
        self.assertEqual(kinds, {AT_REST, OPEN})

    def test_activations_read_what_they_may(self) -> None:
        late = 0
        for tracing in self.runs(30):
            start = tracing.table
            steps = list(tracing.steps())
            tables = tables_of(start, steps)
            starts = [0]
            for step in steps:
                self.assertEqual(set(step.read), set(tracing.plan.neighbours(step.router)))
                earliest = starts[max(len(starts) - 2, 0)]
                for moment in step.read.values():
                    self.assertTrue(earliest <= moment < step.number)
                late += len(set(step.read.values())) > 1
                self.assertEqual(step.after, self.chosen(tracing, step, tables))
                if step.ended is not None:
                    starts.append(step.number)
        self.assertGreater(late, 100)

    def chosen(self, tracing: Delays, step: Step, tables: list[Table]) -> Route | None:
        """What the activation call leaves the router in the table put together of what it read."""
        data = bytearray(tables[step.number - 1].data)
        for number, router in enumerate(tracing.plan.routers):
            if router in step.read:
                place = slice(2 * number, 2 * number + 2)
                data[place] = tables[step.read[router]].data[place]
        handed = Table(bytes(data), tracing.plan.routers)
        return tracing.plan.activate(tracing.verdict.name, step.router, handed)[step.router]

    def test_reading_the_present_is_a_run(self) -> None:
        for _ in range(20):
            plan = random_network(self.draw)
            for which in plan.lists:
                tracing = delayed(self.draw, Latest(), plan, which)
                start = tracing.table
                steps = list(tracing.steps())
                ran = plan.run(which, [step.router for step in steps], start)
                self.assertEqual((ran.table, ran.rounds), (tracing.table, tracing.rounds))


class Sharp(unittest.TestCase):
    """The old routes of examples/gone.rrp, read as late as may be, need all rounds promised."""

    def setUp(self) -> None:
        self.plan = Plan.read(GONE)
        self.verdict = self.plan.verdict("gone")
        start = self.plan.empty_table("gone").with_route("par-rr", Route("par-a", "par-a"))
        self.start = start.with_route("lon-rr", Route("par-a", "par-rr"))

    def run_for(self, limit: int) -> Delays:
        """So many rounds, by number, each neighbour read as early as may be."""
        order = Order(self.plan.routers)
        tracing = Delays(self.plan, self.verdict, order, self.start, limit, Earliest())
        list(tracing.steps())
        return tracing

    def test_four_rounds_are_not_enough(self) -> None:
        self.assertEqual((self.verdict.rounds, self.verdict.delayed_rounds), (3, 5))
        tracing = self.run_for(4)
        self.assertEqual(tracing.outcome.kind, OPEN)
        self.assertEqual(tracing.table["lon-a"], Route("par-a", "lon-rr"))

    def test_five_are(self) -> None:
        tracing = self.run_for(5)
        self.assertEqual((tracing.outcome.kind, tracing.rounds), (SETTLED, 5))
        self.assertEqual(tracing.last_change, (19, 4))

    def test_read_at_once_three_are(self) -> None:
        tracing = Tracing(self.plan, self.verdict, Order(self.plan.routers), self.start, 3)
        list(tracing.steps())
        self.assertEqual(tracing.outcome.kind, SETTLED)


class Command(unittest.TestCase):
    """The command."""

    def test_a_seed_makes_one_run(self) -> None:
        words = ["run", NET, "peering", "--json", "--delayed"]
        one, again, other = (rrp(*words, seed) for seed in ("5", "5", "6"))
        self.assertEqual(one, again)
        self.assertNotEqual(json.loads(one.output)["changes"], json.loads(other.output)["changes"])

    def test_the_order_is_that_without_delays(self) -> None:
        words = ["run", NET, "peering", "--random", "3", "--json"]
        at_once, late = (json.loads(rrp(*words, *more).output) for more in ([], ["--delayed", "5"]))
        self.assertEqual((at_once["delayed"], late["delayed"]), (None, 5))
        self.assertEqual((at_once["promised"], late["promised"]), (5, 9))
        self.assertEqual((at_once["rounds"], late["rounds"]), (5, 5))
        self.assertEqual(late["seed"], 3)
        self.assertIsNone(at_once["changes"][0]["read"])
        self.assertTrue(all(change["read"] for change in late["changes"]))

    def test_ends_are_counted_to_the_last_change(self) -> None:
        for path, name, word in ((NET, "peering", "settled"), (M3, "l0", "at rest")):
            for seed in range(10):
                found = json.loads(rrp("run", path, name, "--json", "--delayed", str(seed)).output)
                last = found["last_change"]
                self.assertEqual((found["outcome"], last > 0), (word, True))
                self.assertEqual(last, found["changes"][-1]["activation"])
                self.assertGreater(found["activations"], last)
                self.assertTrue(found["sentence"].startswith(f"{word} after {last} activations ("))

    def test_an_older_entry_is_told(self) -> None:
        found = [rrp("run", NET, "customer", "--delayed", str(seed)).output for seed in range(40)]
        self.assertTrue(any(" was after activation " in text for text in found))


if __name__ == "__main__":
    unittest.main()
