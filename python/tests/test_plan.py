"""Plans by name: the class `Plan`."""

from __future__ import annotations

import unittest
from itertools import product

import rrp
from rrp import Plan, Refused, Route, RrpError, Table, UnknownName, encoding, library

from .support import EXAMPLES, STORED_PLANS


class ByName(unittest.TestCase):
    """The answers on the bundled plans, by name."""

    def setUp(self) -> None:
        self.net = Plan.read(f"{EXAMPLES}/net.rrp")
        self.m3 = Plan.read(f"{EXAMPLES}/m3.plan")

    def test_what_the_plan_says(self) -> None:
        net = self.net
        self.assertEqual(net.routers[:4], ("lon-rr", "par-rr", "fra-rr", "lon-a"))
        self.assertEqual(net.lists, ("transit", "peering", "customer"))
        self.assertEqual((net.role("lon-rr"), net.role("lon-a")), ("reflector", "client"))
        self.assertTrue(net.skips_clients("fra-rr"))
        self.assertFalse(net.skips_clients("lon-rr"))
        self.assertFalse(any(map(net.has_hop_step, net.routers)))
        self.assertEqual(net.identifier("lon-a"), 10 * 2**24 + 257)
        self.assertEqual(net.neighbours("mrs-a"), ("lon-rr", "par-rr"))
        self.assertEqual(net.egresses("peering"), ("lon-b", "fra-b"))
        self.assertEqual(net.distance("lon-rr", "fra-a"), 22)
        self.assertEqual(net.notes, ())

    def test_names_and_numbers(self) -> None:
        self.assertEqual(self.net.router_number("par-rr"), 1)
        self.assertEqual(self.net.router_number(1), 1)
        self.assertEqual(self.net.router_number("1"), 1)
        self.assertEqual(self.net.list_number("peering"), 1)
        for which in ("par", -1, 12, "12", "1" * 5000, "²", ""):
            with self.assertRaises(UnknownName):
                self.net.router_number(which)
        with self.assertRaisesRegex(UnknownName, "did you mean peering?"):
            self.net.verdict("pearing")
        with self.assertRaisesRegex(UnknownName, "its lists are transit, peering, customer"):
            self.net.verdict("xyz")

    def test_a_name_goes_before_a_number(self) -> None:
        plan = Plan.parse("reflector 1 10\nreflector 0 20\nlist 7 1\n")
        self.assertEqual((plan.router_number("1"), plan.router_number(1)), (0, 1))
        self.assertEqual((plan.list_number("7"), plan.list_number("0")), (0, 0))

    def test_suspect(self) -> None:
        verdict = self.net.verdict("transit")
        self.assertFalse(verdict.stable)
        self.assertEqual(verdict.cycle, ("lon-rr", "par-rr", "fra-rr"))
        self.assertEqual(verdict.groups, (("lon-rr", "par-rr", "fra-rr"),))
        self.assertEqual(verdict.labels["fra-rr"], "lon-rr")
        absent = (verdict.highest, verdict.rounds, verdict.ranks, verdict.table)
        self.assertEqual(absent, (None, None, None, None))

    def test_stable(self) -> None:
        verdict = self.m3.verdict("l1")
        self.assertTrue(verdict.stable)
        self.assertEqual((verdict.name, verdict.highest, verdict.rounds), ("l1", 3, 5))
        self.assertEqual(verdict.ranks, {"r0": 2, "r1": 1, "r2": 3, "r3": 0})
        self.assertEqual(verdict.table["r2"], Route("r3", "r0"))
        self.assertEqual((verdict.cycle, verdict.groups), ((), ()))

    def test_comparison(self) -> None:
        cut = Plan.read(f"{STORED_PLANS}/no-way-from-0-to-3.plan")
        for flags in product((False, True), (False, True)):
            answer = self.m3.compare("r0", "r3", "r2", *flags)
            self.assertEqual((answer.better, answer.margin), ("r3", -4))
            same = self.m3.compare(0, 2, 2, *flags)
            self.assertEqual((same.better, same.margin), (None, 0))
            none = cut.compare(0, 3, 2, *flags)
            self.assertEqual((none.better, none.margin), ("r2", None))

    def test_reliance(self) -> None:
        self.assertTrue(self.net.relies("transit", "lon-rr", "par-rr"))
        self.assertEqual(self.net.reliances("transit", "lon-rr"), ("par-rr", "lon-a"))

    def test_runs(self) -> None:
        plan, start = self.m3, self.m3.empty_table("l0")
        self.assertEqual(start["r0"], None)
        self.assertEqual(start["r2"], Route("r2", "r2"))
        self.assertEqual(plan.activate("l0", "r1", start)["r1"], Route("r3", "r3"))
        run = plan.run("l0", ["r0", 1, "r2", "r3"])
        self.assertEqual((run.applied, run.rounds, run.exhausted), (4, 1, False))
        self.assertEqual(run.table["r1"], Route("r2", "r0"))
        self.assertTrue(plan.run("l0", ["r0", "r1"], limit=1).exhausted)
        none = plan.run("l0", ["r0", "r1"], limit=0)
        self.assertEqual((none.table, none.applied, none.exhausted), (start, 0, True))
        self.assertEqual(plan.run("l0", ["r0", "r1"], limit=2**70).applied, 2)
        settled = plan.verdict("l1").table
        self.assertEqual(plan.run("l1", list(plan.routers) * 5).table, settled)

    def test_a_negative_limit_is_refused(self) -> None:
        for limit in (-1, -(2**70)):
            with self.assertRaisesRegex(RrpError, f"a limit is 0 or more, and not {limit}"):
                self.m3.run("l0", ["r0", "r1"], limit=limit)
            with self.assertRaises(RrpError):
                library.run(self.m3.data, 0, b"\0", self.m3.empty_table("l0").data, limit)

    def test_repr(self) -> None:
        self.assertEqual(repr(self.net), f"<Plan {EXAMPLES}/net.rrp: 12 routers, 3 lists>")
        self.assertEqual(repr(Plan(self.m3.data)), "<Plan the plan: 4 routers, 2 lists>")
        one = Plan.parse("reflector a 1\nlist l a\n", "one.rrp")
        self.assertEqual(repr(one), "<Plan one.rrp: 1 router, 1 list>")

    def test_a_table_that_cannot_be(self) -> None:
        table = self.m3.empty_table("l0").with_route("r0", Route("r2", "r3"))
        with self.assertRaisesRegex(Refused, "refused 10"):
            self.m3.activate("l0", "r0", table)


class Tables(unittest.TestCase):
    """Routing tables as mappings."""

    def test_mapping(self) -> None:
        table = Table(bytes([1, 1, 255, 255]), ["a", "b"])
        self.assertEqual(dict(table), {"a": Route("b", "b"), "b": None})
        self.assertEqual(len({table, Table(table.data, ["a", "b"])}), 1)
        self.assertNotEqual(table, table.with_route("a", None))
        self.assertEqual(table.with_route("b", Route("a", "b")).data, bytes([1, 1, 0, 1]))
        self.assertIsNone(table.get("c"))


class Construction(unittest.TestCase):
    """Plans from bytes."""

    def test_names_must_fit(self) -> None:
        data = Plan.read(f"{EXAMPLES}/m3.plan").data
        for names in (["a", "b", "c"], ["a", "b", "c", "c"]):
            with self.assertRaises(RrpError):
                Plan(data, routers=names)

    def test_refused(self) -> None:
        said = "x.plan: refused 1: the plan does not start RRP1 or RRP2, is shorter than 26"
        with self.assertRaisesRegex(Refused, said) as caught:
            Plan.from_bytes(b"RRP1", "x.plan")
        self.assertEqual(caught.exception.number, 1)

    def test_encoding(self) -> None:
        data = Plan.read(f"{EXAMPLES}/m3.plan").data
        self.assertEqual(encoding.encode(encoding.decode(data)), data)


#: Reflectors r0 to r2 and clients c3 to c5, on which every rule and every reason occurs.
_REASONS = """
reflector r0 10
reflector r1 20
reflector r2 30
client c3 40 of r0
client c4 50 of r0
client c5 60 of r1
mesh r0 r1 r2
session c3 c4
distance r0 > c3 10
distance r0 > c4 20
distance r0 > c5 6
distance r1 > r0 30
distance r1 > c3 30
distance r1 > c4 10
distance r1 > c5 10
distance r2 > c5 7
list near c3 c5
list own c3 c4
list tie c4 c5
list self r0
"""

_BETTER = ("better offer", "c5", "c3", -4)


class Explained(unittest.TestCase):
    """Each rule and each reason, and that yes and no are those of the plain answer."""

    def setUp(self) -> None:
        self.plan = Plan.parse(_REASONS)

    def test_rules_and_reasons(self) -> None:
        cases = [
            ("near", "c4", "r0", True, ("parent", None, None, None)),
            ("near", "c4", "c3", True, ("peer client", None, None, None)),
            ("near", "r0", "c3", True, ("own best client", None, None, None)),
            ("near", "r0", "r1", True, _BETTER),
            ("near", "r2", "r1", True, ("better offer", "c5", None, None)),
            ("tie", "r1", "r0", True, ("better offer", "c4", "c5", 0)),
            ("self", "r1", "r0", True, ("better offer", "r0", None, None)),
            ("near", "c3", "c3", False, ("same router", None, None, None)),
            ("near", "c3", "c5", False, ("not neighbours", None, None, None)),
            ("near", "c3", "c4", False, ("first router listed", None, None, None)),
            ("near", "r0", "c4", False, ("second an unlisted client", None, None, None)),
            ("own", "r0", "c4", False, ("a client that is not the best one", None, None, None)),
            ("near", "r0", "r2", False, ("no offer", None, None, None)),
            ("near", "r2", "r0", False, ("no way to the offer", None, None, None)),
            ("near", "r1", "r0", False, ("offer not better", None, None, None)),
        ]
        for egress_list, router, other, relies, expected in cases:
            answer = self.plan.explain(egress_list, router, other)
            found = (answer.words, answer.offer, answer.own, answer.margin)
            self.assertEqual((answer.relies, found), (relies, expected), (router, other))

    def test_agrees_with_the_plain_answer(self) -> None:
        for plan in (self.plan, Plan.read(f"{EXAMPLES}/net.rrp")):
            for question in product(plan.lists, plan.routers, plan.routers):
                self.assertEqual(plan.explain(*question).relies, plan.relies(*question), question)


class Package(unittest.TestCase):
    """The package itself."""

    def test_names(self) -> None:
        self.assertLessEqual({"Plan", "Refused"}, set(dir(rrp)))


if __name__ == "__main__":
    unittest.main()
