"""What is filed says all that the library answers, and any difference is named."""

from __future__ import annotations

import hashlib
import random
import unittest

from rrp import Plan, Verdict
from rrp.verdict_differences import CHANGED, FALSE, LINES, RIGHT, Names, compare
from rrp.verdict_files import entry, facts

from .networks import random_network
from .support import EXAMPLES
from .test_effects import varied


def networks(count: int) -> list[Plan]:
    """Random networks."""
    draw = random.Random(4456)
    return [random_network(draw) for _ in range(count)]


def route(verdict: Verdict, router: str, plan: Plan) -> str:
    """What a router settles on, by numbers."""
    held = verdict.table[router]
    if held is None:
        return "nothing"
    return f"egress {plan.router_number(held.egress)} from {plan.router_number(held.sender)}"


class Written(unittest.TestCase):
    """The lines of what is filed."""

    def due(self, plan: Plan) -> list[str]:
        """The lines that are to be filed, by the answers of the plan."""
        program = [f"routers {len(plan.routers)} lists {len(plan.lists)}"]
        details, number_of = [], plan.router_number
        for number, verdict in enumerate(plan.verdicts()):
            cycle = [str(number_of(router)) for router in verdict.cycle]
            words = ["stable", str(verdict.highest)]
            if not verdict.stable:
                words = ["suspect", str(len(cycle)), *cycle]
            program.append(" ".join([str(number), *words]))
            for group in verdict.groups:
                numbers = [str(number_of(router)) for router in group]
                details.append(f"list {number} group {' '.join(numbers)}")
            for router in plan.routers if verdict.stable else ():
                rank, held = verdict.ranks[router], route(verdict, router, plan)
                details.append(f"list {number} router {number_of(router)} rank {rank} {held}")
        return [*program, *details, f"sha256 {hashlib.sha256(plan.data).hexdigest()}"]

    def test_lines(self) -> None:
        seen = ""
        for plan in networks(60):
            found = entry(plan.data)
            self.assertEqual(found.text, "".join(f"{line}\n" for line in self.due(plan)))
            verdicts = plan.verdicts()
            stable = sum(verdict.stable for verdict in verdicts)
            counted = (found.stable, found.suspect, found.refused)
            self.assertEqual(counted, (stable, len(verdicts) - stable, False))
            self.assertEqual(found.lacking, sum(bool(each.without_route) for each in verdicts))
            self.assertEqual(found.nobody, sum(not plan.egresses(name) for name in plan.lists))
            seen += found.text
        for word in ("stable", "suspect", "group", "egress", "nothing"):
            self.assertIn(f" {word}", seen)

    def test_refused(self) -> None:
        digest = hashlib.sha256(b"RRP1").hexdigest()
        found = entry(b"RRP1")
        self.assertEqual(found.text, f"refused 1\nsha256 {digest}\n")
        self.assertEqual((found.refused, found.stable, found.suspect), (True, 0, 0))

    def test_each_line_is_a_fact(self) -> None:
        for plan in networks(20):
            text = entry(plan.data).text
            self.assertEqual(len(facts(text)), text.count("\n"))
            self.assertIsNone(facts(f"{text}x\n"))
            self.assertIsNone(facts(f"{text}{text}"))


class Compared(unittest.TestCase):
    """A verdict filed for a plan, beside another plan of as many routers and lists."""

    def test_every_difference_is_named(self) -> None:
        draw, kinds = random.Random(4456), set()
        for plan in networks(300):
            other = varied(plan, draw)
            old, new = entry(plan.data), entry(other.data)
            found = compare(old.text, new)
            same = (old.program, old.details) == (new.program, new.details)
            kind = RIGHT if plan.data == other.data else CHANGED if same else FALSE
            self.assertEqual(found.kind, kind)
            named = [(each.number, each.router, each.value) for each in found.differences]
            self.assertEqual(named, self.due(plan, other))
            kinds.add(kind)
            kinds.update(each.value for each in found.differences)
        due = {RIGHT, CHANGED, FALSE, "verdict", "group", "rank", "route"}
        self.assertEqual(kinds, due)

    def due(self, plan: Plan, other: Plan) -> list[tuple]:
        """The values that differ, by the answers of the two plans."""
        found = []
        for number, (old, new) in enumerate(zip(plan.verdicts(), other.verdicts())):
            if (old.stable, old.highest, old.cycle) != (new.stable, new.highest, new.cycle):
                found.append((number, None, "verdict"))
            if old.stable and new.stable:
                for place, router in enumerate(plan.routers):
                    if old.ranks[router] != new.ranks[router]:
                        found.append((number, place, "rank"))
                    if old.table[router] != new.table[router]:
                        found.append((number, place, "route"))
            elif not old.stable and not new.stable:
                one, two = ({each[0]: each for each in side.groups} for side in (old, new))
                other_groups = [each for each in {**one, **two} if one.get(each) != two.get(each)]
                places = sorted(map(plan.router_number, other_groups))
                found += [(number, place, "group") for place in places]
        return found

    def test_lines_alone(self) -> None:
        for plan in networks(20):
            due = entry(plan.data)
            self.assertEqual(compare(due.program, due).kind, LINES)

    def test_other_sizes_are_told_alone(self) -> None:
        small, large = (entry(plan.data) for plan in networks(2))
        for filed, due in ((small, large), (large, small), (entry(b""), small)):
            (found,) = compare(filed.text, due).differences
            self.assertEqual((found.number, found.value), (None, "plan"))


#: Edits of what is filed for the bundled plan, and what is said of each first.
_HELD = "list 1 router 2 rank 3 egress 3 from 0"
_EDITS = (
    ("rank 3", "rank x", f"line 7: filed {_HELD.replace('3', 'x', 1)!r}, is {_HELD!r}"),
    (
        f"{_HELD}\n",
        "",
        "list 1 (two), router 2 (a): filed no line, is rank 3 egress 3 (b) from 0 (lon)",
    ),
    (
        "group 0 1",
        "group 0 1 2",
        "list 0 (one): filed group lon, par, a, is group lon, par",
    ),
    (
        "0 suspect 2 0 1",
        "0 suspect 2 1 0",
        "list 0 (one): filed suspect: par -> lon -> par, is suspect: lon -> par -> lon",
    ),
    (
        "0 suspect 2 0 1",
        "0 suspect 9 0 1",
        "list 0 (one): filed 'suspect 9 0 1', is 'suspect 2 0 1'",
    ),
    (
        "0 suspect 2 0 1",
        "0 stable 1",
        "list 0 (one): filed stable with highest rank 1, is suspect: lon -> par -> lon",
    ),
    ("1 stable 3\n", "", "list 1 (two): filed no line, is stable with highest rank 3"),
    ("routers 4", "routers 5", "filed 5 routers and 2 lists, is 4 routers and 2 lists"),
    ("sha256 b", "sha256 B", "line 9: filed 'sha256 B"),
)


class Damaged(unittest.TestCase):
    """What is said of a filed text that is no verdict, or that is not written as one."""

    def setUp(self) -> None:
        self.due = entry(Plan.read(f"{EXAMPLES}/m3.plan").data)
        self.names = Names(("lon", "par", "a", "b"), ("one", "two"))

    def said(self, filed: str) -> str:
        """The first that is said of a false verdict."""
        found = compare(filed, self.due, self.names)
        self.assertEqual(found.kind, FALSE, filed)
        return found.details[0]

    def test_edits(self) -> None:
        for old, new, said in _EDITS:
            filed = self.due.text.replace(old, new, 1)
            self.assertNotEqual(filed, self.due.text)
            self.assertEqual(self.said(filed)[: len(said)], said)

    def test_lines_alone(self) -> None:
        filed = self.due.program.replace("1 stable 3\n", "")
        said = "list 1 (two): filed no line, is stable with highest rank 3"
        none = "it has no line of the plan's SHA-256: the plan may be another than the one filed"
        now = " (names are those of the plan as it is now)"
        found = compare(filed, self.due, self.names)
        self.assertEqual((found.details, found.same_plan), ((said, f"{none}{now}"), False))
        self.assertEqual(compare(filed, self.due).details, (said.replace(" (two)", ""), none))

    def test_what_another_plan_filed_has_numbers_alone(self) -> None:
        other = self.due.text.replace("sha256 b", "sha256 c")
        for old, new, said in (
            (
                "group 0 1",
                "group 0 1 2",
                "list 0 (one): filed group 0, 1, 2, is group 0 (lon), 1 (par)",
            ),
            (
                "suspect 2 0 1",
                "suspect 2 1 0",
                "list 0 (one): filed suspect: 1 -> 0 -> 1, is suspect: 0 (lon) ",
            ),
            (
                "suspect 2 0 1",
                "suspect 9 0 1",
                "list 0 (one): filed 'suspect 9 0 1', is 'suspect 2 0 1'",
            ),
            (
                "egress 3 from 0",
                "egress 2 from 0",
                "list 1 (two), router 2 (a): filed egress 2 from 0, is egress 3 (b) ",
            ),
        ):
            self.assertEqual(self.said(other.replace(old, new, 1))[: len(said)], said)

    def test_a_group_that_another_plan_filed_has_no_name(self) -> None:
        line = "list 0 group 0 1\n"
        filed = self.due.text.replace(line, f"{line}list 0 group 2 3\n")
        for text, name in ((filed, "a"), (filed.replace("sha256 b", "sha256 c"), None)):
            found = compare(text, self.due, self.names)
            (values,) = (each.values(self.names, found.same_plan) for each in found.differences)
            self.assertEqual((values["list_name"], values["router_name"]), ("one", name))

    def test_cut(self) -> None:
        text, program = self.due.text, self.due.program
        self.assertEqual(self.said(""), "the verdict is empty")
        ends = "the lines are right, but do not end as rrp file ends them"
        self.assertEqual((self.said(text[:-1]), self.said(program[:-1])), (ends, ends))
        last = repr(text.splitlines()[-1])
        cut = self.said(text[: text.index("sha256")])
        self.assertEqual(cut, f"line 9: filed no line, is {last}")
        missing = "it has no line of the plan's SHA-256: the plan may be another than the one filed"
        for place in (1, text.index("group"), text.index("sha256"), len(text) - 3):
            last = compare(text[:place], self.due, self.names).details[-1]
            self.assertEqual(last[: len(missing)], missing)


if __name__ == "__main__":
    unittest.main()
