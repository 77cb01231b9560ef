"""The figures of a plan are counted from its verdicts, sums are those of the plans, and the command
says both as text, as JSON and as CSV."""

from __future__ import annotations

import csv
import io
import json
import os
import random
import unittest
from collections import Counter
from unittest import mock

from rrp import Figures, Plan, Refused, library
from rrp.encoding import Model, encode
from rrp.figure_tables import figure_lines
from rrp.figures import Counted, counted, sums_of
from rrp.plan_folders import Failed, of_file
from rrp.plan_folders import files_of, is_plan
from rrp.rest import rest_of

from .folders import InFolder, write
from .networks import random_network
from .support import EXAMPLES, STORED_PLANS, TESTS, Answer, rrp, rrp_process
from .test_hop_set import lists_of
from .test_roundtrip import stored_plans
from .test_steady import cycles, meshes, tangle

M3, NET, LOAD = f"{EXAMPLES}/m3.plan", f"{EXAMPLES}/net.rrp", f"{EXAMPLES}/load.rrp"
GONE = f"{EXAMPLES}/gone.rrp"
YEAR = f"{TESTS}/plans/year"
HEAD = "lists in which it is in a group of two or more"
TAKEN = "routers of several plans are taken for one where name and identifier are the same"
NAMELESS = "a router without a name, as in plans in bytes, is known by its identifier"


def from_verdicts(plan: Plan) -> Figures:
    """The figures, from the verdict for each list: a router is in a group of two or more if another
    has its label."""
    ranks, grouped = [0] * len(plan.routers), dict.fromkeys(plan.routers, 0)
    verdicts = plan.verdicts()
    for verdict in verdicts:
        if verdict.stable:
            ranks[verdict.highest] += 1
        shared = Counter(verdict.labels.values())
        for router, label in verdict.labels.items():
            grouped[router] += shared[label] > 1
    stable = [verdict.highest for verdict in verdicts if verdict.stable]
    highest = max(stable, default=None)
    suspect = [rest_of(plan, verdict) for verdict in verdicts if not verdict.stable]
    grades = dict(Counter(rest.number for rest in suspect))
    return Figures(len(stable), len(suspect), highest, tuple(ranks), grouped, grades)


def table(answer: Answer, head: str) -> list[list[str]]:
    """The rows of the table under a head, word by word."""
    lines = answer.output.splitlines()
    start = next(at for at, line in enumerate(lines) if line.split("  ")[0] == head)
    rows = []
    for line in lines[start + 1 :]:
        if not line or line.startswith(("the other ", ".. and ", "routers of ", "a router ")):
            return rows
        rows.append(line.split())
    return rows


def csv_rows(text: str) -> list[dict[str, str]]:
    """The lines of a CSV."""
    return list(csv.DictReader(io.StringIO(text)))


class OfAPlan(unittest.TestCase):
    """`Plan.figures`."""

    def check(self, plan: Plan) -> Figures:
        """The figures of a plan are those of its verdicts, and add up."""
        found = plan.figures()
        self.assertEqual(found, from_verdicts(plan))
        self.assertEqual(found.lists, len(plan.lists))
        self.assertEqual(sum(found.by_rank), found.stable)
        counted_ranks = [rank for rank, count in enumerate(found.by_rank) if count]
        self.assertEqual(found.highest, max(counted_ranks, default=None))
        sizes = [len(group) for verdict in plan.verdicts() for group in verdict.groups]
        self.assertEqual(sum(found.by_router.values()), sum(sizes))
        self.assertEqual(found.suspect == 0, not any(found.by_router.values()))
        return found

    def test_stored_plans(self) -> None:
        absent = 0
        for path, data in stored_plans():
            absent += self.check(Plan.from_bytes(data, path)).highest is None
        self.assertGreater(absent, 0)

    def test_random_networks(self) -> None:
        draw, seen = random.Random(4456), Counter()
        plans = [random_network(draw) for _ in range(150)]
        plans += [lists_of(draw, tangle(draw, size)) for size in (3, 4, 5, 6) for _ in range(20)]
        for plan in plans:
            found = self.check(plan)
            seen["absent"] += found.highest is None
            seen["several"] += max(found.by_router.values()) > 1
            seen["both"] += bool(found.stable and found.suspect)
        self.assertGreater(min(seen.values()), 4, seen)

    def test_m3(self) -> None:
        for plan in (Plan.read(M3), Plan.read(M3).widened()):
            grouped = {"r0": 1, "r1": 1, "r2": 0, "r3": 0}
            self.assertEqual(self.check(plan), (1, 1, 3, (0, 0, 0, 1), grouped, {1: 1}))

    def test_no_stable_list(self) -> None:
        model = Plan.read(M3).model._replace(lists=[[2, 3]] * 64)
        found = self.check(Plan(encode(model)))
        self.assertEqual(found[:4], (0, 64, None, (0, 0, 0, 0)))
        self.assertEqual(list(found.by_router.values()), [64, 64, 0, 0])

    def test_rank_0_is_no_absence(self) -> None:
        plan = Plan(encode(Model([1, 1], [1, 2], [], [[0, 9], [9, 0]], [[0], [], [0, 1]])))
        self.assertEqual(self.check(plan), (3, 0, 0, (3, 0), {"r0": 0, "r1": 0}, {}))

    def test_64_lists_of_64_routers(self) -> None:
        plan = Plan.read(f"{STORED_PLANS}/largest.plan")
        self.assertEqual((len(plan.routers), len(plan.lists)), (64, 64))
        found = self.check(plan)
        self.assertEqual((found.stable, found.by_rank[0], len(found.by_rank)), (64, 64, 64))

    def test_groups_and_not_cycles(self) -> None:
        for text, size in ((cycles(3, 4, 2), 9), (meshes(4, 3), 7)):
            plan = Plan.parse(text)
            self.assertLess(len(plan.verdict(0).cycle), size)
            self.assertEqual(sum(self.check(plan).by_router.values()), size)

    def test_more_than_twelve_in_groups(self) -> None:
        found = self.check(Plan.read(f"{TESTS}/plans/thirteen.rrp"))
        self.assertEqual(sum(found.by_router.values()), 13)

    def test_nobody(self) -> None:
        self.assertEqual(self.check(Plan.read(GONE))[:3], (2, 0, 2))

    def test_another_mark(self) -> None:
        draw = random.Random(4456)
        for plan in (random_network(draw) for _ in range(30)):
            self.assertEqual(plan.widened().figures(), plan.figures())

    def test_a_refusal(self) -> None:
        plan = Plan.read(M3)
        plan.data = plan.data[:46] + b"\1" + plan.data[47:]
        with self.assertRaises(Refused) as caught:
            plan.figures()
        self.assertEqual(caught.exception.number, 5)


class Summed(unittest.TestCase):
    """`sums_of`."""

    def plan(self, *names: str, first: int = 10, lists: int = 1) -> Counted:
        """A plan of routers with these names, which are all in a group in every list."""
        by_router = dict.fromkeys(names, lists)
        figures = Figures(0, lists, None, (0,) * len(names), by_router, {4: lists})
        return Counted("x", figures, 0, tuple(range(first, first + len(names))))

    def rows(self, *plans: Counted) -> list[tuple[object, ...]]:
        """The routers of the sums: name, identifier, plans, lists."""
        return [each[:4] for each in sums_of(plans).by_router]

    def test_of_random_networks(self) -> None:
        draw = random.Random(4456)
        plans = [lists_of(draw, tangle(draw, draw.randint(3, 6))) for _ in range(40)]
        sums = sums_of([counted(plan) for plan in plans])
        figures = [plan.figures() for plan in plans]
        self.assertEqual(sums.lists, sum(len(plan.lists) for plan in plans))
        self.assertEqual(sums.stable, sum(each.stable for each in figures))
        self.assertEqual(sums.suspect, sum(each.suspect for each in figures))
        self.assertEqual(sums.highest, max(each.highest or 0 for each in figures))
        self.assertEqual(len(sums.by_rank), max(len(each.by_rank) for each in figures))
        for rank, count in enumerate(sums.by_rank):
            due = sum(each.by_rank[rank] for each in figures if rank < len(each.by_rank))
            self.assertEqual(count, due)
        grouped = sum(sum(each.by_router.values()) for each in figures)
        self.assertEqual(sum(each.grouped for each in sums.by_router), grouped)
        counts = [each.grouped for each in sums.by_router]
        self.assertEqual(counts, sorted(counts, reverse=True))

    def test_one_plan_has_its_own_figures(self) -> None:
        for path in (M3, NET, LOAD, GONE):
            plan = Plan.read(path)
            figures, sums = plan.figures(), sums_of([counted(plan)])
            self.assertEqual((sums.stable, sums.suspect), (figures.stable, figures.suspect))
            self.assertEqual((sums.highest, sums.by_rank), (figures.highest, figures.by_rank))
            by_router = {each.name: each.grouped for each in sums.by_router}
            self.assertEqual(by_router, figures.by_router)

    def test_most_often_first_and_else_by_number(self) -> None:
        sums = sums_of([counted(Plan.read(LOAD))])
        found = [(each.name, each.grouped) for each in sums.by_router]
        self.assertEqual(found[:3], [("par-rr", 3), ("lon-rr", 2), ("fra-rr", 2)])
        self.assertEqual(found[3:], [("lon-a", 0), ("par-a", 0), ("fra-a", 0)])

    def test_same_name_and_identifier(self) -> None:
        one, other = self.plan("a", "b", lists=2), self.plan("a", "c", lists=3)
        rows = [("a", 10, 2, 5), ("c", 11, 1, 3), ("b", 11, 1, 2)]
        self.assertEqual(self.rows(one, other), rows)

    def test_same_name_of_another_identifier(self) -> None:
        rows = self.rows(self.plan("a"), self.plan("a", first=20))
        self.assertEqual(rows, [("a", 10, 1, 1), ("a", 20, 1, 1)])

    def test_a_name_that_says_the_number_says_nothing_of_another_plan(self) -> None:
        one, other = self.plan("r0", "r1"), self.plan("r0", "r1", first=11)
        rows = [(None, 11, 2, 2), (None, 10, 1, 1), (None, 12, 1, 1)]
        self.assertEqual(sorted(self.rows(one, other), key=lambda row: -row[2]), rows)
        self.assertEqual(self.rows(one), [("r0", 10, 1, 1), ("r1", 11, 1, 1)])
        swapped = self.rows(self.plan("r1", "r0"), self.plan("x"))
        self.assertEqual([row[0] for row in swapped], ["r1", "x", "r0"])

    def test_absent(self) -> None:
        none, some = self.plan("a"), counted(Plan.read(GONE))
        self.assertIsNone(sums_of([none, none]).highest)
        self.assertEqual(sums_of([none, some]).highest, 2)
        self.assertEqual(sums_of([]).highest, None)
        self.assertEqual((sums_of([]).lists, sums_of([]).by_rank), (0, ()))

    def test_nobody(self) -> None:
        plans = [counted(Plan.read(path)) for path in (GONE, NET, GONE)]
        self.assertEqual((plans[0].nobody, plans[1].nobody, sums_of(plans).nobody), (1, 0, 2))


class Files(InFolder):
    """Which files are counted."""

    def test_names(self) -> None:
        names = {"a.rrp", "b.plan", "c", "c.verdict", "d.rrp.verdict", "e.txt", "plan", "rrp"}
        plans = sorted(name for name in names if is_plan(name, names))
        self.assertEqual(plans, ["a.rrp", "b.plan", "c"])

    def test_below(self) -> None:
        os.makedirs("year/below")
        for name in ("year/b.rrp", "year/a.plan", "year/below/c.rrp", "year/notes"):
            write(name, "")
        files = files_of(["year"])
        due = ["year/a.plan", "year/b.rrp", "year/below/c.rrp"]
        self.assertEqual(files, ([], due, []))
        self.assertEqual(files_of(["x", "year/below"]), (["x"], ["year/below/c.rrp"], []))

    def test_each_file_once(self) -> None:
        os.mkdir("year")
        write("year/a.rrp", "")
        os.symlink("a.rrp", "year/b.rrp")
        self.assertEqual(files_of(["year", "year/a.rrp", "year"]), ([], ["year/a.rrp"], []))
        self.assertEqual(files_of(["year/a.rrp", "year"]), (["year/a.rrp"], [], []))
        self.assertEqual(files_of(["-", "-", "x", "./x"]), (["-", "x"], [], []))

    def test_no_plan_there(self) -> None:
        os.mkdir("year")
        ((path, failure),) = files_of(["year"]).failures
        said = "year has no plan: no name there ends in .rrp or .plan"
        self.assertEqual((path, str(failure)), ("year", said))

    def test_what_cannot_be_read(self) -> None:
        os.mkdir("year")
        denied = PermissionError(13, "Permission denied", "year")
        with mock.patch("os.scandir", side_effect=denied):
            ((path, failure),) = files_of(["year"]).failures
        self.assertEqual((path, str(failure)), ("year", "year cannot be read: Permission denied"))

    def test_a_pipe_that_is_found_is_not_waited_for(self) -> None:
        os.mkfifo("pipe.plan")
        found = of_file(counted, "pipe.plan", below=True)
        self.assertEqual(found[:2], ("pipe.plan", "pipe.plan is no file"))

    def test_why_not(self) -> None:
        write("slip.rrp", "reflector a 1\nlst x a\nlist x b\n")
        cases = {
            "slip.rrp": "slip.rrp: the plan's text has 2 errors, as in line 2: no statement starts "
            "with lst",
            "missing": "missing cannot be read: No such file or directory",
            f"{YEAR}/damaged.plan": f"{YEAR}/damaged.plan: refused 5: {library.REFUSALS[5]}",
        }
        for path, why in cases.items():
            found = of_file(counted, path, below=False)
            self.assertIsInstance(found, Failed)
            self.assertEqual((found.path, found.why), (path, why))
        self.assertEqual(len(of_file(counted, "slip.rrp", False).errors), 2)

    def test_a_missing_library_is_no_plan_that_is_not_counted(self) -> None:
        places = mock.patch.object(library, "places", lambda: ["/no/a.so"])
        loaded = mock.patch.object(library, "_loaded", None)
        with places, loaded, mock.patch.dict(os.environ):
            os.environ.pop("RRP_LIBRARY", None)
            answer = rrp("figures", EXAMPLES)
        self.assertEqual((answer.status, answer.output), (2, ""))
        self.assertIn("./build", answer.errors)


class OnePlan(InFolder):
    """`rrp figures PLAN`."""

    def test_tables(self) -> None:
        answer = rrp("figures", LOAD)
        self.assertEqual((answer.status, answer.errors), (1, ""))
        lines = answer.output.splitlines()
        self.assertEqual(lines[0], rrp("check", LOAD).output.splitlines()[0])
        self.assertEqual(lines[1], "4 lists: 1 stable, 3 suspect")
        self.assertEqual(lines[2], "of the suspect lists 3 come to rest whatever the order")
        self.assertEqual(lines[3], "highest rank among the stable lists: 3")
        ranks = ["0 to 2        2 to 4 rounds   0", "3             5 rounds        1  #"]
        self.assertEqual(lines[5:8], ["highest rank  settles within  stable lists", *ranks])
        rows = [["par-rr", "3", "of", "4", "###"], ["lon-rr", "2", "of", "4", "##"]]
        self.assertEqual(table(answer, "router"), [*rows, ["fra-rr", "2", "of", "4", "##"]])
        self.assertIn(f"\nrouter  {HEAD}\n", answer.output)
        self.assertIn("\nthe other 3 routers are in no such group\n\nsuspect says ", answer.output)
        self.assertTrue(lines[-1].endswith(f": rrp check {LOAD}"))

    def test_all_stable(self) -> None:
        answer = rrp("figures", GONE)
        self.assertEqual((answer.status, answer.errors), (0, ""))
        lines = answer.output.splitlines()
        nobody = "2 lists: 2 stable, 0 suspect; 1 of the stable ones names nobody"
        self.assertEqual(lines[1], nobody)
        self.assertEqual(lines[-1], "no router is in a group of two or more in any list")
        self.assertNotIn("settling is not promised", answer.output)

    def test_absent(self) -> None:
        answer = rrp("figures", f"{STORED_PLANS}/cycle-of-four.plan")
        self.assertEqual(answer.status, 1)
        self.assertIn("\nhighest rank among the stable lists: absent, as no list", answer.output)
        self.assertNotIn("settles within", answer.output)
        self.assertIn("\nthe other 4 routers are in no such group\n", answer.output)

    def test_rank_0(self) -> None:
        write("x.rrp", "reflector a 1\nlist x a\n")
        answer = rrp("figures", "x.rrp")
        self.assertIn("\nhighest rank among the stable lists: 0\n", answer.output)
        self.assertEqual(table(answer, "highest rank"), [["0", "2", "rounds", "1", "#"]])

    def test_ranks_without_a_list(self) -> None:
        for counts, due in (
            ([0, 0, 1], ["0", "1", "2"]),
            ([0, 0, 0, 1], ["0 to 2", "3"]),
            ([3, 0, 0, 0, 0, 2, 0, 0, 1], ["0", "1 to 4", "5", "6", "7", "8"]),
            ([1], ["0"]),
        ):
            by_rank = tuple(counts)
            sums = sums_of([counted(Plan.read(M3))])._replace(by_rank=(*by_rank, 0, 0, 0))
            lines = list(figure_lines(sums._replace(highest=len(counts) - 1), by_plan=False))
            rows = [line.split("  ")[0] for line in lines[5 : lines.index("", 5)]]
            self.assertEqual(rows, due)
            marks = [line.count("#") for line in lines[5 : lines.index("", 5)]]
            self.assertEqual(sum(marks), sum(counts))

    def test_every_router_in_a_group_has_a_row(self) -> None:
        write("x.rrp", cycles(32))
        answer = rrp("figures", "x.rrp")
        self.assertEqual(len(table(answer, "router")), 32)
        self.assertIn("\nthe other 32 routers are in no such group\n", answer.output)
        with mock.patch("rrp.figures.library.figures") as figures:
            figures.return_value = library.Counted(1, 0, 0, b"\1" + bytes(63), b"\1" * 63 + b"\0")
            output = rrp("figures", "x.rrp").output
        self.assertIn("\nthe other router is in no such group\n", output)

    def test_a_mark_for_several_lists(self) -> None:
        model = Plan.read(M3).model._replace(lists=[[2, 3]] * 41 + [[3]])
        with open("x.plan", "wb") as file:
            file.write(encode(model))
        answer = rrp("figures", "x.plan")
        self.assertIn(f"\nrouter  {HEAD} (a # for up to 2)\n", answer.output)
        self.assertEqual(table(answer, "router")[0], ["r0", "41", "of", "42", "#" * 21])
        self.assertIn("\nhighest rank  settles within  stable lists\n", answer.output)

    def test_standard_input(self) -> None:
        with open(NET, "rb") as file, rrp_process("figures", "-", stdin=file) as process:
            output, _ = process.communicate(timeout=60)
        first, *lines = output.decode().splitlines()
        self.assertTrue(first.startswith("standard input: 12 routers "))
        self.assertEqual(lines[:-1], rrp("figures", NET).output.splitlines()[1:-1])

    def test_json(self) -> None:
        answer = rrp("figures", NET, "--json")
        values = json.loads(answer.output)
        self.assertEqual(answer.status, 1)
        grades = [f"grade_{grade}_lists" for grade in (1, 2, 3, 4)] + ["not_graded_lists"]
        counts = ["plans", "lists", "stable_lists", "suspect_lists", *grades, "nobody_lists"]
        kinds = ["highest_rank", "not_counted", "by_rank", "by_router", "by_plan"]
        self.assertEqual(list(values), [*counts, *kinds, "errors", "notes"])
        self.assertEqual([values[name] for name in counts], [1, 3, 2, 1, 0, 0, 0, 1, 0, 0])
        self.assertEqual((values["highest_rank"], values["not_counted"]), (3, 0))
        ranks = [{"rank": rank, "stable_lists": 2 * (rank == 3)} for rank in range(12)]
        self.assertEqual(values["by_rank"], ranks)
        known = {"router": "lon-rr", "identifier": "10.0.0.1"}
        due = {**known, "plans": 1, "lists": 3, "grouped_lists": 1}
        self.assertEqual(values["by_router"][0], due)
        self.assertEqual(len(values["by_router"]), 12)
        own = {name: values[name] for name in counts[1:]}
        self.assertEqual(values["by_plan"], [{"plan": NET, **own, "highest_rank": 3}])

    def test_absent_as_values(self) -> None:
        path = f"{STORED_PLANS}/cycle-of-four.plan"
        values = json.loads(rrp("figures", path, "--json").output)
        self.assertIsNone(values["highest_rank"])
        self.assertIsNone(values["by_plan"][0]["highest_rank"])
        rows = csv_rows(rrp("figures", path, "--csv").output)
        found = [row["value"] for row in rows if row["figure"].startswith("highest_rank")]
        self.assertEqual(found, ["", ""])

    def test_notes(self) -> None:
        path = f"{TESTS}/plans/between.rrp"
        (note,) = json.loads(rrp("figures", path, "--json").output)["notes"]
        for words in ([], ["--csv"]):
            self.assertEqual(rrp("figures", path, *words).errors, f"note: {note}\n")

    def test_errors(self) -> None:
        write("slip.rrp", "reflector a 1\nlst x a\n")
        for path in ("missing", "slip.rrp", f"{YEAR}/damaged.plan"):
            answer, due = rrp("figures", path), rrp("check", path)
            self.assertEqual((answer.status, answer.output), (2, ""))
            self.assertEqual(answer.errors, due.errors)
            as_json = rrp("figures", path, "--json").output
            self.assertEqual(as_json, rrp("check", path, "--json").output)

    def test_two_forms(self) -> None:
        answer = rrp("figures", NET, "--json", "--csv")
        (error,) = json.loads(answer.output)["errors"]
        self.assertEqual(answer.status, 2)
        self.assertIn("--json and --csv are two forms of one answer", error["message"])


class SeveralPlans(InFolder):
    """`rrp figures DIR`, and several names."""

    def test_a_directory(self) -> None:
        answer = rrp("figures", YEAR)
        self.assertEqual((answer.status, answer.errors), (2, ""))
        lines = answer.output.splitlines()
        refused = f"not counted: {YEAR}/damaged.plan: refused 5: {library.REFUSALS[5]}"
        errors = f"not counted: {YEAR}/slip.rrp: the plan's text has 2 errors, as in line 3: "
        self.assertEqual(lines[0], refused)
        self.assertEqual(lines[1], f"{errors}no statement starts with clint")
        self.assertEqual(lines[2], "4 plans counted, 2 not counted")
        lists = "9 lists: 5 stable, 4 suspect; 1 of the stable ones names nobody"
        self.assertEqual(lines[3], lists)
        routers = table(answer, "router")
        self.assertEqual(routers[0], ["par-rr", "10.0.0.2", "3", "of", "7", "###"])
        self.assertEqual(routers[1], ["lon-rr", "10.0.0.1", "2", "of", "5", "##"])
        self.assertEqual(routers[2], ["-", "10", "1", "of", "2", "#"])
        plans = [[row[0], row[1]] for row in table(answer, "plan")]
        due = [["january.rrp", "2"], ["june.rrp", "1"], ["m3.plan", "1"]]
        self.assertEqual(plans, [[f"{YEAR}/{name}", count] for name, count in due])
        self.assertIn(f"\n{TAKEN}\n{NAMELESS}\n", answer.output)
        self.assertIn("\nthe other plan has none\n", answer.output)

    def test_sums_are_those_of_the_plans(self) -> None:
        names = ("january.rrp", "june.rrp", "m3.plan", "cut/july.rrp")
        paths = sorted(f"{YEAR}/{name}" for name in names)
        alone = [json.loads(rrp("figures", path, "--json").output) for path in paths]
        values = json.loads(rrp("figures", *paths, "--json").output)
        for name in ("plans", "lists", "stable_lists", "suspect_lists", "nobody_lists"):
            self.assertEqual(values[name], sum(each[name] for each in alone), name)
        self.assertEqual(values["highest_rank"], max(each["highest_rank"] for each in alone))
        self.assertEqual(values["by_plan"], [each["by_plan"][0] for each in alone])
        ranks = [row for each in alone for row in each["by_rank"]]
        for rank, row in enumerate(values["by_rank"]):
            due = sum(each["stable_lists"] for each in ranks if each["rank"] == rank)
            self.assertEqual(row, {"rank": rank, "stable_lists": due})
        below = json.loads(rrp("figures", YEAR, "--json").output)
        self.assertEqual(below["by_plan"], values["by_plan"])

    def test_an_audit_counts_the_same_lists(self) -> None:
        os.mkdir("year")
        for name in ("january.rrp", "june.rrp", "m3.plan", "damaged.plan"):
            rrp("file", self.copy(f"{YEAR}/{name}", f"year/{name}"))
        audit = json.loads(rrp("audit", "year", "--json").output)
        values = json.loads(rrp("figures", "year", "--json").output)
        names = ("stable_lists", "suspect_lists")
        self.assertEqual([values[name] for name in names], [audit[name] for name in names])
        self.assertEqual((audit["refused_plans"], values["not_counted"]), (1, 1))

    def test_csv_is_json_in_lines(self) -> None:
        for words in ([YEAR], [NET], [GONE, M3], [f"{STORED_PLANS}/cycle-of-four.plan"]):
            values = json.loads(rrp("figures", *words, "--json").output)
            rows = csv_rows(rrp("figures", *words, "--csv").output)
            self.assertEqual(rows, self.due_rows(values))

    def due_rows(self, values: dict) -> list[dict[str, str]]:
        """The lines that are due for values."""
        rows = []
        empty = dict.fromkeys(("figure", "rank", "router", "identifier", "plan", "value"), "")

        def add(figure: str, value: object, **known: object) -> None:
            cells = {"figure": figure, **known, "value": value}
            rows.append({**empty, **{k: "" if v is None else str(v) for k, v in cells.items()}})

        for name in values:
            if not isinstance(values[name], list):
                add(name, values[name])
        for row in values["by_rank"]:
            add("stable_lists_by_rank", row["stable_lists"], rank=row["rank"])
        for row in values["by_router"]:
            known = {"router": row["router"], "identifier": row["identifier"]}
            for name in ("plans", "lists", "grouped_lists"):
                add(f"{name}_by_router", row[name], **known)
        for row in values["by_plan"]:
            for name in list(row)[1:]:
                add(f"{name}_by_plan", row[name], plan=row["plan"])
        return rows

    def test_csv_says_what_is_missing(self) -> None:
        answer = rrp("figures", YEAR, "--csv")
        self.assertEqual(answer.status, 2)
        self.assertIn("\nnot_counted,,,,,2\n", answer.output)
        said = [line.split(": ")[1] for line in answer.errors.splitlines()]
        self.assertEqual(said, [f"{YEAR}/damaged.plan", f"{YEAR}/slip.rrp"])

    def test_names_with_commas(self) -> None:
        write("a,\"b.rrp", "reflector a,b 1\nreflector c\"d 2\nlist x a,b\n")
        rows = csv_rows(rrp("figures", ".", "--csv").output)
        self.assertEqual({row["router"] for row in rows if row["router"]}, {"a,b", "c\"d"})
        self.assertEqual({row["plan"] for row in rows if row["plan"]}, {"./a,\"b.rrp"})

    def test_json_errors(self) -> None:
        values = json.loads(rrp("figures", YEAR, "missing", "--json").output)
        self.assertEqual((values["plans"], values["not_counted"]), (4, 3))
        first, *slips, last = values["errors"]
        self.assertTrue(first["message"].startswith(f"{YEAR}/damaged.plan: refused 5: "))
        self.assertEqual([each["line"] for each in slips], [3, 4])
        self.assertEqual(last["message"], "missing cannot be read: No such file or directory")

    def test_statuses(self) -> None:
        self.assertEqual(rrp("figures", GONE, f"{EXAMPLES}/hop.rrp").status, 0)
        self.assertEqual(rrp("figures", GONE, NET).status, 1)
        self.assertEqual(rrp("figures", GONE, "missing").status, 2)
        self.assertEqual(rrp("figures", NET, "missing").status, 2)
        self.assertEqual(rrp("figures").status, 2)

    def test_none_is_counted(self) -> None:
        os.mkdir("year")
        write("year/slip.rrp", "lst\n")
        answer = rrp("figures", "year")
        said = "0 plans counted, 1 not counted"
        self.assertEqual((answer.status, answer.output.splitlines()[1:]), (2, [said]))
        rows = csv_rows(rrp("figures", "year", "--csv").output)
        self.assertEqual([row["value"] for row in rows], [*["0"] * 10, "", "1"])

    def test_a_directory_without_a_plan(self) -> None:
        os.mkdir("year")
        said = "year has no plan: no name there ends in .rrp or .plan\n"
        self.assertEqual(rrp("figures", "year"), (2, "", f"rrp: {said}"))
        answer = rrp("figures", "year", GONE)
        self.assertTrue(answer.output.startswith(f"not counted: {said}1 plan counted, 1 not "))

    def test_one_plan_in_a_directory(self) -> None:
        os.mkdir("year")
        self.copy(M3, "year/m3.plan")
        answer = rrp("figures", "year")
        self.assertEqual(table(answer, "router")[0], ["r0", "1", "of", "2", "#"])
        self.assertEqual(table(answer, "plan"), [["year/m3.plan", "1", "of", "2", "#"]])
        self.assertNotIn(TAKEN, answer.output)
        self.assertNotIn("the other plan", answer.output)

    def test_many_routers_and_plans(self) -> None:
        os.mkdir("year")
        for number in range(25):
            text = cycles(2).replace("a0", f"x{number}a").replace("a1", f"x{number}b")
            write(f"year/{number:02}.rrp", text)
        answer = rrp("figures", "year")
        self.assertEqual((len(table(answer, "router")), len(table(answer, "plan"))), (20, 20))
        self.assertIn("\n.. and 30 routers more, in 1 list\n", answer.output)
        self.assertIn("\n.. and 5 plans more, with 1 list each\n", answer.output)
        self.assertIn("\nthe other 50 routers are in no such group\n", answer.output)
        values = json.loads(rrp("figures", "year", "--json").output)
        self.assertEqual((len(values["by_router"]), len(values["by_plan"])), (100, 25))


class ManyPlans(InFolder):
    """A directory of many plans, on all cores."""

    def setUp(self) -> None:
        super().setUp()
        self.library(300)
        os.remove("007.plan")
        write("007.plan", "lst\n")

    def test_processes(self) -> None:
        with mock.patch("os.sched_getaffinity", return_value={0}):
            alone = rrp("figures", ".", "--json")
        with mock.patch("os.sched_getaffinity", return_value={0, 1, 2}):
            self.assertEqual(rrp("figures", ".", "--json"), alone)
        values = json.loads(alone.output)
        self.assertEqual((values["plans"], values["lists"], values["not_counted"]), (299, 598, 1))
        self.assertEqual(values["by_router"][0]["grouped_lists"], 299)

    def test_bars(self) -> None:
        answer = rrp("figures", ".")
        self.assertIn("\n299 plans counted, 1 not counted\n", answer.output)
        self.assertIn("stable lists (a # for up to 8)\n", answer.output)
        self.assertEqual(table(answer, "highest rank")[-1][-1], "#" * 38)

    def test_a_bar_while_it_counts(self) -> None:
        parent, terminal = os.openpty()
        with rrp_process("figures", ".", "--csv", stderr=terminal) as process:
            output, _ = process.communicate(timeout=60)
        os.close(terminal)
        shown = os.read(parent, 10000).decode()
        os.close(parent)
        self.assertEqual(output.decode(), rrp("figures", ".", "--csv").output)
        self.assertRegex(shown, r"^\r\[[#.]{30}\] [\d,]+ of 300 plans, \d not counted")
        _, said = shown.split("\r\x1b[K")
        self.assertTrue(said.startswith("not counted: ./007.plan: "), said)

    def test_no_bar_without_a_terminal(self) -> None:
        with rrp_process("figures", ".") as process:
            output, errors = process.communicate(timeout=60)
        self.assertEqual((output.decode(), errors), (rrp("figures", ".").output, b""))


if __name__ == "__main__":
    unittest.main()
