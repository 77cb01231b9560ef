"""`rrp check` of several plans: a line each, and the exit status of all."""

from __future__ import annotations

import json
import os
import unittest

from rrp import Plan
from rrp.rest import AS_THEY_STAND

from .folders import InFolder, write
from .support import EXAMPLES, TESTS, rrp

YEAR = f"{TESTS}/plans/year"
HOP, NET, GONE = (f"{EXAMPLES}/{name}.rrp" for name in ("hop", "net", "gone"))
LEFT_OUT = f"{TESTS}/plans/left-out.rrp"


class Several(InFolder):
    """What is said of each plan is what `check` says of it alone."""

    def test_each_is_judged_as_alone(self) -> None:
        values = json.loads(rrp("check", EXAMPLES, LEFT_OUT, "--json").output)
        self.assertGreater(len(values["judged"]), 7)
        for each in values["judged"]:
            alone = json.loads(rrp("check", each["plan"], "--json").output)["lists"]
            suspect = [one["list"] for one in alone if not one["stable"]]
            lacking = [one["list"] for one in alone if one["stable"] and one["without_route"]]
            nobody = [one["list"] for one in alone if not one["routers"]]
            self.assertEqual(each["suspect_lists"], suspect)
            grades = {one["list"]: one["grade"] for one in alone if not one["stable"]}
            self.assertEqual(each["grades"], grades)
            self.assertEqual(each["lists_without_route"], lacking)
            self.assertEqual(each["lists_of_nobody"], nobody)
            self.assertEqual((each["stable"], each["lists"]), (not suspect, len(alone)))

    def test_a_line_each(self) -> None:
        lines = rrp("check", NET, HOP, GONE, LEFT_OUT).output.splitlines()
        words = {line.split()[0]: line.split(maxsplit=2)[1:] for line in lines[1:-1]}
        self.assertEqual(words[NET], ["suspect", "1 of 3 lists: transit (never comes to rest)"])
        self.assertEqual(words[HOP], ["stable", "2 lists"])
        self.assertEqual(words[GONE], ["stable", "2 lists; nobody in gone"])
        self.assertEqual(words[LEFT_OUT], ["stable", "2 lists; routers without a route in one"])
        due = "4 plans judged: 3 stable for all lists, 1 suspect for some"
        self.assertEqual(lines[-1], due)

    def test_exit_status(self) -> None:
        for words, status in (
            ([HOP, GONE], 0),
            ([HOP, GONE, "--strict"], 1),
            ([HOP, LEFT_OUT, "--strict"], 1),
            ([HOP, NET], 1),
            ([HOP, "--strict", HOP], 0),
            ([HOP, "missing.rrp"], 2),
            ([NET, "missing.rrp"], 2),
            ([YEAR], 2),
            ([HOP, HOP], 0),
        ):
            for more in ([], ["--json"]):
                self.assertEqual(rrp("check", *words, *more).status, status, words)

    def test_what_is_not_judged_is_told(self) -> None:
        answer = rrp("check", YEAR)
        self.assertIn("damaged.plan  not judged  refused 5: ", answer.output)
        self.assertRegex(answer.output, r"slip\.rrp +not judged  the plan's text has 2 errors, ")
        self.assertTrue(answer.output.endswith("; 2 not judged\n"))
        values = json.loads(rrp("check", YEAR, "--json").output)
        self.assertEqual((values["not_judged"], len(values["errors"])), (2, 3))

    def test_a_list_for_a_plan_is_told_where_lists_are_explained(self) -> None:
        output = rrp("check", NET, "transit").output
        self.assertRegex(output, r"\ntransit +not judged +cannot be read: No such file ")
        advice = "check judges all lists of a plan: rrp show PLAN LIST explains one"
        self.assertTrue(output.endswith(f"\n{advice}\n"))

    def test_a_folder_without_a_plan(self) -> None:
        os.mkdir("empty")
        answer = rrp("check", "empty")
        self.assertEqual((answer.status, answer.output), (2, ""))

    def test_many_on_all_cores(self) -> None:
        self.library(130)
        write("slip.rrp", "lnk\n")
        answer = rrp("check", ".")
        lines = answer.output.splitlines()
        self.assertEqual((answer.status, len(lines)), (2, 134))
        due = "130 plans judged: 0 stable for all lists, 130 suspect for some; 1 not judged"
        self.assertEqual(lines[-1], due)
        self.assertEqual(lines[-2], AS_THEY_STAND)
        self.assertEqual(lines[1:-3], sorted(lines[1:-3]))

    def test_a_file_is_judged_once(self) -> None:
        self.copy(HOP, "hop.rrp")
        values = json.loads(rrp("check", "hop.rrp", "./hop.rrp", ".", "--json").output)
        self.assertEqual([each["plan"] for each in values["judged"]], ["hop.rrp"])
        self.assertEqual(Plan.read("hop.rrp").lists, ("transit", "backup"))


if __name__ == "__main__":
    unittest.main()
