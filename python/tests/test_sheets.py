"""Sheets of links and of sessions: what is read is what the lines of a text would state; what is
wrong is told at the sheet's line and column."""

from __future__ import annotations

import json
import os
import unittest

from rrp import Plan, TextErrors

from .folders import InFolder, write
from .support import EXAMPLES, read, rrp

ROUTERS = """\
reflector p 10.0.0.1
reflector q 10.0.0.2
client x 10.0.1.1
client y 10.0.2.1
list all x y
"""
PLAN = f"{ROUTERS}links from links.csv\nsessions from sessions.csv\n"
LINKS = "a,b,weight\np,x,10\nq,y,10\np,y,6\nq,x,6\n"
SESSIONS = "a,b\np,q\np,x\nq,y\n"
TEXT = f"""\
{ROUTERS}
link p x 10
link q y 10
link p y 6
link q x 6
session p q
session p x
session q y
"""


class Sheets(InFolder):
    """What sheets say."""

    def setUp(self) -> None:
        super().setUp()
        write("plan.rrp", PLAN)
        write("links.csv", LINKS)
        write("sessions.csv", SESSIONS)

    def problems(self) -> list[str]:
        """The places and messages of the problems of the plan."""
        with self.assertRaises(TextErrors) as raised:
            Plan.read("plan.rrp")
        return [each.report().split("\n")[0] for each in raised.exception.problems]

    def test_a_sheet_says_what_lines_would(self) -> None:
        self.assertEqual(Plan.read("plan.rrp").data, Plan.parse(TEXT).data)

    def test_the_bundled_sheets(self) -> None:
        sheets, net = Plan.read(f"{EXAMPLES}/sheets.rrp"), Plan.read(f"{EXAMPLES}/net.rrp")
        self.assertEqual((sheets.data, sheets.lists), (net.data, net.lists))

    def test_forms_of_a_sheet(self) -> None:
        due = Plan.parse(TEXT).data
        for links in (
            LINKS.replace(",", ";"),
            LINKS.replace(",", "\t"),
            LINKS.replace("\n", "\r\n"),
            f"\ufeff{LINKS}",
            LINKS.replace("a,b,weight", "A, B ,Weight"),
            LINKS.replace("p,x,10", '"p" , "x",  10'),
            LINKS.replace("p,x,10", "\n,,\np,x,10,,"),
            "circuit,weight,b,a\n#1,10,x,p\n\"c2, old\",10,y,q\n,6,y,p\nc4,6,x,q\n",
            "from,to,weight\n" + "".join(
                f"{one},{other},{way}\n{other},{one},{way}\n"
                for one, other, way in ("px0", "qy0", "py6", "qx6")
            ).replace("0\n", "10\n"),
        ):
            write("links.csv", links)
            self.assertEqual(Plan.read("plan.rrp").data, due, links)

    def test_one_way_and_down(self) -> None:
        write("links.csv", "from,to,weight\np,x,3\nx,p,4\np,y,none\nq,y,1\ny,q,1\nx,q,1\nq,p,1\n")
        plan = Plan.read("plan.rrp")
        ways = [plan.distance(*ends) for ends in ("px", "xp", "py", "xq")]
        self.assertEqual(ways, [3, 2, 5, 1])

    def test_the_folder_is_that_of_the_plan(self) -> None:
        os.mkdir("below")
        for name in ("plan.rrp", "links.csv", "sessions.csv"):
            os.rename(name, f"below/{name}")
        self.assertEqual(Plan.read("below/plan.rrp").data, Plan.parse(TEXT).data)

    def test_places(self) -> None:
        for sheet, old, new, said in (
            ("links", "p,y,6", "# p,y,6", "links.csv:4:1: # p in a is no router's name"),
            ("links", "p,y,6", "p,yy,6", "links.csv:4:3: no router is named yy"),
            ("links", "p,y,6", "p,y,0", "links.csv:4:5: the weight 0 is out of range"),
            ("links", "p,y,6", "p,y,six", "links.csv:4:5: six is no number"),
            ("links", "p,y,6", "p,y", "links.csv:4:5: the weight is missing"),
            ("links", "p,y,6", ",y,6", "links.csv:4:1: the router in a is missing"),
            ("links", "p,y,6", "y,y,6", "links.csv:4:3: a link from y to itself"),
            ("links", "p,y,6", "x,p,6", "links.csv:4:1: the link from x to p is given twice"),
            ("links", "p,y,6", '"p y",y,6', "links.csv:4:2: p y in a is no router's name"),
            ("links", "p,y,6", '"p,y,6', "links.csv:4:1: a quote is not closed"),
            ("links", "weight", "wieght", "links.csv:1:5: there is no column weight"),
            ("links", "a,b,", "a,to,", "links.csv:1:1: the ends of a link are a and b"),
            ("links", "a,b,", "a,a,", "links.csv:1:3: the column a is there twice"),
            ("sessions", "p,q", "p,z", "sessions.csv:2:3: no router is named z"),
            ("sessions", "p,q", "x,p", "sessions.csv:3:3: the session of p and x is given twice"),
            ("sessions", "a,b", "p,q", "sessions.csv:1:1: there is no column a"),
        ):
            before = read(f"{sheet}.csv")
            self.assertEqual(before.count(old), 1)
            write(f"{sheet}.csv", before.replace(old, new))
            (found,) = self.problems()
            self.assertTrue(found.startswith(said), (found, said))
            write(f"{sheet}.csv", before)

    def test_what_is_given_in_text_and_sheet(self) -> None:
        write("plan.rrp", f"{PLAN}link p x 10\n")
        answer = rrp("check", "plan.rrp")
        self.assertIn("plan.rrp:8:6: the link from p to x is given twice\n", answer.errors)
        self.assertIn("links.csv, line 2 gives it already: leave one out", answer.errors)

    def test_files_that_cannot_be_read(self) -> None:
        os.remove("links.csv")
        (found,) = self.problems()
        said = "plan.rrp:6:12: links.csv cannot be read: No such file or directory"
        self.assertEqual(found, said)
        os.mkfifo("links.csv")
        self.assertEqual(self.problems(), ["plan.rrp:6:12: links.csv is no file"])
        os.remove("links.csv")
        write("links.csv", "\n ,,\n")
        self.assertEqual(self.problems(), ["plan.rrp:6:12: links.csv is empty"])
        with open("links.csv", "wb") as file:
            file.write("a,b,weight\np,Ü,1\n".encode("latin-1"))
        self.assertEqual(self.problems(), ["links.csv:2:3: here the file is no text"])

    def test_the_statement(self) -> None:
        for line, said in (
            ("links links.csv", "plan.rrp:8:7: from is missing after links"),
            ("links from", "plan.rrp:8:12: the name of the file is missing"),
            ("links from a b", "plan.rrp:8:14: b is a word too many"),
        ):
            write("plan.rrp", f"{PLAN}{line}\n")
            self.assertEqual(self.problems(), [said])

    def test_problems_of_the_text_come_first(self) -> None:
        write("plan.rrp", f"{PLAN}session p z\n")
        write("links.csv", LINKS.replace("p,y,6", "p,y,six"))
        found = [each.split(":")[0] for each in self.problems()]
        self.assertEqual(found, ["plan.rrp", "links.csv"])
        (one, two) = json.loads(rrp("check", "plan.rrp", "--json").output)["errors"]
        self.assertEqual((one["file"], two["file"]), ("plan.rrp", "links.csv"))
        self.assertEqual((two["line"], two["column"], two["text"]), (4, 5, "p,y,six"))

    def test_too_far_is_told_at_the_sheet(self) -> None:
        write("links.csv", "a,b,weight\np,x,60000\nx,y,60000\nq,y,1\n")
        (found,) = self.problems()
        self.assertTrue(found.startswith("links.csv:3:1: with this link it is "), found)

    def test_an_audit_and_figures_name_the_sheet(self) -> None:
        self.assertEqual(rrp("file", "plan.rrp").status, 1)
        self.assertEqual(rrp("audit", ".").status, 0)
        write("links.csv", LINKS.replace("p,y,6", "p,y,16"))
        self.assertIn("false: ./plan.rrp: list 0 (all): filed suspect", rrp("audit", ".").output)
        write("links.csv", LINKS.replace("p,y,6", "p,y,six"))
        said = "1 error, as in ./links.csv, line 4: six is no number"
        self.assertIn(said, rrp("audit", ".").output)
        self.assertIn(said, rrp("figures", ".").output)
        self.assertIn(said, rrp("check", ".").output)

    def test_a_sheet_is_not_written_over(self) -> None:
        for command in ("pack", "unpack"):
            answer = rrp(command, "plan.rrp", "-o", "links.csv")
            said = "rrp: links.csv is a sheet that is read: name another file to write\n"
            self.assertEqual((answer.status, answer.errors), (2, said))
        self.assertEqual(read("links.csv"), LINKS)

    def test_a_change_goes_in_place_of_a_line_of_a_sheet(self) -> None:
        plan = Plan.read("plan.rrp").changed("link p y 16", "session p x none")
        self.assertEqual((plan.distance("p", "y"), plan.neighbours("x")), (16, ()))


if __name__ == "__main__":
    unittest.main()
