"""`rrp file`: what is filed is the verdict program's lines, and the whole verdict.

library/N-NAME.words: the words of commands, run one after the other in a folder that has copies of
the bundled plans; each writes what N-NAME.expected has. RRP_STORE=1 writes these anew.
RRP_PLANS names a folder that `second write` filled, for the verdict program's lines of more plans.
"""

from __future__ import annotations

import glob
import hashlib
import os
import shlex
import subprocess
import unittest

from .folders import InFolder, verdict_of, write
from .support import EXAMPLES, STORED_PLANS, TESTS, read, rrp

STORE = bool(os.environ.get("RRP_STORE"))
FOLDERS = [STORED_PLANS, *filter(None, [os.environ.get("RRP_PLANS")])]


def digest_line(path: str) -> str:
    """The last line of what is filed for a file of bytes."""
    with open(path, "rb") as file:
        return f"sha256 {hashlib.sha256(file.read()).hexdigest()}\n"


class Filing(InFolder):
    """What is filed."""

    def test_lines_are_those_of_the_verdict_program(self) -> None:
        paths = sorted(path for folder in FOLDERS for path in glob.glob(f"{folder}/*.plan"))
        self.assertGreater(len(paths), 10)
        names = [self.copy(path, f"{number}.plan") for number, path in enumerate(paths)]
        for first in range(0, len(names), 500):
            answer = rrp("file", "--damaged", *names[first : first + 500])
            self.assertEqual(answer.errors, "")
        for path, name in zip(paths, names):
            filed, lines = read(f"{name}.verdict"), read(f"{path[:-5]}.expected")
            self.assertEqual(filed[: len(lines)], lines, path)
            self.assertTrue(filed.endswith(f"\n{digest_line(path)}"), path)
            if lines.startswith("refused"):
                self.assertEqual(filed, lines + digest_line(path))
        self.assertEqual(rrp("audit", ".").status, 0)

    def test_status(self) -> None:
        stable, suspect, refused = (
            self.copy(f"{STORED_PLANS}/{name}.plan")
            for name in ("no-way-from-0-to-3", "cycle-of-four", "refused-5-session-with-itself")
        )
        self.assertEqual(rrp("file", stable).status, 0)
        self.assertEqual(rrp("file", stable, suspect).status, 1)
        self.assertEqual(rrp("file", refused, stable, suspect).status, 2)

    def test_lists_that_leave_routers_without_a_route_are_counted(self) -> None:
        plan = self.copy(f"{TESTS}/plans/left-out.rrp")
        lists = "2 lists, 0 suspect, 1 leaves routers without a route"
        self.assertEqual(rrp("file", plan).output, f"{plan}.verdict: filed: {lists}\n")
        write(plan, read(plan).replace("list two x z", "list two x\nlist three z"))
        lists = "3 lists, 0 suspect, 3 leave routers without a route"
        self.assertEqual(rrp("file", plan).output, f"{plan}.verdict: replaced: {lists}\n")

    def test_text_is_filed_as_its_bytes_are(self) -> None:
        net = self.copy(f"{EXAMPLES}/net.rrp")
        rrp("pack", net, "-o", "net.plan")
        self.assertEqual(rrp("file", net, "net.plan").status, 1)
        self.assertEqual(read("net.rrp.verdict"), read("net.plan.verdict"))

    def test_a_text_with_errors_is_not_filed(self) -> None:
        write("broken.rrp", "reflector a 1\nlist l b\n")
        plan = self.copy(f"{EXAMPLES}/m3.plan")
        answer = rrp("file", "broken.rrp", "missing.rrp", plan)
        self.assertEqual(answer.status, 2)
        self.assertIn("broken.rrp:2:8: no router is named b", answer.errors)
        self.assertIn("missing.rrp cannot be read", answer.errors)
        self.assertEqual(answer.output, "m3.plan.verdict: filed: 2 lists, 1 suspect\n")
        self.assertEqual(sorted(os.listdir()), ["broken.rrp", "m3.plan", "m3.plan.verdict"])

    def test_what_has_no_statement_is_taken_for_bytes(self) -> None:
        for data in (b"", b"R", b"RRP", b"3\n", b"\xff\xfe\x00", b"RRP2" + bytes(90), b"# list\n"):
            with open("x.plan", "wb") as file:
                file.write(data)
            self.assertEqual(rrp("file", "--damaged", "x.plan").status, 2)
            self.assertEqual(read("x.plan.verdict"), f"refused 1\n{digest_line('x.plan')}", data)
            self.assertEqual(rrp("audit", ".").status, 0)
            os.remove("x.plan.verdict")
            answer = rrp("file", "x.plan")
            self.assertEqual(answer.status, 2)
            self.assertEqual(os.path.exists("x.plan.verdict"), data.startswith(b"RRP"))
            self.assertEqual("x.plan is no plan: " in answer.errors, not data.startswith(b"RRP"))
        with open("y.rrp", "wb") as file:
            file.write(b"reflector a 1\nlist \xff a\n")
        answer = rrp("file", "y.rrp")
        self.assertEqual(answer.status, 2)
        self.assertIn("y.rrp:2:6: here the file is no text", answer.errors)
        self.assertFalse(os.path.exists("y.rrp.verdict"))

    def test_a_verdict_is_no_plan(self) -> None:
        plan = self.copy(f"{EXAMPLES}/m3.plan")
        self.assertEqual(rrp("file", plan).status, 1)
        for words in (["m3.plan.verdict"], ["--damaged", "m3.plan.verdict"]):
            answer = rrp("file", *words)
            self.assertEqual((answer.status, answer.output), (2, ""))
            self.assertIn("m3.plan.verdict is no plan", answer.errors)
        self.assertEqual(sorted(os.listdir()), ["m3.plan", "m3.plan.verdict"])
        write("m3.plan.verdict.verdict", "refused 1\n")
        answer = rrp("audit", ".")
        self.assertEqual(answer.status, 1)
        self.assertIn("stray: ./m3.plan.verdict.verdict: it is filed for a verdict", answer.output)

    def test_filed_again(self) -> None:
        plan = self.copy(f"{EXAMPLES}/m3.plan")
        for change in ("filed", "unchanged"):
            self.assertIn(f"m3.plan.verdict: {change}: ", rrp("file", plan).output)
        due, lines = verdict_of(plan), read(f"{EXAMPLES}/m3.verdicts")
        for text, change in (("routers 4\n", "replaced"), (lines, "completed")):
            write("m3.plan.verdict", text)
            self.assertIn(f"m3.plan.verdict: {change}: ", rrp("file", plan).output)
            self.assertEqual(read("m3.plan.verdict"), due)


class Stored(InFolder):
    """Outputs on the bundled plans, held to files."""

    def test_commands(self) -> None:
        for path in (f"{EXAMPLES}/net.rrp", f"{EXAMPLES}/m3.plan"):
            self.copy(path)
        os.mkdir("damaged")
        for name in ("empty", "refused-5-session-with-itself"):
            self.copy(f"{STORED_PLANS}/{name}.plan", f"damaged/{name}.plan")
        cases = sorted(glob.glob(f"{TESTS}/library/*.words"))
        self.assertGreater(len(cases), 4)
        for path in cases:
            for line in read(path).splitlines()[:-1]:
                subprocess.run(line, shell=True, check=True)
            text = rrp(*shlex.split(read(path).splitlines()[-1])).text()
            expected = f"{path[: -len('.words')]}.expected"
            if STORE:
                write(expected, text)
            self.assertEqual(text, read(expected), path)


if __name__ == "__main__":
    unittest.main()
