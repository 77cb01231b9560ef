"""`rrp audit`: what is right is said to be, and whatever is not is found and named."""

from __future__ import annotations

import json
import os
import shutil
import signal
import subprocess
import time
import unittest
from collections.abc import Callable

from rrp import auditing
from rrp.auditing import CHANGED, FALSE, RIGHT, UNREADABLE, find, judge, judge_all
from rrp.filing import verdict_path

from .folders import InFolder, verdict_of, write
from .support import EXAMPLES, STORED_PLANS, read, rrp, rrp_process


#: Of a library of the bundled plan.
SUMMARY = b"300 plans: 300 right, 0 false; lists judged: 300 stable, 300 suspect "
SUMMARY += b"(300 come to rest whatever the order)\n"

#: Edits of the bundled text, of a list, of a session and of a link, that leave the lines of the
#: verdict program as they are, and what is found first.
UNSEEN = (
    (
        "list peering  lon-b fra-b",
        "list peering  lon-b fra-a",
        "list 1 (peering), router 1 (par-rr): filed egress 4 from 0, "
        "is egress 9 (fra-a) from 2 (fra-rr)",
    ),
    (
        "of par-rr lon-rr",
        "of par-rr",
        "list 1 (peering), router 8 (mrs-a): filed egress 4 from 0, "
        "is egress 4 (lon-b) from 1 (par-rr)",
    ),
    (
        "link lon-b  man-a 12",
        "",
        "list 1 (peering), router 5 (man-a): filed egress 4 from 0, is nothing",
    ),
    (
        "mesh fra-a fra-b muc-a",
        "mesh fra-a fra-b muc-a\nsession muc-a par-rr",
        "list 1 (peering), router 11 (muc-a): filed rank 2, is rank 3",
    ),
)

#: What is said first of a plan that is not the one filed, where the verdict is the same.
CHANGED_PLAN = "another plan than the one filed, or its SHA-256 was altered"
LOOK = "look at what was edited, then file it anew with rrp file"

#: What is said last of a plan in text that is not the one filed.
OTHER_PLAN = "the plan is another than the one filed (names are those of the plan as it is now)"

#: Edits that leave every verdict, rank and route as it is.
HARMLESS = (
    ("link lon-a  lon-b 9", "link lon-a lon-b 10"),
    ("reflector lon-rr 10.0.0.1", "reflector lon-rr 9.0.0.1"),
)

#: Edits of the text that are none of the plan.
OF_THE_TEXT = (
    ("# LINX", "# a comment"),
    ("muc-a", "munich"),
    ("link lon-a  lon-b 9", "link lon-b lon-a 9"),
    ("link lon-a  lon-b 9", "link lon-a lon-b 9\nlink man-a mrs-a 900"),
    ("link lon-a  lon-b 9", "link lon-a lon-b 9\ndistance lon-a lon-b 9"),
    (
        "list peering  lon-b fra-b\nlist customer man-a mrs-a",
        "list customer lon-b fra-b\nlist peering  man-a mrs-a",
    ),
)


class Edits(InFolder):
    """A plan is edited after its verdict was filed."""

    def audit(self, old: str, new: str, lines_stay: bool = True) -> tuple[int, list[str]]:
        """The exit status and the lines of an audit of the bundled text with an edit, one that
        leaves the lines of the verdict program as they are unless it is said to change them."""
        text = read(f"{EXAMPLES}/net.rrp")
        self.assertIn(old, text)
        write("net.rrp", text)
        rrp("file", "net.rrp")
        filed = read("net.rrp.verdict")
        write("net.rrp", text.replace(old, new))
        answer = rrp("audit", ".")
        (anew,) = json.loads(rrp("file", "--json", "net.rrp").output)["filed"]
        self.assertEqual(anew["lines"] == filed.splitlines()[:4], lines_stay)
        return answer.status, answer.output.splitlines()

    def test_what_the_lines_do_not_show_is_found(self) -> None:
        for old, new, first in UNSEEN:
            status, lines = self.audit(old, new)
            self.assertEqual((status, lines[0]), (1, f"false: ./net.rrp: {first}"))
            self.assertEqual(lines[-2], f"    {OTHER_PLAN}")
            self.assertTrue(lines[-1].startswith("1 plan: 0 right, 1 false; lists judged: "))

    def test_numbers_of_another_plan_get_no_names(self) -> None:
        _, lines = self.audit("client lon-a 10.0.1.1", "client lon-a 10.0.9.1")
        self.assertIn("list 1 (peering), router 0 (lon-rr): filed egress 4 from 4, is ", lines[0])
        self.assertIn("is egress 3 (lon-b) from 3 (lon-b)", lines[0])
        self.assertEqual(lines[-2], f"    {OTHER_PLAN}")
        transit, customer = "list transit  lon-a par-a fra-a", "list customer man-a mrs-a"
        text = read(f"{EXAMPLES}/net.rrp")
        self.assertIn(f"{transit}\n", text)
        turned = f"{customer}\nlist peering lon-b fra-b\n{transit}\n"
        _, lines = self.audit(text[text.index(transit) :], turned, lines_stay=False)
        due = "list 0 (customer): filed suspect: 0 -> 1 -> 2 -> 0, is stable with highest rank 3"
        self.assertEqual(lines[0], f"false: ./net.rrp: {due}")
        due = "is suspect: 0 (lon-rr) -> 1 (par-rr) -> 2 (fra-rr) -> 0 (lon-rr)"
        self.assertEqual(lines[1], f"    list 2 (transit): filed stable with highest rank 3, {due}")
        self.assertEqual(sum(line.count("names are those") for line in lines), 1)

    def test_another_plan_of_the_same_verdict(self) -> None:
        for old, new in HARMLESS:
            status, lines = self.audit(old, new)
            self.assertEqual(status, 1)
            self.assertEqual(lines[0], f"changed: ./net.rrp: {CHANGED_PLAN}")
            self.assertEqual(lines[1], f"    every verdict, rank and route is the same: {LOOK}")
            lists = "lists judged: 2 stable, 1 suspect (1 never comes to rest)"
            self.assertEqual(lines[2:], [f"1 plan: 0 right, 0 false, 1 changed; {lists}"])

    def test_another_text_of_the_same_plan(self) -> None:
        for old, new in OF_THE_TEXT:
            status, lines = self.audit(old, new)
            self.assertEqual((status, len(lines)), (0, 1), lines)


class Auditing(InFolder):
    """What is found."""

    def kinds(self, processes: int) -> dict[str, str]:
        """What is found of each plan that is not right."""
        findings = judge_all(find(".").plans, processes)
        return {each.path: each.kind for each in findings if each.kind != RIGHT}

    def test_every_other_text_is_found(self) -> None:
        self.library(1)
        filed, lines = read("000.plan.verdict"), read(f"{EXAMPLES}/m3.verdicts")
        changed = {filed[:place] + "9" + filed[place + 1 :] for place in range(len(filed))}
        cut = {filed[:place] for place in range(len(filed))}
        other = {filed + "\n", filed.replace("\n", "\r\n"), filed + filed, "refused 1\n", "\xff"}
        kinds = {}
        for text in sorted((changed | cut | other) - {filed, lines}):
            write("000.plan.verdict", text)
            finding = judge("000.plan")
            self.assertNotEqual(finding.details, ())
            self.assertEqual(finding.due, filed, text)
            kinds.setdefault(finding.kind, []).append(text)
        self.assertEqual(set(kinds), {CHANGED, FALSE})
        before_digest = filed[: filed.index("sha256 ") + len("sha256 ")]
        for text in kinds[CHANGED]:
            self.assertTrue(text.startswith(before_digest) and text.endswith("\n"), text)

    def test_a_verdict_of_another_plan(self) -> None:
        self.library(300)
        shutil.copyfile(f"{STORED_PLANS}/cycle-of-four.plan", "123.plan")
        for processes in (1, 2, 3):
            self.assertEqual(self.kinds(processes), {"./123.plan": FALSE})
        answer = rrp("audit", ".")
        self.assertEqual(answer.status, 1)
        said = "false: ./123.plan: filed 4 routers and 2 lists, is 8 routers and 1 list\n"
        self.assertIn(said, answer.output)
        grades = "(299 come to rest whatever the order, 1 can always come to rest)"
        lists = f"lists judged: 299 stable, 300 suspect {grades}"
        self.assertTrue(answer.output.endswith(f"300 plans: 299 right, 1 false; {lists}\n"))

    def test_unreadable(self) -> None:
        self.library(2)
        os.remove("000.plan")
        os.symlink("nowhere", "000.plan")
        os.mkfifo("pipe.plan")
        self.copy("001.plan.verdict", "pipe.plan.verdict")
        answer = rrp("audit", ".", "--json")
        found = json.loads(answer.output)
        self.assertEqual((answer.status, found["right"], found["unreadable"]), (2, 1, 2))
        kinds = {each["path"]: each["kind"] for each in found["findings"]}
        self.assertEqual(kinds, {"./000.plan": UNREADABLE, "./pipe.plan": UNREADABLE})

    def test_any_name_that_has_a_verdict(self) -> None:
        self.copy(f"{EXAMPLES}/m3.plan", "plan of\nMarch é")
        write(verdict_path("plan of\nMarch é"), verdict_of("plan of\nMarch é"))
        write("notes", "no plan")
        judged = "lists judged: 1 stable, 1 suspect (1 comes to rest whatever the order)"
        summary = f"1 plan: 1 right, 0 false; {judged}\n"
        self.assertEqual(rrp("audit", "."), (0, summary, ""))

    def test_a_fault_of_a_process_is_no_silence(self) -> None:
        self.library(300)
        before, auditing.judge = auditing.judge, None
        self.addCleanup(setattr, auditing, "judge", before)
        with self.assertRaisesRegex(RuntimeError, "not callable"):
            list(judge_all(find(".").plans, 2))

    def test_a_process_that_is_ended(self) -> None:
        self.library(300)

        def end(path: str) -> None:
            os._exit(0)

        before, auditing.judge = auditing.judge, end
        self.addCleanup(setattr, auditing, "judge", before)
        with self.assertRaisesRegex(auditing.RrpError, "300 plans were not judged"):
            list(judge_all(find(".").plans, 2))


class Told(InFolder):
    """What is told of all plans, and of each that is not right."""

    def test_lists_are_counted(self) -> None:
        refused = "refused-5-session-with-itself"
        for name in ("cycle-of-four", "role-3", "no-way-from-0-to-3", refused, "empty"):
            self.copy(f"{STORED_PLANS}/{name}.plan")
            write(f"{name}.plan.verdict", verdict_of(f"{name}.plan"))
        answer = rrp("audit", ".")
        self.assertEqual(answer.status, 0)
        grades = "1 comes to rest whatever the order, 1 can always come to rest"
        lists = f"lists judged: 7 stable, 2 suspect ({grades}); 2 plans are refused"
        self.assertEqual(answer.output, f"5 plans: 5 right, 0 false; {lists}\n")
        values = json.loads(rrp("audit", ".", "--json").output)
        counted = [values[f"{kind}_lists"] for kind in ("stable", "suspect")]
        self.assertEqual((counted, values["refused_plans"]), ([7, 2], 2))

    def test_lines_alone_are_read_and_said_to_be_so(self) -> None:
        self.library(2)
        lines = read(f"{EXAMPLES}/m3.verdicts")
        write("000.plan.verdict", lines)
        lists = "lists judged: 2 stable, 2 suspect (2 come to rest whatever the order)"
        summary = f"2 plans: 1 right, 0 false, 1 of lines alone; {lists}\n"
        answer = rrp("audit", ".")
        said, advice, told = answer.output.split("\n", 2)
        self.assertEqual((answer.status, told), (1, summary))
        self.assertRegex(said, "^lines: ./000.plan: its lines are right, but nothing more is filed")
        self.assertRegex(advice, "^    rrp file adds the ranks, routes and groups")
        self.assertEqual(rrp("audit", ".", "--lines"), (0, summary, ""))
        values = json.loads(rrp("audit", ".", "--json").output)
        self.assertEqual((values["right"], values["lines"], values["false"]), (1, 1, 0))
        write("000.plan.verdict", lines.replace("1 stable 3", "1 stable 4"))
        answer = rrp("audit", ".", "--lines")
        said = "list 1: filed stable with highest rank 4, is stable with highest rank 3"
        self.assertEqual(answer.output.splitlines()[0], f"false: ./000.plan: {said}")
        self.assertEqual(answer.status, 1)

    def test_an_altered_verdict_is_told_from_an_altered_plan(self) -> None:
        self.library(1)
        filed = read("000.plan.verdict")
        write("000.plan.verdict", filed.replace("router 2 rank 3", "router 2 rank 1"))
        said = ["list 1, router 2: filed rank 1, is rank 3"]
        altered = "the plan is the one filed: its verdict was altered"
        self.assertEqual(list(judge("000.plan").details), [*said, altered])
        text = filed.replace("router 2 rank 3", "router 2 rank 1").replace("sha256 b", "sha256 c")
        write("000.plan.verdict", text)
        other = "the plan is another than the one filed"
        self.assertEqual(list(judge("000.plan").details), [*said, other])

    def test_another_plan_that_is_refused_too(self) -> None:
        for data in (b"RRP1", b"RRP1 more"):
            with open("x.plan", "wb") as file:
                file.write(data)
            write("x.plan.verdict", verdict_of("x.plan"))
        with open("x.plan", "wb") as file:
            file.write(b"RRP1")
        finding = judge("x.plan")
        self.assertEqual((finding.kind, finding.refused), (CHANGED, True))
        refused = f"it is refused with the same number: {LOOK}"
        self.assertEqual(finding.details, (CHANGED_PLAN, refused))

    def test_what_file_takes_for_no_plan_needs_an_option(self) -> None:
        for name, data in (("a", b""), ("b", b"no plan\n"), ("c", b"RRP"), ("d", b"list x\n")):
            with open(f"{name}.plan", "wb") as file:
                file.write(data)
        os.mkfifo("e.plan")
        os.symlink("nowhere", "f.plan")
        lines = rrp("audit", ".").output.splitlines()
        self.assertEqual(len(lines), 7)
        for name, line in zip("abcdef", lines):
            more = " with --damaged, as it looks like no plan" if name in "ab" else ""
            said = f"no verdict is filed; rrp file writes one{more}"
            self.assertEqual(line, f"unfiled: ./{name}.plan: {said}")

    def test_differences_as_values(self) -> None:
        self.copy(f"{EXAMPLES}/net.rrp")
        rrp("file", "net.rrp")
        filed = read("net.rrp.verdict")
        route = "list 2 router 9 rank 3 egress 5 from 2"
        write("net.rrp.verdict", filed.replace(route, "list 2 router 9 rank 4 nothing"))
        (finding,) = json.loads(rrp("audit", ".", "--json").output)["findings"]
        place = {"list": 2, "list_name": "customer", "router": 9, "router_name": "fra-a"}
        rank = {**place, "value": "rank", "filed": "4", "is": "3"}
        held = {**place, "value": "route", "filed": "nothing", "is": "egress 5 from 2"}
        self.assertEqual(finding["differences"], [rank, held])
        self.assertEqual("".join(f"{line}\n" for line in finding["is"]), filed)


class Processes(InFolder):
    """The audit as a process."""

    def test_no_bar_without_a_terminal(self) -> None:
        self.library(300)
        with rrp_process("audit", ".") as process:
            output, errors = process.communicate(timeout=60)
        self.assertEqual((output, errors), (SUMMARY, b""))

    def test_a_bar_on_a_terminal(self) -> None:
        self.library(300)
        parent, terminal = os.openpty()
        with rrp_process("audit", ".", stderr=terminal) as process:
            output, _ = process.communicate(timeout=60)
        os.close(terminal)
        shown = os.read(parent, 10000).decode()
        os.close(parent)
        self.assertEqual(output, SUMMARY)
        self.assertIn("of 300 plans, 0 not right", shown)
        self.assertTrue(shown.endswith("\r\x1b[K"))

    @unittest.skipIf(len(os.sched_getaffinity(0)) < 2, "there is one core")
    def test_no_process_is_left(self) -> None:
        self.library(1)
        for number in range(1, 8000):
            for name in ("000.plan", "000.plan.verdict"):
                os.link(name, name.replace("000", f"{number:04}"))
        for how in (signal.SIGINT, signal.SIGKILL):
            with rrp_process("audit", ".", start_new_session=True) as process:
                self.wait_for(process.pid, lambda count: count > 2)
                process.send_signal(how)
                process.communicate(timeout=60)
            self.assertEqual(process.returncode, -how)
            self.wait_for(process.pid, lambda count: count == 0)

    def wait_for(self, group: int, enough: Callable[[int], bool]) -> None:
        """Waits until a group has enough processes, or few enough."""
        for _ in range(1000):
            listed = subprocess.run(["ps", "-eo", "pgid,stat"], capture_output=True, text=True)
            lines = [line.split() for line in listed.stdout.splitlines()]
            if enough(sum(line[0] == str(group) and line[1][0] != "Z" for line in lines)):
                return
            time.sleep(0.02)
        self.fail("the processes of the audit are not as they should be")


if __name__ == "__main__":
    unittest.main()
