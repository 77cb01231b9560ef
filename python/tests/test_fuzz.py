"""Damaged and random texts and bytes: the command always answers, and never by a traceback.

RRP_FUZZ is how many inputs are tried.
"""

from __future__ import annotations

import glob
import json
import os
import random
import shutil
import tempfile
import unittest

from rrp import library
from rrp.errors import RrpError
from rrp.plan import Plan
from rrp.text import TextErrors, decode_text, parse
from rrp.text.assembly import assemble
from rrp.verdict_differences import FALSE, RIGHT, compare
from rrp.verdict_files import entry

from .support import EXAMPLES, FAULT, STORED_PLANS, TESTS, Answer, rrp

COUNT = int(os.environ.get("RRP_FUZZ", "600"))

#: Plans that are damaged as JSON.
JSON_OF = ("m3.plan", "hop.rrp", "wide.rrp")

_WORDS = (
    "reflector client mesh session link distance list wide of none no-client-reflection hop-step > "
    "# - 0 1 64 65534 65535 65536 4294967294 4294967295 4294967296 10.0.0.1 0.0.0.0 lon-rr par-rr "
    "lon-a par-a r0 r1 l0 transit gone é \u2028 \x85 \x00 \x1b[1m \ufeff 999999999999999999999"
).split(" ")


def corpus() -> list[bytes]:
    """What the inputs are made of: examples, all stored errors, plans in bytes of both marks."""
    examples = ("net.rrp", "wide.rrp", "gone.rrp", "hop.rrp", "m3.plan")
    paths = [f"{EXAMPLES}/{name}" for name in examples]
    paths += [*glob.glob(f"{TESTS}/errors/*.rrp"), *glob.glob(f"{STORED_PLANS}/*.plan")]
    inputs = []
    for path in sorted(paths):
        with open(path, "rb") as file:
            inputs.append(file.read())
    plans = [data for data in inputs if data.startswith(b"RRP1") and library.refusal(data) == 0]
    packed = [Plan.read(f"{EXAMPLES}/{name}").data for name in ("wide.rrp", "gone.rrp", "hop.rrp")]
    return [*inputs, *map(library.widen, plans), *packed]


def damaged(data: bytes, draw: random.Random) -> bytes:
    """The input with one part changed."""
    place = draw.randint(0, len(data))
    end = min(len(data), place + draw.choice([0, 1, 1, 3, 20, 300]))
    put = draw.choice(
        [
            b"",
            bytes(draw.choices(range(256), k=draw.choice([1, 2, 8]))),
            f" {draw.choice(_WORDS)} ".encode(),
            b"\n",
            data[place:end] * 2,
            random_line(draw).encode(),
        ]
    )
    return data[:place] + put + data[end:]


def random_line(draw: random.Random) -> str:
    """A line of words that plans have, at times a list of nobody or a reflector's role."""
    if draw.random() < 0.1:
        return f"\nlist {draw.choice(_WORDS)}\n"
    if draw.random() < 0.1:
        words = draw.sample(["hop-step", "no-client-reflection", draw.choice(_WORDS)], k=2)
        return " ".join(["\nreflector", draw.choice(["lon-rr", "fra-rr", "r0"]), *words, "\n"])
    return "\n" + " ".join(draw.choices(_WORDS, k=draw.randint(1, 6))) + "\n"


def random_input(inputs: list[bytes], draw: random.Random) -> bytes:
    """An input: damaged in some places, or random."""
    if draw.random() < 0.1:
        return bytes(draw.choices(range(256), k=draw.randint(0, 400)))
    if draw.random() < 0.1:
        return "".join(random_line(draw) for _ in range(draw.randint(1, 40))).encode()
    data = draw.choice(inputs)
    for _ in range(draw.choice([1, 1, 2, 5])):
        data = damaged(data, draw)
    return data


class Fuzz(unittest.TestCase):
    """Each input with each command."""

    def setUp(self) -> None:
        self.draw = random.Random(4456)
        self.inputs = corpus()

    def sound(self, answer: Answer, what: object) -> None:
        """The answer is one that the command may give."""
        self.assertIn(answer.status, (0, 1, 2), what)
        self.assertNotIn(FAULT, answer.errors, what)
        self.assertNotIn("Traceback", answer.errors, what)
        if answer.status == 2:
            self.assertEqual(answer.output, "", what)
            self.assertNotEqual(answer.errors, "", what)

    def test_commands(self) -> None:
        with tempfile.TemporaryDirectory() as folder:
            path = f"{folder}/input"
            for _ in range(COUNT):
                data = random_input(self.inputs, self.draw)
                with open(path, "wb") as file:
                    file.write(data)
                judging = {"check": [], "show": [], "steady": ["0"], "hop-set": [], "figures": []}
                command = self.draw.choice(["check", *judging, "pack", "unpack", "convert"])
                out = judging.get(command, ["-o", f"{folder}/output"])
                self.sound(rrp(command, path, *out), data)

    def test_changes(self) -> None:
        for _ in range(COUNT // 4):
            plan = self.draw.choice([f"{EXAMPLES}/net.rrp", f"{EXAMPLES}/m3.plan"])
            changes = [random_line(self.draw) for _ in range(self.draw.randint(1, 3))]
            words = [word for change in changes for word in ("--set", change)]
            self.sound(rrp("check", plan, *words), changes)

    def test_json(self) -> None:
        texts = [rrp("unpack", f"{EXAMPLES}/{name}", "--json").output for name in JSON_OF]
        texts += [json.dumps(json.loads(text)) for text in texts]
        statuses = self.tried("plan.json", [text.encode() for text in texts], "plan.json")
        self.assertEqual(statuses, {0, 1, 2})

    def test_sheets(self) -> None:
        for name in ("links.csv", "sessions.csv"):
            with open(f"{EXAMPLES}/{name}", "rb") as file:
                sheet = file.read()
            statuses = self.tried(name, [sheet], f"{EXAMPLES}/sheets.rrp")
            self.assertLessEqual({1, 2}, statuses)

    def tried(self, name: str, inputs: list[bytes], plan: str) -> set[int]:
        """Judges a plan in a folder with the examples' sheets, one file of which is damaged.
        Returns the statuses that occur."""
        statuses = set()
        with tempfile.TemporaryDirectory() as folder:
            for each in (f"{EXAMPLES}/links.csv", f"{EXAMPLES}/sessions.csv", plan):
                if os.path.exists(each):
                    shutil.copy(each, folder)
            for _ in range(COUNT // 3):
                data = damaged(self.draw.choice(inputs), self.draw)
                with open(f"{folder}/{name}", "wb") as file:
                    file.write(data)
                answer = rrp("check", f"{folder}/{os.path.basename(plan)}")
                self.sound(answer, data)
                statuses.add(answer.status)
        return statuses

    def test_sweeps_and_comparisons(self) -> None:
        with tempfile.TemporaryDirectory() as folder:
            path = f"{folder}/input"
            for _ in range(COUNT // 6):
                data = random_input(self.inputs, self.draw)
                with open(path, "wb") as file:
                    file.write(data)
                for words in (["sweep", path], ["diff", f"{EXAMPLES}/net.rrp", path]):
                    answer = rrp(*words)
                    self.assertIn(answer.status, (0, 1, 2), data)
                    self.assertNotIn(FAULT, answer.errors, data)
                    if answer.status == 2 and "\nnot judged: " not in answer.output:
                        self.assertEqual(answer.output, "", data)

    def test_verdicts(self) -> None:
        due = entry(Plan.read(f"{EXAMPLES}/net.rrp").data)
        text, kinds = due.text.encode(), set()
        for _ in range(COUNT):
            filed = damaged(text, self.draw).decode("ascii", "backslashreplace")
            found = compare(filed, due)
            self.assertEqual(found.kind == RIGHT, filed == due.text, filed)
            self.assertEqual(found.kind == RIGHT, not found.details, filed)
            kinds.add(found.kind)
        self.assertLessEqual({RIGHT, FALSE}, kinds)

    def test_marks_are_under_their_words(self) -> None:
        for _ in range(COUNT // 2):
            data = random_input(self.inputs, self.draw)
            try:
                assemble(parse(decode_text(data, "input"), "input"))
            except TextErrors as errors:
                places = [(each.word.line.number, each.word.column) for each in errors.problems]
                self.assertEqual(places, sorted(places))
                for word in (problem.word for problem in errors.problems):
                    start = word.column - 1
                    found = word.line.text[start : start + len(word.text)]
                    self.assertIn(word.text, ("?", found))
            except RrpError:
                pass

    def test_what_is_read_is_a_plan(self) -> None:
        read = 0
        for _ in range(COUNT // 2):
            data = damaged(self.draw.choice(self.inputs), self.draw)
            try:
                plan = Plan.parse(decode_text(data, "input"))
            except RrpError:
                continue
            read += 1
            self.assertEqual(Plan.from_bytes(plan.data).data, plan.data)
        self.assertGreater(read, 0)


if __name__ == "__main__":
    unittest.main()
