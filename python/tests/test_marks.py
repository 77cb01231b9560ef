"""Plans of both marks: which one `pack` writes, what `unpack` keeps, how `convert` turns one into
the other, and that every command reads both alike."""

from __future__ import annotations

import json
import os
import unittest

from rrp import Plan, TooFarToNarrow, encoding, library
from rrp.text import TextErrors

from .folders import InFolder, write
from .support import EXAMPLES, STORED_PLANS, read, rrp

_TWO = "reflector a 1\nreflector b 2\nlist l a\n"

#: A distance, and the mark of a plan that has it.
MARKS = (
    ("none", "RRP1"),
    ("0", "RRP1"),
    ("65534", "RRP1"),
    ("65535", "RRP2"),
    ("65536", "RRP2"),
    ("5000000", "RRP2"),
    ("4294967294", "RRP2"),
)


def content(path: str) -> bytes:
    """The bytes of a file."""
    with open(path, "rb") as file:
        return file.read()


class Encoding(unittest.TestCase):
    """Distances of two and of four bytes."""

    def model(self, distance: int | None, width: int) -> encoding.Model:
        """Two reflectors, with a distance from the first to the second."""
        return encoding.Model([1, 1], [1, 2], [], [[0, distance], [9, 0]], [[0]], width)

    def test_bytes(self) -> None:
        cases = [
            (None, encoding.NARROW, "0000 ffff 0900 0000"),
            (65534, encoding.NARROW, "0000 feff 0900 0000"),
            (None, encoding.WIDE, "00000000 ffffffff 09000000 00000000"),
            (65535, encoding.WIDE, "00000000 ffff0000 09000000 00000000"),
            (4294967294, encoding.WIDE, "00000000 feffffff 09000000 00000000"),
        ]
        for distance, width, body in cases:
            model = self.model(distance, width)
            data = encoding.encode(model)
            self.assertEqual(data[36:-3], bytes.fromhex(body))
            self.assertEqual(library.refusal(data), 0)
            self.assertEqual(encoding.decode(data), model)
            other = self.model(7, width)
            self.assertEqual(encoding.with_distance(data, 0, 1, 7), encoding.encode(other))
            self.assertEqual(encoding.with_distance(encoding.encode(other), 0, 1, distance), data)

    def test_what_is_too_far_never_becomes_no_way(self) -> None:
        none = ((65535, encoding.NARROW), (4294967295, encoding.WIDE), (-1, encoding.WIDE))
        for distance, width in none:
            with self.assertRaises(ValueError):
                encoding.encode(self.model(distance, width))
            plan = encoding.encode(self.model(0, width))
            with self.assertRaises(ValueError):
                encoding.with_distance(plan, 0, 1, distance)

    def test_the_largest_plan(self) -> None:
        largest = Plan.read(f"{STORED_PLANS}/largest.plan")
        self.assertEqual((largest.mark, len(largest.data)), ("RRP1", 16731))
        wide = largest.widened()
        self.assertEqual((wide.mark, len(wide.data)), ("RRP2", library.MAX_PLAN))
        self.assertEqual(encoding.encode(wide.model), wide.data)


class Packing(InFolder):
    """The mark that `pack` chooses, and the one that it is told to write."""

    def packed(self, text: str, *options: str) -> bytes:
        """The bytes that a text packs into."""
        write("x.rrp", text)
        answer = rrp("pack", "x.rrp", "-o", "x.plan", *options)
        self.assertEqual(answer.status, 0, answer.errors)
        return content("x.plan")

    def test_the_mark_is_that_which_the_distances_need(self) -> None:
        for distance, mark in MARKS:
            data = self.packed(f"{_TWO}distance a > b {distance}\n")
            self.assertEqual(data[:4].decode(), mark, distance)
            stated = None if distance == "none" else int(distance)
            self.assertEqual(Plan.from_bytes(data).distance("r0", "r1"), stated)

    def test_wide_by_statement_and_by_option(self) -> None:
        for distance, _ in MARKS:
            text = f"{_TWO}distance a > b {distance}\n"
            data = self.packed(f"{text}wide\n")
            self.assertEqual(data[:4], b"RRP2")
            self.assertEqual(self.packed(text, "--wide"), data)
            self.assertEqual(self.packed(f"wide # and\n{text}", "--wide"), data)

    def test_unpacked_it_packs_into_the_same_bytes(self) -> None:
        for distance, mark in MARKS:
            for options in ([], ["--wide"]):
                data = self.packed(f"{_TWO}distance a > b {distance}\n", *options)
                text = rrp("unpack", "x.plan").output
                stated = text.startswith("wide  # four bytes a distance: RRP2\n\nreflector ")
                self.assertEqual(stated, mark == "RRP2" or bool(options), distance)
                self.assertEqual(self.packed(text), data)

    def test_a_distance_above_all(self) -> None:
        for distance in ("4294967295", "99999999999999999999", "-1"):
            with self.assertRaises(TextErrors) as caught:
                Plan.parse(f"{_TWO}distance a > b {distance}\n")
            (problem,) = caught.exception.problems
            self.assertEqual(problem.message, f"the distance {distance} is out of range")
            advice = "a distance is a number from 0 to 4,294,967,294, or none"
            self.assertEqual(problem.advice, advice)

    def test_it_says_what_it_wrote_and_why(self) -> None:
        sizes = "from x.rrp: 2 routers (2 reflectors, 0 clients), 0 sessions, 1 list\n"
        far = "    RRP2, as it is 70,000 from b to a, and RRP1 goes up to 65,534\n"
        for distance, options, said, why in (
            ("65534", [], "47 bytes of RRP1, ", ""),
            ("65534", ["--wide"], "55 bytes of RRP2, ", ""),
            ("70000", [], "55 bytes of RRP2, ", far),
            ("70000", ["--wide"], "55 bytes of RRP2, ", far),
        ):
            write("x.rrp", f"{_TWO}distance a > b 9\ndistance b > a {distance}\n")
            answer = rrp("pack", "x.rrp", "-o", "x.plan", *options)
            self.assertEqual(answer, (0, f"x.plan: {said}{sizes}{why}", ""))

    def test_json(self) -> None:
        for distance, mark in MARKS:
            write("x.rrp", f"{_TWO}distance a b {distance}\n")
            for words in (["pack"], ["unpack"], ["check"], ["show"]):
                values = json.loads(rrp(*words, "x.rrp", "--json").output)
                self.assertEqual(values["mark"], mark, (words, distance))

    def test_bytes_are_packed_wide_too(self) -> None:
        for name in ("m3.plan", "net.rrp"):
            plan = Plan.read(f"{EXAMPLES}/{name}")
            rrp("pack", f"{EXAMPLES}/{name}", "-o", "wide.plan", "--wide")
            self.assertEqual(content("wide.plan"), library.widen(plan.data))
            rrp("pack", "wide.plan", "-o", "again.plan", "--wide")
            self.assertEqual(content("again.plan"), content("wide.plan"))


class Wide(unittest.TestCase):
    """The statement `wide`, and the distance that is no way in RRP1."""

    def test_once(self) -> None:
        with self.assertRaises(TextErrors) as caught:
            Plan.parse(f"wide\n{_TWO}wide\nwide RRP2\n")
        found = [(each.word.line.number, each.message) for each in caught.exception.problems]
        self.assertEqual(found, [(5, "wide is given twice"), (6, "RRP2 is a word too many")])

    def test_a_name_may_be_wide(self) -> None:
        plan = Plan.parse("reflector wide 1\nlist wide wide\n")
        self.assertEqual((plan.mark, plan.routers, plan.lists), ("RRP1", ("wide",), ("wide",)))

    def test_note_on_what_is_no_way_in_rrp1(self) -> None:
        text = f"{_TWO}client c 3\ndistance a b 9\ndistance a c 9\ndistance b > c 9\n"
        text += "distance c > b 65535\n"
        (note,) = Plan.parse(text).notes
        said = "from c to b it is 65,535, a distance that makes the plan RRP2"
        advice = "write none for no way; if it is meant, add a line: wide"
        self.assertEqual(note, f"{said}: {advice}")
        for other in (f"{text}wide\n", text.replace("65535", "none"), text.replace("65535", "9")):
            self.assertEqual(Plan.parse(other).notes, ())

    def test_it_is_no_change(self) -> None:
        answer = rrp("check", f"{EXAMPLES}/net.rrp", "--set", "wide")
        self.assertEqual((answer.status, answer.output), (2, ""))
        self.assertIn("--set:1:1: wide is no change\n", answer.errors)


class Converting(InFolder):
    """`rrp convert`, there and back."""

    def convert(self, source: str, output: str) -> str:
        """What is said of a conversion."""
        answer = rrp("convert", source, "-o", output)
        self.assertEqual((answer.status, answer.errors), (0, ""))
        return answer.output

    def refused(self, *lines: str) -> str:
        """What is said where an RRP2 plan of these distances is to become RRP1."""
        write("far.rrp", "\n".join([_TWO, "client c 3", *lines]))
        self.assertEqual(rrp("pack", "far.rrp", "-o", "far.plan").status, 0)
        answer = rrp("convert", "far.plan", "-o", "near.plan")
        self.assertEqual((answer.status, answer.output), (2, ""))
        self.assertFalse(os.path.exists("near.plan"))
        self.assertEqual(content("far.plan")[:4], b"RRP2")
        return answer.errors

    def test_there_and_back(self) -> None:
        plan = self.copy(f"{EXAMPLES}/m3.plan")
        said = self.convert(plan, "wide.plan")
        self.assertEqual(said, "wide.plan: 122 bytes of RRP2, from m3.plan: 90 bytes of RRP1\n")
        self.assertEqual(content("wide.plan"), library.widen(content(plan)))
        said = self.convert("wide.plan", "again.plan")
        self.assertEqual(said, "again.plan: 90 bytes of RRP1, from wide.plan: 122 bytes of RRP2\n")
        self.assertEqual(content("again.plan"), content(plan))

    def test_json(self) -> None:
        plan = self.copy(f"{EXAMPLES}/m3.plan")
        wide = library.widen(content(plan))
        values = {"plan": plan, "mark_before": "RRP1", "mark": "RRP2", "output": None}
        due = {**values, "length": 122, "bytes": wide.hex()}
        self.assertEqual(json.loads(rrp("convert", plan, "--json").output), due)
        answer = rrp("convert", plan, "--json", "-o", "wide.plan")
        self.assertEqual(content("wide.plan"), wide)
        due = {**values, "output": "wide.plan", "length": 122}
        self.assertEqual(json.loads(answer.output), due)

    def test_too_far(self) -> None:
        said = "rrp: far.plan: refused 14: a distance that is not no way is above 65,534, "
        said += "too far for two bytes\n    from "
        advice = "leave it RRP2, or state smaller distances that keep at each router what is "
        advice += "nearer and what\n    is as far; never round, or a suspect list may look stable\n"
        for lines, found in (
            (["distance b > a 5000000"], "r1 to r0 it is 5,000,000, the only distance that is"),
            (["distance a > c 65535"], "r0 to r2 it is 65,535, the only distance that is"),
            (
                ["distance c > b 65536", "distance b > c 4294967294", "distance a b 65534"],
                "r1 to r2 it is 4,294,967,294, the first of 2 distances that are",
            ),
            (
                ["distance c b 90000", "distance c > a 70000", "distance a > c 65535"],
                "r0 to r2 it is 65,535, the first of 4 distances that are",
            ),
        ):
            self.assertEqual(self.refused(*lines), f"{said}{found} too far\n    {advice}")

    def test_too_far_by_name_and_as_values(self) -> None:
        plan = Plan.parse(f"{_TWO}distance b > a 70000\n", "x.rrp")
        with self.assertRaises(TooFarToNarrow) as caught:
            plan.narrowed()
        far = caught.exception
        self.assertEqual((far.number, far.start, far.end), (14, "b", "a"))
        self.assertEqual((far.distance, far.count), (70000, 1))
        self.refused("distance b > a 70000")
        (error,) = json.loads(rrp("convert", "far.plan", "--json").output)["errors"]
        self.assertEqual(set(error), {"message", "advice"})
        self.assertTrue(error["message"].startswith("far.plan: refused 14: a distance that is "))
        self.assertTrue(error["message"].endswith("; from r1 to r0 it is 70,000, the only distance "
                                                  "that is too far"))
        self.assertTrue(error["advice"].startswith("leave it RRP2, or state smaller distances "))

    def test_what_cannot_be_converted(self) -> None:
        net = self.copy(f"{EXAMPLES}/net.rrp")
        answer = rrp("convert", net, "-o", "out")
        said = "net.rrp is text, which has no mark to convert: "
        advice = "rrp pack writes its bytes, and with --wide as RRP2"
        self.assertEqual(answer, (2, "", f"rrp: {said}{advice}\n"))
        plan = content(f"{EXAMPLES}/m3.plan")
        for data, number in ((b"", 1), (b"RRP3" + plan[4:], 1), (plan[:-1] + b"\4", 7)):
            with open("x.plan", "wb") as file:
                file.write(data)
            answer = rrp("convert", "x.plan", "-o", "out")
            self.assertEqual((answer.status, answer.output), (2, ""))
            self.assertIn(f"rrp: x.plan: refused {number}: ", answer.errors)
        self.assertFalse(os.path.exists("out"))

    def test_by_the_wrong_call(self) -> None:
        plan = Plan.read(f"{EXAMPLES}/m3.plan")
        for call in (plan.narrowed, plan.widened().widened):
            with self.assertRaisesRegex(library.Refused, "refused 1: .* wrong mark to be conv"):
                call()


class BothAlike(InFolder):
    """Every command says the same of a plan and of the plan converted."""

    def setUp(self) -> None:
        super().setUp()
        rrp("pack", f"{EXAMPLES}/net.rrp", "-o", "narrow.plan")
        rrp("convert", "narrow.plan", "-o", "wide.plan")

    def test_answers(self) -> None:
        for words in (
            ["check"],
            ["show"],
            ["check", "--strict"],
            ["check", "--set", "distance r0 > r6 12"],
            ["show", "l0"],
            ["show", "l1"],
            ["why", "l0", "r0", "r1"],
            ["steady", "l0"],
            ["steady", "l1", "--json"],
            ["hop-set"],
            ["hop-set", "l0"],
            ["hop-set", "l1", "--json"],
            ["figures"],
            ["figures", "--json"],
            ["figures", "--csv"],
            ["run", "l0"],
            ["run", "l1", "--json"],
            ["dot", "l0"],
            ["unpack"],
        ):
            narrow = rrp(words[0], "narrow.plan", *words[1:])
            wide = rrp(words[0], "wide.plan", *words[1:])
            self.assertNotEqual(narrow.output, "", words)
            same = wide.output.replace("wide.plan", "narrow.plan").replace(" lists, RRP2", " lists")
            same = same.removeprefix("wide  # four bytes a distance: RRP2\n\n")
            self.assertEqual((wide.status, same, wide.errors), narrow, words)

    def test_filed_verdicts(self) -> None:
        rrp("file", "narrow.plan", "wide.plan")
        narrow, wide = (read(f"{name}.plan.verdict") for name in ("narrow", "wide"))
        self.assertEqual(narrow.splitlines()[:-1], wide.splitlines()[:-1])
        self.assertNotEqual(narrow, wide)
        self.assertEqual(rrp("audit", ".").status, 0)
        os.replace("wide.plan", "narrow.plan")
        os.remove("wide.plan.verdict")
        answer = rrp("audit", ".")
        self.assertEqual(answer.status, 1)
        self.assertIn("changed: ./narrow.plan: another plan than the one filed", answer.output)

    def test_a_text_is_filed_as_its_bytes_are(self) -> None:
        wide = self.copy(f"{EXAMPLES}/wide.rrp")
        rrp("pack", wide, "-o", "far.plan")
        self.assertEqual(rrp("file", wide, "far.plan").status, 1)
        self.assertEqual(read("wide.rrp.verdict"), read("far.plan.verdict"))

    def test_a_change_that_needs_the_other_mark_is_told(self) -> None:
        said = "the plan is then {} and no longer {}, as {} distance is above 65,534\n"
        changes = ["--set", "distance r0 > r6 65535"]
        for plan, told in (("narrow", said.format("RRP2", "RRP1", "a")), ("wide", "")):
            output = rrp("check", f"{plan}.plan", *changes).output
            lines = f" lists, RRP2\nwith distance r0 > r6 65535\n{told}l0"
            self.assertIn(lines, output)
            values = json.loads(rrp("check", f"{plan}.plan", *changes, "--json").output)
            marks = "RRP1" if plan == "narrow" else "RRP2", "RRP2"
            self.assertEqual((values["mark_before"], values["mark"]), marks)
        write("x.rrp", f"{_TWO}distance a b 65535\n")
        output = rrp("check", "x.rrp", "--set", "distance a b 65534").output
        self.assertIn(said.format("RRP1", "RRP2", "no"), output)


if __name__ == "__main__":
    unittest.main()
