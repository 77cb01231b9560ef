"""Columns line up on a terminal, whatever letters the names have."""

from __future__ import annotations

import os
import re
import tempfile
import unittest

from rrp import Plan
from rrp.columns import left, right, widest, width, wrapped
from rrp.text.writing import write

from .support import rrp
from .test_steady import cycles

#: A name of letters that take two columns each, one with an accent of its own, and a plain one.
WIDE, ACCENT, PLAIN = "東京", "e\u0301t", "plain"

_PLAN = f"""
reflector {WIDE} 1
client {ACCENT} 2 of {WIDE}
client {PLAIN} 3 of {WIDE}
link {WIDE} {ACCENT} 5
link {WIDE} {PLAIN} 5
list {WIDE} {ACCENT}
list {PLAIN} {ACCENT} {PLAIN}
"""


def column(line: str, word: str) -> int:
    """The column of a terminal at which a word of a line starts."""
    return width(line[: line.index(word)])


def starts(line: str) -> list[int]:
    """The columns of a terminal at which the words of a line start."""
    return [width(line[: found.start()]) for found in re.finditer(r"\S+", line)]


class Widths(unittest.TestCase):
    """What a terminal takes for a text."""

    def test_width(self) -> None:
        for text, columns in ((PLAIN, 5), (WIDE, 4), (ACCENT, 2), ("ｆ", 2), ("❤\ufe0f", 1)):
            self.assertEqual(width(text), columns, text)
        self.assertEqual(widest([WIDE, ACCENT, "abc"]), 4)

    def test_filled(self) -> None:
        self.assertEqual((left(WIDE, 6), right(WIDE, 6)), (f"{WIDE}  ", f"  {WIDE}"))
        self.assertEqual((left(ACCENT, 3), right(PLAIN, 5)), (f"{ACCENT} ", PLAIN))


    def test_wrapped(self) -> None:
        items = [f"router-{place} {1 << place}" for place in range(12)]
        for start, indent in (("two words: ", 11), ("a" * 54 + " ", 4)):
            first, *more = wrapped(start, items)
            self.assertTrue(first.startswith(f"{start}router-0 1, router-1 2, "))
            self.assertGreater(len(more), 0)
            for line in more:
                self.assertRegex(line, rf"^ {{{indent}}}router-\d+ \d+(,|$)")
            text = " ".join([first, *(line.strip() for line in more)])
            self.assertEqual(text, start + ", ".join(items))
            self.assertLessEqual(widest([first, *more]), 110)
        self.assertEqual(wrapped("none: ", ["x y"]), ["none: x y"])


class Tables(unittest.TestCase):
    """What the commands write in columns."""

    def setUp(self) -> None:
        folder = tempfile.TemporaryDirectory()
        self.addCleanup(folder.cleanup)
        self.path = os.path.join(folder.name, "x.rrp")
        with open(self.path, "w", encoding="utf-8") as file:
            file.write(_PLAN)

    def lines(self, *words: str) -> list[str]:
        """The lines that a command writes."""
        return rrp(words[0], self.path, *words[1:]).output.splitlines()

    def test_check(self) -> None:
        for words in ([], ["--set", f"link {WIDE} {PLAIN} 6"]):
            lines = [line for line in self.lines("check", *words) if "stable: " in line]
            self.assertEqual(len({column(line, "stable: ") for line in lines}), 1, lines)
            self.assertEqual(len(lines), 2)

    def test_show(self) -> None:
        head, *rows = [starts(line) for line in self.lines("show", WIDE)[1:5]]
        self.assertEqual(len(rows), 3)
        for row in rows:
            self.assertEqual((row[0], *row[2:]), (head[0], *head[2:]))

    def test_run(self) -> None:
        lines = [line for line in self.lines("run", WIDE) if " -> " in line]
        self.assertEqual(len({column(line, "nothing ->") for line in lines}), 1, lines)
        self.assertGreater(len(lines), 1)

    def test_figures(self) -> None:
        with open(self.path, "w", encoding="utf-8") as file:
            file.write(cycles(2).replace("a0", WIDE).replace("a1", PLAIN))
        lines = [line for line in self.lines("figures") if line.endswith("  #")]
        self.assertEqual([line.split()[0] for line in lines], [WIDE, PLAIN])
        self.assertEqual(starts(lines[0]), starts(lines[1]))

    def test_unpack(self) -> None:
        lines = write(Plan.read(self.path)).splitlines()[:3]
        identifiers = [starts(line)[2] for line in lines]
        self.assertEqual(identifiers, [16] * 3)


if __name__ == "__main__":
    unittest.main()
