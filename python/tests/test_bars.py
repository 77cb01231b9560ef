"""Tables with bars: a bar shows its count, and says for how many a mark stands."""

from __future__ import annotations

import random
import unittest

from rrp.bars import LONGEST, Row, aligned, bar_lines


def bars(*counts: int) -> tuple[str, list[int]]:
    """The last head, and how many marks each row has."""
    rows = [Row((f"row {place}", str(count)), count) for place, count in enumerate(counts)]
    head, *lines = bar_lines(("name", "count"), rows)
    return head.split("  ")[-1].strip(), [line.count("#") for line in lines]


class Bars(unittest.TestCase):
    """Of counts of any size."""

    def test_a_mark_for_each(self) -> None:
        self.assertEqual(bars(3, 0, 1), ("count", [3, 0, 1]))
        self.assertEqual(bars(40, 39, 1), ("count", [40, 39, 1]))
        self.assertEqual(bars(0, 0), ("count", [0, 0]))

    def test_a_mark_for_several(self) -> None:
        self.assertEqual(bars(41, 2, 3, 0), ("count (a # for up to 2)", [21, 1, 2, 0]))
        self.assertEqual(bars(80, 1), ("count (a # for up to 2)", [40, 1]))
        self.assertEqual(bars(81, 1), ("count (a # for up to 3)", [27, 1]))
        self.assertEqual(bars(64000, 1600, 1601), ("count (a # for up to 1,600)", [40, 1, 2]))

    def test_random_counts(self) -> None:
        draw = random.Random(4456)
        for _ in range(200):
            counts = [draw.randint(0, draw.choice([3, 60, 10**6])) for _ in range(9)]
            head, marks = bars(*counts)
            per = int(head.split("up to ")[1][:-1].replace(",", "")) if "up to" in head else 1
            self.assertEqual(marks, [-(-count // per) for count in counts])
            self.assertLessEqual(max(marks), LONGEST)
            if per > 1:
                self.assertGreater(max(counts), LONGEST * (per - 1))

    def test_columns(self) -> None:
        rows = [Row(("a", "long cell", "1"), 1), Row(("longer", "b", "0"), 0)]
        due = ["x       y          a last head", "a       long cell  1  #", "longer  b          0"]
        self.assertEqual(list(bar_lines(("x", "y", "a last head"), rows)), due)

    def test_numbers(self) -> None:
        self.assertEqual(aligned([1, 20, 3000]), ["    1", "   20", "3,000"])
        self.assertEqual(aligned([]), [])


if __name__ == "__main__":
    unittest.main()
