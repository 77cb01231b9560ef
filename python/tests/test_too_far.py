"""Sums of weights that are too large: what is advised keeps the verdicts, as rounding does not."""

from __future__ import annotations

import re
import unittest
from collections.abc import Callable
from itertools import permutations

from rrp import Plan, TextErrors

from .support import EXAMPLES, read

NET = read(f"{EXAMPLES}/net.rrp")

_STATE = "state distances in place of links, which may be up to 4,294,967,294"

_WEIGHT = re.compile(r"^((?:link|distance) .*? )([0-9]+)$", re.M)


def weighed(text: str, weight: Callable[[int], int]) -> str:
    """A plan's text with other weights and stated distances."""
    return _WEIGHT.sub(lambda found: f"{found.group(1)}{weight(int(found.group(2)))}", text)


def without_links(text: str) -> list[str]:
    """The lines of a plan's text that are no links."""
    return [line for line in text.splitlines() if not line.startswith("link ")]


def stated(text: str, factor: int) -> str:
    """A plan's text with the distances stated in place of links, so many times as far."""
    plan = Plan.parse(text)
    ways = [
        f"distance {router} > {other} {factor * plan.distance(router, other)}"
        for router, other in permutations(plan.routers, 2)
    ]
    return "\n".join([*without_links(text), *ways])


def verdicts(text: str) -> list[tuple]:
    """The verdicts of a text: the ranks and routes of stable lists, the cycles of suspect ones."""
    found = Plan.parse(text).verdicts()
    return [(each.ranks, each.table, each.cycle, each.groups) for each in found]


class TooFar(unittest.TestCase):
    """The advice that comes with the error."""

    def advice(self, text: str) -> str:
        """What is advised for a text whose sums are too large."""
        with self.assertRaises(TextErrors) as caught:
            Plan.parse(text)
        (problem,) = caught.exception.problems
        self.assertIn("which is too far", problem.message)
        return problem.advice.replace("\n", " ")

    def test_a_common_divisor_is_named_and_keeps_the_verdicts(self) -> None:
        stated = f"{NET}distance lon-a par-a 9\n"
        for text, what in ((NET, "weight"), (stated, "weight and distance")):
            large = weighed(text, lambda weight: 1500 * weight)
            said = f"divide every {what} by a common divisor only, here by 1,500; never round, "
            advice = self.advice(large)
            self.assertIn(f"a sum of weights is at most 65,534: {said}", advice)
            self.assertTrue(advice.endswith(f"stable; or {_STATE}"), advice)
            divided = weighed(large, lambda weight: weight // 1500)
            self.assertEqual(verdicts(divided), verdicts(text))

    def test_rounding_is_what_the_advice_is_against(self) -> None:
        large = weighed(NET, lambda weight: 1500 * weight)
        self.assertIn("never round, or a suspect list may look stable", self.advice(large))
        rounded = weighed(large, lambda weight: max(1, round(weight / 15000)))
        self.assertFalse(Plan.parse(NET).verdict("transit").stable)
        self.assertTrue(Plan.parse(rounded).verdict("transit").stable)

    def test_no_divisor_that_helps(self) -> None:
        large = weighed(NET, lambda weight: 1500 * weight)
        for text in (
            large.replace("link lon-rr par-a 9000", "link lon-rr par-a 9001"),
            f"{large}distance lon-a par-a 7\n",
            "reflector a 1\nreflector b 2\nreflector c 3\nlist l a\nlink a b 65535\nlink b c 1\n",
        ):
            advice = self.advice(text)
            said = f"no common divisor of the weights is enough: {_STATE}; never round, or a "
            self.assertIn(f"a sum of weights is at most 65,534, and {said}", advice)
            self.assertNotIn("divide every", advice)

    def test_the_sums_may_be_stated_instead(self) -> None:
        for factor in (1500, 1501 * 1499, 4294967294 // 57):
            large = stated(NET, factor)
            self.assertEqual(Plan.parse(large).mark, "RRP2")
            self.assertEqual(verdicts(large), verdicts(NET))

    def test_stated_distances_that_keep_the_order_keep_the_verdicts(self) -> None:
        plan = Plan.parse(NET)
        lines = without_links(NET)
        for router in plan.routers:
            order = sorted({plan.distance(router, other) for other in plan.routers})
            for other in (each for each in plan.routers if each != router):
                place = order.index(plan.distance(router, other))
                lines.append(f"distance {router} > {other} {place}")
        self.assertEqual(verdicts("\n".join(lines)), verdicts(NET))


if __name__ == "__main__":
    unittest.main()
