"""`rrp run --order`: routers by name or number, also where names have commas."""

from __future__ import annotations

import json
import os
import random
import tempfile
import unittest
from itertools import product

from rrp import Plan, RrpError, UnknownName
from rrp.orders import order_words, read_order

from .support import rrp


def plan_of(*names: str) -> Plan:
    """A plan of reflectors with these names."""
    lines = [f"reflector {name} {number}" for number, name in enumerate(names)]
    return Plan.parse("\n".join([*lines, f"list l {names[0]}"]))


class Orders(unittest.TestCase):
    """What is read."""

    def test_plain_names(self) -> None:
        plan = plan_of("a", "b", "7")
        for text in ("a,b,7", "a b 7", " a, b,, 7,", "a,b 2", "0 1,7", "a\tb\n7"):
            self.assertEqual(read_order(plan, text), ["a", "b", "7"], text)
        for text in ("", " ", ",", " , ,"):
            with self.assertRaisesRegex(RrpError, "--order names no router: name some, as"):
                read_order(plan, text)
        with self.assertRaisesRegex(UnknownName, "has no router c: "):
            read_order(plan, "a,c,d")

    def test_names_with_commas(self) -> None:
        plan = plan_of("a,b", "b", "c", "x,", ",y")
        for text, due in (
            ("a,b", ["a,b"]),
            ("c,a,b,b", ["c", "a,b", "b"]),
            ("a,b c b", ["a,b", "c", "b"]),
            ("x,,c", ["x,", "c"]),
            ("c,,y", ["c", ",y"]),
            ("x, ,y", ["x,", ",y"]),
            ("0,3", ["a,b", "x,"]),
        ):
            self.assertEqual(read_order(plan, text), due, text)

    def test_a_word_that_may_be_read_twice(self) -> None:
        plan = plan_of("a", "b", "a,b")
        self.assertEqual(read_order(plan, "a,b"), ["a,b"])
        self.assertEqual(read_order(plan, "a b a,b"), ["a", "b", "a,b"])
        with self.assertRaises(RrpError) as caught:
            read_order(plan, "b,a,b")
        said = "--order: b,a,b may be b a b or b a,b: put blanks between routers, as"
        self.assertEqual(str(caught.exception), f"{said} --order 'b a b'")

    def test_blanks_between_routers_are_always_read(self) -> None:
        draw = random.Random(4456)
        for _ in range(200):
            letters = ["".join(each) for size in (1, 2, 3) for each in product("a,1", repeat=size)]
            plan = plan_of(*draw.sample(letters, 6))
            order = draw.choices(plan.routers, k=draw.choice([1, 2, 3, 8]))
            self.assertEqual(read_order(plan, " ".join(order)), order)
            self.assertEqual(read_order(plan, order_words(plan, order)), order)

    def test_command(self) -> None:
        with tempfile.TemporaryDirectory() as folder:
            path = os.path.join(folder, "x.rrp")
            with open(path, "w", encoding="utf-8") as file:
                file.write("reflector a,b 1\nclient c 2 of a,b\nlist l c\nlink a,b c 1\n")
            answer = rrp("run", path, "l", "--order", "c,a,b")
            values = json.loads(rrp("run", path, "l", "--order", "c,a,b", "--json").output)
        self.assertEqual(answer.output.splitlines()[0], "l, order c a,b, from nothing")
        self.assertEqual(values["order"], ["c", "a,b"])


if __name__ == "__main__":
    unittest.main()
