"""The calls are declared as the header has them."""

from __future__ import annotations

import _ctypes
import ctypes
import os
import re
import unittest
from collections.abc import Callable
from itertools import product
from unittest import mock

from rrp import library

from .support import EXAMPLES, ROOT, read, rrp

#: What an argument of the header is in ctypes.
_KINDS = {
    "const uint8_t *": [ctypes.c_char_p],
    "uint8_t *": [ctypes.c_char_p, ctypes.POINTER(ctypes.c_uint8)],
    "uint64_t *": [ctypes.POINTER(ctypes.c_uint64)],
    "int64_t *": [ctypes.POINTER(ctypes.c_int64)],
    "size_t ": [ctypes.c_size_t],
    "uint8_t ": [ctypes.c_uint8],
    "uint64_t ": [ctypes.c_uint64],
}


def declared() -> dict[str, list[str]]:
    """The functions of the header, each with its arguments: the type and the name."""
    found = re.findall(r"^uint8_t (rrp_\w+)\(([^)]*)\);", read(f"{ROOT}/include/rrp.h"), re.M)
    return {name: [" ".join(each.split()) for each in args.split(",")] for name, args in found}


class Declarations(unittest.TestCase):
    """Against include/rrp.h."""

    def test_every_function_is_declared(self) -> None:
        self.assertEqual(set(library.PROTOTYPES), set(declared()))

    def test_arguments(self) -> None:
        for name, arguments in declared().items():
            prototype = library.PROTOTYPES[name]
            self.assertEqual(len(prototype), len(arguments), name)
            for argument, kind in zip(arguments, prototype):
                kinds = _KINDS[re.sub(r"\w+$", "", argument)]
                self.assertIn(kind, kinds, f"{name}: {argument}")
                if len(kinds) == 2:
                    buffer = f"size_t {argument.split('*')[1]}_len" in arguments
                    self.assertEqual(kind, kinds[0 if buffer else 1], f"{name}: {argument}")

    def test_limits(self) -> None:
        header = read(f"{ROOT}/include/rrp.h")
        numbers = dict(re.findall(r"\bRRP_(\w+) = (\d+)", header))
        wide = re.findall(r"#define RRP_(NO_WAY_WIDE) UINT32_C\((\d+)\)", header)
        numbers.update(wide)
        limits = ("MAX_ROUTERS", "MAX_LISTS", "MAX_LINKS", "MAX_PLAN", "NO_WAY", "NO_WAY_WIDE")
        refusals = ("BAD_TABLE", "TOO_FAR", "TOO_MANY_PARENTS", "TOO_FAR_TO_NARROW")
        for name in (*limits, "NONE", *refusals, "TOO_MANY_GROUPED"):
            self.assertEqual(getattr(library, name), int(numbers[name]), name)


class Calls(unittest.TestCase):
    """The raw calls on the bundled plan."""

    def setUp(self) -> None:
        with open(f"{EXAMPLES}/m3.plan", "rb") as file:
            self.plan = file.read()

    def test_answers(self) -> None:
        plan = self.plan
        self.assertEqual(library.size(plan), (4, 2))
        self.assertEqual(library.egress_list(plan, 0), b"\2\3")
        self.assertEqual(library.compare(plan, 0, 3, 2, False, True), (1, -4))
        self.assertEqual(library.compare(plan, 0, 2, 3, True, False), (2, 4))
        self.assertTrue(library.relies(plan, 0, 0, 1))
        self.assertFalse(library.relies(plan, 0, 2, 0))
        verdict = library.verdict(plan, 0)
        self.assertEqual(verdict, (False, 2, b"\0\0\2\3", b"", b"", b"\0\1"))
        stable = (True, 3, b"\0\1\2\3", b"\2\1\3\0", bytes([3, 1, 3, 3, 3, 0, 3, 3]), b"")
        self.assertEqual(library.verdict(plan, 1), stable)

    def test_a_list_of_nobody_is_at_its_own_place(self) -> None:
        head, lists = self.plan[:21] + b"\4\x54\0", [3, 0, 2, 2, 3, 0]
        plan = head + bytes([len(lists), 0]) + self.plan[26:84] + bytes(lists)
        found = []
        for number in range(4):
            start, count = ctypes.c_uint64(99), ctypes.c_uint64(99)
            refused = library.library().rrp_list(plan, len(plan), number, start, count)
            found.append((refused, start.value, count.value))
        self.assertEqual(len(plan), 90)
        self.assertEqual(found, [(0, 86, 0), (0, 87, 2), (0, 90, 0), (8, 99, 99)])
        self.assertEqual(library.egress_list(plan, 0), b"")
        nothing = (True, 1, b"\0\1\2\3", b"\0\0\1\1", bytes([255] * 8), b"")
        self.assertEqual([library.verdict(plan, number) for number in (0, 2)], [nothing] * 2)

    def test_roles(self) -> None:
        for role in range(256):
            plan = self.plan[:26] + bytes([role]) + self.plan[27:]
            self.assertEqual(library.refusal(plan), 0 if 1 <= role <= 5 else 4, role)

    def test_the_hop_step(self) -> None:
        plan = self.plan[:26] + b"\4" + self.plan[27:]
        flags = list(product((False, True), (False, True)))
        near, far = (1, -4), (2, -4)
        answers = [library.compare(plan, 0, 3, 2, *each) for each in flags]
        self.assertEqual(answers, [near, far, near, near])
        self.assertEqual(library.compare(plan, 0, 3, 2, 256, 256), near)
        self.assertEqual(library.compare(plan, 0, 3, 2, 0, 256), far)
        for each in flags:
            self.assertEqual(library.compare(plan, 0, 2, 2, *each), (0, 0))
            self.assertEqual(library.compare(plan, 1, 3, 2, *each), (2, 4))
        stable = (True, 2, b"\0\1\2\3", b"\1\2\0\0", bytes([2, 2, 2, 0, 2, 2, 3, 3]), b"")
        self.assertEqual(library.verdict(plan, 0), stable)

    def test_tables(self) -> None:
        start = bytes([255] * 4 + [2, 2, 3, 3])
        left = library.activate(self.plan, 0, 0, start)
        self.assertEqual(left, bytes([2, 2, 255, 255, 2, 2, 3, 3]))
        ran = library.run(self.plan, 0, bytes([0, 1, 2, 3]), start)
        self.assertEqual(ran, (bytes([2, 2, 2, 0, 2, 2, 3, 3]), 4, 1, False))
        self.assertEqual(library.run(self.plan, 0, bytes([1, 0, 2]), start, 2)[1:], (2, 0, True))

    def test_distances(self) -> None:
        links = bytes.fromhex("00010100 00020900 01020200 02000401")
        rows = bytes.fromhex("000001000300 060100000200 040105010000")
        self.assertEqual(library.distances(3, links), rows)

    def test_refusals(self) -> None:
        calls = [
            (1, lambda: library.size(b"")),
            (1, lambda: library.size(self.plan[:-1] + b"\0\0" * 9000)),
            (8, lambda: library.egress_list(self.plan, 2)),
            (8, lambda: library.egress_list(self.plan, -1)),
            (8, lambda: library.egress_list(self.plan, 2**64)),
            (8, lambda: library.relies(self.plan, 0, 4, 0)),
            (8, lambda: library.compare(self.plan, 0, 1, 4, True, True)),
            (8, lambda: library.verdict(self.plan, 2)),
            (8, lambda: library.steady(self.plan, 2)),
            (5, lambda: library.steady(self.plan[:46] + b"\1" + self.plan[47:], 0)),
            (8, lambda: library.hop_set(self.plan, 2)),
            (8, lambda: library.hop_set(self.plan, -1)),
            (5, lambda: library.hop_set(self.plan[:46] + b"\1" + self.plan[47:], 0)),
            (1, lambda: library.figures(b"")),
            (5, lambda: library.figures(self.plan[:46] + b"\1" + self.plan[47:])),
            (9, lambda: library.activate(self.plan, 0, 0, b"")),
            (10, lambda: library.activate(self.plan, 0, 0, bytes(8))),
            (2, lambda: library.distances(65, b"")),
            (2, lambda: library.distances(2**64 + 3, b"")),
            (11, lambda: library.distances(2, b"\0")),
            (12, lambda: library.distances(2, b"\0\1\xff\xff")),
        ]
        for number, call in calls:
            with self.assertRaises(library.Refused) as caught:
                call()
            self.assertEqual(caught.exception.number, number)


class Steady(unittest.TestCase):
    """The raw call for steady tables, on the bundled plan."""

    def setUp(self) -> None:
        with open(f"{EXAMPLES}/m3.plan", "rb") as file:
            self.plan = file.read()

    def raw(self, plan: bytes, egresses: int, length: int) -> tuple[int, int, bytes]:
        """What the call returns, the count, and all bytes of a buffer of so many and two more."""
        marked, count = b"\x77" * (length + 2), ctypes.c_uint64(99)
        out = ctypes.create_string_buffer(marked, len(marked))
        refused = library.library().rrp_steady(plan, len(plan), egresses, out, length, count)
        return refused, count.value, out.raw

    def test_numbers(self) -> None:
        self.assertEqual(library.steady(self.plan, 0), (1, 2))
        self.assertEqual(library.steady(self.plan, 1), (0,))
        for role, numbers in ((3, (1, 2)), (4, (0,)), (5, (0,))):
            plan = self.plan[:26] + bytes([role]) + self.plan[27:]
            self.assertEqual(library.steady(plan, 0), numbers, role)

    def test_bytes(self) -> None:
        self.assertEqual(self.raw(self.plan, 0, 4), (0, 2, b"\1\0\2\0\x77\x77"))
        self.assertEqual(self.raw(self.plan, 0, 5), (0, 2, b"\1\0\2\0\x77\x77\x77"))
        self.assertEqual(self.raw(self.plan, 1, 3), (0, 1, b"\0\0\x77\x77\x77"))

    def test_refused(self) -> None:
        for number, egresses, length in ((9, 0, 3), (9, 0, 0), (9, 1, 1), (8, 2, 4), (8, 2, 0)):
            refused = self.raw(self.plan, egresses, length)
            self.assertEqual(refused, (number, 99, b"\x77" * (length + 2)))


class HopSet(unittest.TestCase):
    """The raw call for a smallest set to have the hop step, on the bundled plan."""

    def setUp(self) -> None:
        with open(f"{EXAMPLES}/m3.plan", "rb") as file:
            self.plan = file.read()

    def raw(self, plan: bytes, egresses: int) -> tuple[int, int]:
        """What the call returns, and the variable for the number, which had 99 in it."""
        found = ctypes.c_uint64(99)
        refused = library.library().rrp_hop_set(plan, len(plan), egresses, found)
        return refused, found.value

    def test_numbers(self) -> None:
        self.assertEqual((library.hop_set(self.plan, 0), library.hop_set(self.plan, 1)), (1, 0))
        for roles, number in ((b"\3\1", 1), (b"\3\3", 1), (b"\4\1", 0), (b"\1\5", 0)):
            plan = self.plan[:26] + roles[:1] + self.plan[27:31] + roles[1:] + self.plan[32:]
            self.assertEqual(self.raw(plan, 0), (0, number), roles)

    def test_refused(self) -> None:
        for number, plan, egresses in ((8, self.plan, 2), (8, self.plan, 2**64 - 1), (1, b"", 0)):
            self.assertEqual(self.raw(plan, egresses), (number, 99))


class Figures(unittest.TestCase):
    """The raw call for the figures over all lists, on the bundled plan."""

    def setUp(self) -> None:
        with open(f"{EXAMPLES}/m3.plan", "rb") as file:
            self.plan = file.read()

    def raw(self, plan: bytes, *lengths: int) -> tuple[int, list[bytes], list[int]]:
        """What the call returns, all bytes of two buffers of so many and two more, and the four
        variables, which had 99 in them."""
        buffers = [ctypes.create_string_buffer(b"\x77" * (each + 2), each + 2) for each in lengths]
        lent = [part for pair in zip(buffers, lengths) for part in pair]
        kinds = ctypes.c_uint64, ctypes.c_uint64, ctypes.c_uint8, ctypes.c_uint64
        out = [kind(99) for kind in kinds]
        refused = library.library().rrp_figures(plan, len(plan), *lent, *out)
        return refused, [each.raw for each in buffers], [each.value for each in out]

    def of_lists(self, *lists: bytes) -> bytes:
        """The plan with other lists."""
        body = bytes([len(lists)]) + b"".join(bytes([len(each)]) + each for each in lists)
        return self.plan[:24] + bytes([len(body), 0]) + self.plan[26:84] + body

    def test_figures(self) -> None:
        counted = (1, 1, 3, b"\0\0\0\1", b"\1\1\0\0")
        self.assertEqual(library.figures(self.plan), counted)
        plan = self.of_lists(b"\2\3", b"\2\3", b"", b"\0", b"\3", b"\0\1\2\3")
        counted = (4, 2, 3, b"\1\1\1\1", b"\2\2\0\0")
        self.assertEqual(library.figures(plan), counted)

    def test_bytes(self) -> None:
        ranks, routers = b"\0\0\0\1", b"\1\1\0\0"
        for longer in ((4, 4), (5, 4), (4, 7)):
            later = [b"\x77" * (length - 2) for length in longer]
            due = [ranks + later[0], routers + later[1]]
            self.assertEqual(self.raw(self.plan, *longer), (0, due, [1, 1, 1, 3]), longer)

    def test_absent(self) -> None:
        plan = self.of_lists(b"\2\3")
        self.assertEqual(library.figures(plan), (0, 1, None, bytes(4), b"\1\1\0\0"))
        due = [bytes(4) + b"\x77\x77", b"\1\1\0\0\x77\x77"]
        self.assertEqual(self.raw(plan, 4, 4), (0, due, [0, 1, 0, 0]))

    def test_rank_0_is_no_absence(self) -> None:
        plan = self.of_lists(b"\0\1\2\3")
        self.assertEqual(library.figures(plan)[:3], (1, 0, 0))
        self.assertEqual(self.raw(plan, 4, 4)[2], [1, 0, 1, 0])

    def test_refused(self) -> None:
        damaged = self.plan[:46] + b"\1" + self.plan[47:]
        cases = [(9, self.plan, 3, 4), (9, self.plan, 4, 3), (9, self.plan, 0, 0), (1, b"", 0, 4)]
        for number, plan, *lengths in [*cases, (5, damaged, 4, 4), (5, damaged, 0, 0)]:
            untouched = [b"\x77" * (length + 2) for length in lengths]
            self.assertEqual(self.raw(plan, *lengths), (number, untouched, [99] * 4))


class Conversions(unittest.TestCase):
    """The bundled plan as RRP2, and back."""

    def setUp(self) -> None:
        with open(f"{EXAMPLES}/m3.plan", "rb") as file:
            self.plan = file.read()
        contents = bytes.fromhex("03 3400 4000 04 7400 0600")
        words = [self.plan[place : place + 2] for place in range(52, 84, 2)]
        distances = b"".join(word + b"\0\0" for word in words)
        self.wide = b"RRP2" + self.plan[4:16] + contents + self.plan[26:52] + distances
        self.wide += self.plan[84:]

    def refused(self, call: Callable[[bytes], bytes], plan: bytes) -> int:
        """The number with which a call refuses a plan."""
        with self.assertRaises(library.Refused) as caught:
            call(plan)
        return caught.exception.number

    def with_words(self, *words: str) -> bytes:
        """The RRP2 plan with other distances from router 0, from router 1 on."""
        stated = bytes.fromhex("".join(words))
        return self.wide[:56] + stated + self.wide[56 + len(stated) :]

    def test_bytes(self) -> None:
        self.assertEqual(library.widen(self.plan), self.wide)
        self.assertEqual(library.narrow(self.wide), self.plan)
        self.assertEqual(library.verdict(self.wide, 0), library.verdict(self.plan, 0))

    def test_no_way_stays_no_way(self) -> None:
        cut = self.plan[:54] + b"\xff\xff" + self.plan[56:]
        wide = self.with_words("ffffffff")
        self.assertEqual(library.widen(cut), wide)
        self.assertEqual(library.narrow(wide), cut)

    def test_boundaries(self) -> None:
        longest = self.plan[:54] + b"\xfe\xff" + self.plan[56:]
        self.assertEqual(library.narrow(self.with_words("feff0000")), longest)
        for words in (["ffff0000"], ["00000100"], ["feffffff"], ["ffffffff", "ffff0000"]):
            plan = self.with_words(*words)
            self.assertEqual(library.refusal(plan), 0, words)
            self.assertEqual(self.refused(library.narrow, plan), 14, words)

    def test_refusals(self) -> None:
        self.assertEqual(self.refused(library.widen, self.wide), 1)
        self.assertEqual(self.refused(library.narrow, self.plan), 1)
        self.assertEqual(self.refused(library.widen, b"RRP3" + self.plan[4:]), 1)
        far = self.with_words("ffff0000")
        self.assertEqual(self.refused(library.narrow, far[:-1] + b"\4"), 7)
        self.assertEqual(self.refused(library.narrow, far[:52] + b"\1" + far[53:]), 6)

    def test_margins(self) -> None:
        far = self.with_words("00000000", "feffffff", "00000000")
        self.assertEqual(library.compare(far, 0, 2, 3, True, True), (2, 4294967294))
        self.assertEqual(library.compare(far, 0, 3, 2, True, True), (1, -4294967294))
        far = far[:26] + b"\4" + far[27:]
        self.assertEqual(library.compare(far, 0, 2, 3, True, False), (1, 4294967294))
        self.assertEqual(library.compare(far, 0, 3, 2, False, True), (2, -4294967294))


class Missing(unittest.TestCase):
    """A library that is not there, or is none, is told with the command that builds it."""

    def report(self, places: list[str], **environment: str) -> str:
        """What the command says where the library is looked for in these places."""
        with mock.patch.object(library, "_loaded", None), mock.patch.dict(os.environ, environment):
            with mock.patch.object(library, "places", lambda: places):
                answer = rrp("check", f"{EXAMPLES}/m3.plan")
        self.assertEqual((answer.status, answer.output), (2, ""))
        self.assertIn("./build", answer.errors)
        return answer.errors

    def test_missing(self) -> None:
        environment = mock.patch.dict(os.environ)
        environment.start()
        self.addCleanup(environment.stop)
        os.environ.pop("RRP_LIBRARY", None)
        self.assertIn("looked at /no/a.so and /no/b.so", self.report(["/no/a.so", "/no/b.so"]))
        self.assertIn("RRP_LIBRARY is /no/c.so", self.report([], RRP_LIBRARY="/no/c.so"))
        self.assertIn("cannot be loaded", self.report([], RRP_LIBRARY=f"{EXAMPLES}/m3.plan"))
        self.assertIn("has no rrp_check", self.report([], RRP_LIBRARY=_ctypes.__file__))

    def test_older(self) -> None:
        later = {**library.PROTOTYPES, "rrp_later": ()}
        with mock.patch.object(library, "PROTOTYPES", later):
            said = self.report(library.places(), **dict(os.environ))
        self.assertIn("librrp.so has no rrp_later: build it with ", said)


if __name__ == "__main__":
    unittest.main()
