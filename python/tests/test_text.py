"""Plans from text: what statements mean, limits, and the texts of the documentation."""

from __future__ import annotations

import os
import re
import tempfile
import unittest
from itertools import combinations
from unittest import mock

from rrp import Plan, encoding, library
from rrp.text import TextErrors, parse
from rrp.text.assembly import assemble
from rrp.text.changes import with_changes

from .support import EXAMPLES, ROOT, TESTS, Answer, read, rrp

_TWO = "reflector a 1\nreflector b 2\nlist l a\n"


def distances(lines: str, router: str = "a", other: str = "b") -> tuple[int | None, int | None]:
    """The distances of two routers there and back, by the lines given."""
    plan = Plan.parse(_TWO + lines)
    return plan.distance(router, other), plan.distance(other, router)


class Meaning(unittest.TestCase):
    """What a statement says."""

    def test_ways(self) -> None:
        self.assertEqual(distances(""), (None, None))
        self.assertEqual(distances("link a b 5"), (5, 5))
        self.assertEqual(distances("link a > b 5"), (5, None))
        self.assertEqual(distances("link a>b 5\nlink b>a 7"), (5, 7))
        self.assertEqual(distances("link a b none"), (None, None))
        self.assertEqual(distances("distance a b 0"), (0, 0))
        self.assertEqual(distances("distance b > a 65534"), (None, 65534))
        self.assertEqual(distances("distance b > a 65535"), (None, 65535))
        self.assertEqual(distances("link a b 5\ndistance a > b 4294967294"), (4294967294, 5))
        self.assertEqual(distances("link a b 5\ndistance a > b 9"), (9, 5))
        self.assertEqual(distances("link a b 5\ndistance a b none"), (None, None))
        self.assertEqual(distances("link a b 5\ndistance a > b none"), (None, 5))

    def test_an_overridden_link_still_leads_on(self) -> None:
        lines = "client c 3\nlink a b 5\nlink b c 4\ndistance a b 1"
        self.assertEqual(distances(lines, "a", "c"), (9, 9))

    def test_the_shortest_walk(self) -> None:
        lines = "client c 3\nlink a b 50\nlink a c 4\nlink c > b 6"
        self.assertEqual(distances(lines), (10, 50))

    def test_sessions(self) -> None:
        lines = "client c 3 of b a\nclient d 4\nmesh a d b\nsession d c"
        pairs = [("a", "b"), ("a", "c"), ("a", "d"), ("b", "c"), ("b", "d"), ("c", "d")]
        self.assertEqual(list(Plan.parse(_TWO + lines).sessions), pairs)

    def test_roles_and_identifiers(self) -> None:
        lines = ["client c 1.2.3.4", "reflector s 16909059 no-client-reflection", "reflector r 0"]
        plan = Plan.parse("\n".join([*lines, "list l c"]))
        self.assertEqual(plan.routers, ("r", "s", "c"))
        self.assertEqual(plan.model.roles, [1, 3, 2])
        self.assertEqual(plan.model.identifiers, [0, 0x01020303, 0x01020304])

    def test_any_order_of_lines(self) -> None:
        lines = read(f"{EXAMPLES}/net.rrp").splitlines()
        lists = [line for line in lines if line.startswith("list")]
        others = [line for line in reversed(lines) if not line.startswith("list")]
        text, mixed = "\n".join(lines), "\r\n".join(lists + others)
        self.assertEqual(Plan.parse(text).data, Plan.parse(mixed).data)

    def test_comments_and_blanks(self) -> None:
        plan = Plan.parse("\t reflector\ta 1#x\n\n#\n  # list l b\nlist l a # b\n")
        self.assertEqual((plan.routers, plan.egresses("l")), (("a",), ("a",)))

    def test_free_names(self) -> None:
        names = ["of", "none", "list", "64", "é/1", "a:b_c.d", "-", "="]
        lines = [f"client {name} {number} of x" for number, name in enumerate(names)]
        plan = Plan.parse("\n".join([*lines, "reflector x 99", f"list list {' '.join(names)}"]))
        self.assertEqual(plan.egresses("list"), tuple(names))

    def test_note_on_pairs_without_a_way(self) -> None:
        text = _TWO + "client c 3\nclient d 4\nclient e 5\nlink a > b 5\ndistance c d none\n"
        (note,) = Plan.parse(text).notes
        pairs = "a and c, a and d, a and e, .."
        self.assertEqual(note, f"no way along links for 9 pairs of routers: {pairs}")
        (note,) = Plan.parse(_TWO + "link a > b 5").notes
        self.assertEqual(note, "no way along links for 1 pair of routers: b to a")

    def test_notes_cut_long_names(self) -> None:
        long = "x" * 65
        (note,) = Plan.parse(f"{_TWO}client {long} 3\nlink a b 5").notes
        pairs = f"a and {'x' * 62}.., b and {'x' * 62}.."
        self.assertEqual(note, f"no way along links for 2 pairs of routers: {pairs}")


class Limits(unittest.TestCase):
    """A plan as large as can be, and one larger by one."""

    def problems(self, text: str) -> list[tuple[int, str]]:
        """The line and the message of each problem."""
        with self.assertRaises(TextErrors) as caught:
            Plan.parse(text)
        return [(each.word.line.number, each.message) for each in caught.exception.problems]

    def test_routers(self) -> None:
        lines = [f"reflector r{number} {number}" for number in range(65)]
        text = "\n".join(["list l r0", *lines[:64]])
        self.assertEqual(len(Plan.parse(text).routers), 64)
        self.assertEqual(self.problems(f"{text}\n{lines[64]}"), [(66, "a router too many")])

    def test_lists(self) -> None:
        lines = [f"list l{number} a" for number in range(65)]
        text = "\n".join(["reflector a 1", *lines[:64]])
        self.assertEqual(len(Plan.parse(text).lists), 64)
        self.assertEqual(self.problems(f"{text}\n{lines[64]}"), [(66, "a list too many")])

    def test_links(self) -> None:
        routers = [f"reflector r{number} {number}" for number in range(24)]
        links = [f"link r{one} r{other} 3" for one, other in combinations(range(24), 2)]
        text = "\n".join(["list l r0", *routers, *links[:256]])
        self.assertEqual(len(Plan.parse(f"{text}\nlink r22 r23 none").routers), 24)
        for link in (links[256], "link r22 > r23 9"):
            self.assertEqual(self.problems(f"{text}\n{link}"), [(282, "too many links")])

    def test_wrong_files_take_no_time(self) -> None:
        text = "\n".join(f"session no-{number} such-{number}" for number in range(20000))
        routers = "\n".join(f"client so-{number} {number}" for number in range(64))
        self.assertEqual(len(self.problems(f"{routers}\nlist l so-1\n{text}")), 40000)


def refuses_five_parents(plan: bytes) -> int:
    """What the library says of a plan, and 13 where a client has five neighbouring reflectors."""
    model = encoding.decode(plan)
    for client in (router for router, role in enumerate(model.roles) if role == encoding.CLIENT):
        others = [sum(pair) - client for pair in model.sessions if client in pair]
        if sum(model.roles[other] != encoding.CLIENT for other in others) > 4:
            return library.TOO_MANY_PARENTS
    return 0


class Parents(unittest.TestCase):
    """A client with too many parents is found by the refusal, whoever gives it."""

    def test_places(self) -> None:
        with mock.patch.object(library, "refusal", refuses_five_parents):
            with self.assertRaises(TextErrors) as caught:
                Plan.read(f"{TESTS}/errors/too-many-parents.rrp")
        found = [
            (each.word.line.number, each.word.column, each.message.split(": ")[1])
            for each in caught.exception.problems
        ]
        named = [(9, 28, "r1, r2, r3, r4, r5"), (14, 12, "r6, r2, r3, r1, r4, r5")]
        self.assertEqual(found, named)


class Changes(unittest.TestCase):
    """A change is the text with another line."""

    def changed(self, text: str, *changes: str) -> bytes:
        """The bytes of a text with changes."""
        return assemble(with_changes(parse(text), changes)).data

    def test_as_if_written(self) -> None:
        net = read(f"{EXAMPLES}/net.rrp")
        one_way, two_sessions = "link lon-rr > par-a 12", "mesh fra-a fra-b\nsession fra-b muc-a"
        cases = [
            ("link lon-rr par-a 6", "link lon-rr par-a 12", "link par-a lon-rr 12"),
            ("link lon-rr par-a 6", f"{one_way}\nlink par-a > lon-rr 6", one_way),
            ("link lon-rr par-a 6", "", "link lon-rr par-a none"),
            ("mesh fra-a fra-b muc-a", two_sessions, "session muc-a fra-a none"),
            ("of par-rr lon-rr", "of par-rr lon-rr fra-rr", "session fra-rr mrs-a"),
            ("list peering  lon-b fra-b", "list peering lon-a", "list peering lon-a"),
            ("# Links", "distance lon-a lon-b 3 # Links", "distance lon-b lon-a 3"),
            ("# Links", "distance lon-a > lon-b none # Links", "distance lon-a > lon-b none"),
        ]
        for old, new, change in cases:
            self.assertIn(old, net)
            written = Plan.parse(net.replace(old, new)).data
            self.assertEqual(written, self.changed(net, change), change)

    def test_what_is_changed_stays(self) -> None:
        draft = parse(read(f"{EXAMPLES}/net.rrp"))
        before = assemble(draft).data
        changes = ["link lon-rr par-a 12", "distance lon-a lon-b 3", "list new lon-a"]
        with_changes(draft, [*changes, "session lon-rr par-rr none", "session lon-a par-rr"])
        self.assertEqual(assemble(draft).data, before)

    def test_one_after_the_other(self) -> None:
        net = read(f"{EXAMPLES}/net.rrp")
        self.assertEqual(
            self.changed(net, "link lon-rr par-a 12", "link lon-rr par-a 6", "list new lon-a"),
            Plan.parse(f"{net}\nlist new lon-a").data,
        )

    def test_sizes(self) -> None:
        lists = "\n".join(f"list l{number} a" for number in range(64))
        self.assertTrue(self.changed(f"reflector a 1\n{lists}", "list l5 a"))
        with self.assertRaisesRegex(TextErrors, "a list too many"):
            self.changed(f"reflector a 1\n{lists}", "list new a")


class Documentation(unittest.TestCase):
    """docs/TEXT-PLANS.md says what happens."""

    def test_example(self) -> None:
        page = read(f"{ROOT}/docs/TEXT-PLANS.md")
        blocks = re.findall(r"^```text\n(.*?)^```$", page, re.M | re.S)
        plan, answer, after = blocks[:3]
        with tempfile.TemporaryDirectory() as folder:
            os.chdir(folder)
            with open("two.rrp", "w", encoding="utf-8") as file:
                file.write(plan)
            self.assertEqual(rrp("check", "two.rrp"), (0, answer, ""))
            changed = rrp("check", "two.rrp", "--set", "link par-rr lon-a 8")
            self.assertEqual(changed, (1, after, ""))
            os.chdir(ROOT)
        with self.assertRaises(TextErrors) as caught:
            Plan.parse(plan.replace("of lon-rr         # its", "of lon-r\n# its"), "two.rrp")
        self.assertEqual(caught.exception.report() + "\n", blocks[-1])


class ChangesByCommand(unittest.TestCase):
    """Changes are blamed for what they break, and may add the first link."""

    ROUTERS = "reflector a 1\nreflector b 2\nreflector c 3\nmesh a b c\nlist l a\n"

    def change(self, lines: str, *changes: str) -> Answer:
        """What is said of changes to a plan of three reflectors with these lines."""
        with tempfile.TemporaryDirectory() as folder:
            path = f"{folder}/x.rrp"
            with open(path, "w", encoding="utf-8") as file:
                file.write(self.ROUTERS + lines)
            return rrp("check", path, *(word for each in changes for word in ("--set", each)))

    def test_too_far_is_blamed_on_the_change(self) -> None:
        line = "link a b 10\nlink b c 10000\n"
        ring = "link a b 5\nlink a c 60000\nlink c b 10000\n"
        far = "link a b 5\nlink a c 40000\nlink c b 30000\n"
        for lines, changes, number in (
            (line, ["link a b 60000"], 1),
            (line, ["link b c 20", "link a b 65535"], 2),
            (ring, ["link a b none"], 1),
            (far, ["link a b none", "list l c"], 1),
            (far, ["session a b none", "link a b 65535"], 2),
        ):
            answer = self.change(lines, *changes)
            self.assertEqual((answer.status, answer.output), (2, ""), changes)
            self.assertTrue(answer.errors.startswith(f"--set:{number}:"), answer.errors)
            self.assertIn("too far", answer.errors)

    def test_the_first_link(self) -> None:
        answer = self.change("", "link a b 5")
        self.assertEqual(answer.status, 0)
        self.assertIn("with link a b 5", answer.output)
        answer = self.change("distance a b 5\n", "link a b 5")
        self.assertEqual(answer.status, 2)
        self.assertIn("the plan has distances and no links", answer.errors)

    def test_long_names_are_cut(self) -> None:
        for lines, changes in ((f"link a {'x' * 65} 5\n", []), ("", [f"link a {'x' * 65} 5"])):
            errors = self.change(lines, *changes).errors
            self.assertIn(f"no router is named {'x' * 62}..\n", errors)
        self.assertIn(f"named {'x' * 64}\n", self.change(f"link a {'x' * 64} 5\n").errors)


if __name__ == "__main__":
    unittest.main()
