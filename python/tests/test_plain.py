"""A text with nothing wrong is read quickly, and no otherwise than by `parse`."""

from __future__ import annotations

import glob
import random
import re
import unittest

from rrp import Plan
from rrp.errors import RrpError
from rrp.filing import is_meant, packed
from rrp.text import Draft, parse
from rrp.text.plain import plain_draft
from rrp.text.writing import write

from .networks import random_links, random_network
from .support import EXAMPLES, TESTS, read, rrp

SHEETS = f"{EXAMPLES}/sheets.rrp"

#: Words to put into a text in place of others.
_WORDS = ("none", ">", "of", "#", "wide", "hop-step", "no-client-reflection", "link", "list", "0")
_MORE = ("client", "reflector", "mesh", "session", "distance", "65535", "-1", "10.0.0.1", "\x07")


def content(draft: Draft) -> tuple[object, ...]:
    """What a draft says, without places."""
    kinds = draft.links, draft.distances
    ways = [{ends: way.value for ends, way in each.items()} for each in kinds]
    routers = {name: (each.role, each.identifier) for name, each in draft.routers.items()}
    lists = [(name, each.routers) for name, each in draft.lists.items()]
    return draft.file, routers, set(draft.sessions), *ways, lists, draft.wide is None


def texts() -> list[str]:
    """Texts with nothing wrong, and without sheets."""
    draw = random.Random(4456)
    paths = glob.glob(f"{EXAMPLES}/*.rrp") + glob.glob(f"{TESTS}/plans/*.rrp")
    found = [read(path) for path in sorted(paths) if not Plan.read(path).sheets]
    found += [random_links(draw, draw.random() < 0.3) for _ in range(20)]
    return found + [write(random_network(draw)) for _ in range(20)]


def spoilt(text: str, draw: random.Random) -> str:
    """A text with a word replaced, taken away or given twice, or a line gone or twice."""
    lines = text.split("\n")
    place = draw.randrange(len(lines))
    parts = re.split(r"(\s+)", lines[place])
    at = draw.randrange(len(parts))
    kind = draw.randrange(6)
    if kind == 0:
        lines[place : place + 1] = []
    elif kind == 1:
        lines.insert(draw.randrange(len(lines)), lines[place])
    else:
        words = [*_WORDS, *_MORE, *re.split(r"\s+", draw.choice(lines))]
        parts[at] = {2: "", 3: f"{parts[at]} {parts[at]}"}.get(kind, draw.choice(words))
        lines[place] = "".join(parts)
    return "\n".join(lines)


class Plain(unittest.TestCase):
    """Held to `parse`, which has the places."""

    def hold(self, text: str) -> bool:
        """Whether a text is read quickly; if so, it has nothing wrong and says the same."""
        found = plain_draft(text, "plan")
        if found is not None:
            self.assertEqual(content(found), content(parse(text, "plan")), text)
        return found is not None

    def test_nothing_wrong(self) -> None:
        for text in texts():
            self.assertTrue(self.hold(text), text)
            self.assertTrue(self.hold(text.replace("\n", " \r\n").replace(">", "  >")), text)
            due = Plan.parse(text, "plan")
            found = packed(text.encode(), "plan")
            self.assertEqual((found.data, found.names), (due.data, (due.routers, due.lists)))

    def test_sheets_and_json_are_left_to_parse(self) -> None:
        json_text = rrp("unpack", f"{EXAMPLES}/net.rrp", "--json").output
        for text, path in ((read(SHEETS), SHEETS), (json_text, "net.json")):
            self.assertFalse(self.hold(text))
            due = Plan.parse(text, path)
            found = packed(text.encode(), path)
            self.assertEqual((found.data, found.names), (due.data, (due.routers, due.lists)))

    def test_spoilt_texts(self) -> None:
        draw, kinds = random.Random(4456), []
        for text in texts() * 12:
            spoils = spoilt(text, draw)
            kinds.append(self.hold(spoils))
        self.assertGreater(kinds.count(True), 100)
        self.assertGreater(kinds.count(False), 300)

    def test_stored_errors_are_told_as_ever(self) -> None:
        for path in sorted(glob.glob(f"{TESTS}/errors/*.rrp")):
            with open(path, "rb") as file:
                data = file.read()
            try:
                text = data.decode("utf-8-sig")
            except UnicodeDecodeError:
                continue
            if not is_meant(data):
                continue
            with self.assertRaises(RrpError) as due:
                Plan.parse(text, path)
            with self.assertRaises(RrpError) as raised:
                packed(data, path)
            self.assertEqual(str(raised.exception), str(due.exception))

    def test_limits(self) -> None:
        routers = [f"reflector r{number} {number}\n" for number in range(65)]
        lists = [f"list l{number} r0\n" for number in range(65)]
        links = [f"link r{one} r{other} 1\n" for one in range(23) for other in range(one)]
        few, many = "".join(routers[:64]), "".join(routers)
        self.assertTrue(self.hold(few + "".join(lists[:64])))
        self.assertFalse(self.hold(many + lists[0]))
        self.assertFalse(self.hold(few + "".join(lists)))
        more = [f"link r{number} r{number + 1} 1\n" for number in range(30, 34)]
        self.assertTrue(self.hold(few + lists[0] + "".join(links + more[:3])))
        self.assertFalse(self.hold(few + lists[0] + "".join(links + more)))
        self.assertFalse(self.hold(few))
        self.assertFalse(self.hold(lists[0]))


if __name__ == "__main__":
    unittest.main()
