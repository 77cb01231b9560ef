"""Plans in JSON: what `rrp unpack --json` writes is read back as the same bytes; what is wrong is
told at its place; the schema in docs says what is read."""

from __future__ import annotations

import copy
import glob
import json
import random
import re
import unittest
from collections.abc import Iterator

from rrp import Plan, TextErrors

from .folders import InFolder, write
from .networks import random_network
from .support import EXAMPLES, ROOT, STORED_PLANS, TESTS, read, rrp

M3 = f"{EXAMPLES}/m3.plan"

#: A plan with links.
LINKED = {
    "routers": [
        {"name": "p", "role": "reflector", "identifier": "10.0.0.1", "hop_step": True},
        {"name": "q", "role": "reflector", "identifier": 20, "client_reflection": False},
        {"name": "x", "role": "client", "identifier": "30"},
    ],
    "sessions": [["p", "q"], ["x", "p"]],
    "links": [{"a": "p", "b": "x", "weight": 5}, {"from": "p", "to": "q", "weight": 7}],
    "distances": {"q": {"p": 9, "x": None}},
    "lists": {"one": ["x"], "gone": []},
}

TYPES = {
    "object": dict,
    "array": list,
    "string": str,
    "boolean": bool,
    "null": type(None),
}


def fits(value: object, schema: dict, whole: dict) -> bool:
    """Whether a value has the form of a schema: of the words that docs/plan.schema.json uses."""
    if "$ref" in schema:
        return fits(value, whole["$defs"][schema["$ref"].rpartition("/")[2]], whole)
    if "oneOf" in schema:
        return sum(fits(value, each, whole) for each in schema["oneOf"]) == 1
    kinds = schema.get("type", [])
    if not any(_is(value, kind) for kind in ([kinds] if isinstance(kinds, str) else kinds)):
        return False
    if "enum" in schema and value not in schema["enum"]:
        return False
    if isinstance(value, str) and not re.search(schema.get("pattern", ""), value):
        return False
    if _is(value, "integer"):
        return schema.get("minimum", value) <= value <= schema.get("maximum", value)
    if isinstance(value, list):
        least, most = schema.get("minItems", 0), schema.get("maxItems", len(value))
        items = schema.get("items", {"type": list(TYPES)})
        return least <= len(value) <= most and all(fits(each, items, whole) for each in value)
    return not isinstance(value, dict) or _fits_object(value, schema, whole)


def _fits_object(value: dict, schema: dict, whole: dict) -> bool:
    """The same of an object."""
    known, other = schema.get("properties", {}), schema.get("additionalProperties", True)
    names = schema.get("propertyNames", {"type": "string"})
    if not set(schema.get("required", ())) <= set(value):
        return False
    if len(value) < schema.get("minProperties", 0):
        return False
    for name, each in value.items():
        form = known.get(name, other)
        if form is False or not fits(name, names, whole):
            return False
        if form is not True and not fits(each, form, whole):
            return False
    return True


def _is(value: object, kind: str) -> bool:
    if kind == "integer":
        return isinstance(value, int) and not isinstance(value, bool)
    return isinstance(value, TYPES[kind])


def written(path: str) -> dict:
    """What `unpack --json` writes."""
    return json.loads(rrp("unpack", path, "--json").output)


def problems_of(text: str) -> list[str]:
    """The places and messages of the problems of a plan in JSON."""
    try:
        Plan.parse(text, "plan.json")
    except TextErrors as failure:
        return [each.report().split("\n")[0] for each in failure.problems]
    return []


class RoundTrip(InFolder):
    """What is written is read back."""

    def test_examples(self) -> None:
        for path in glob.glob(f"{EXAMPLES}/*.rrp") + glob.glob(f"{STORED_PLANS}/*.plan"):
            answer = rrp("unpack", path, "--json")
            if answer.status == 2:
                continue
            write("plan.json", answer.output)
            plan, back = Plan.read(path), Plan.read("plan.json")
            self.assertEqual((back.data, back.routers), (plan.data, plan.routers))
            self.assertEqual(back.lists, plan.lists)

    def test_random_plans(self) -> None:
        draw = random.Random(4456)
        for width in (2, 4) * 20:
            plan = random_network(draw, width=width)
            with open("plan.plan", "wb") as file:
                file.write(plan.data)
            text = rrp("unpack", "plan.plan", "--json").output
            self.assertEqual(Plan.parse(text).data, plan.data)
            self.assertEqual(Plan.parse(json.dumps(json.loads(text))).data, plan.data)

    def test_every_command_takes_it(self) -> None:
        write("m3.json", rrp("unpack", M3, "--json").output)
        for words in (
            ["check"],
            ["show", "l0"],
            ["why", "l0", "r0", "r1"],
            ["run", "l1"],
            ["steady", "l0"],
            ["hop-set"],
            ["dot", "l0"],
            ["unpack"],
            ["pack"],
            ["figures"],
            ["sweep"],
        ):
            command, *rest = words
            one = json.loads(rrp(command, "m3.json", *rest, "--json").output)
            two = json.loads(rrp(command, M3, *rest, "--json").output)
            same = json.dumps(one).replace("m3.json", M3)
            self.assertEqual(json.loads(same), two, command)

    def test_a_verdict_is_filed_and_audited(self) -> None:
        write("m3.json", rrp("unpack", M3, "--json").output)
        self.assertEqual(rrp("file", "m3.json").status, 1)
        self.assertEqual(rrp("audit", ".").status, 0)
        write("m3.json", read("m3.json").replace('"r3": 6', '"r3": 16'))
        self.assertIn("false: ./m3.json: ", rrp("audit", ".").output)

    def test_links_are_read(self) -> None:
        plan = Plan.parse(json.dumps(LINKED))
        ways = [plan.distance(*ends) for ends in ("px", "xp", "pq", "qp", "xq", "qx")]
        self.assertEqual(ways, [5, 5, 7, 9, 12, None])
        self.assertTrue(plan.has_hop_step("p") and plan.skips_clients("q"))
        self.assertEqual(plan.changed("link p x 6").distance("p", "x"), 6)

    def test_convert_says_that_it_is_json(self) -> None:
        write("m3.json", rrp("unpack", M3, "--json").output)
        self.assertIn("m3.json is JSON, which has no mark", rrp("convert", "m3.json").errors)


class Problems(unittest.TestCase):
    """What is wrong is told at its line and column."""

    def one(self, old: str, new: str) -> str:
        """The only problem of the plan with a part of its text replaced."""
        text = json.dumps(LINKED, indent=1)
        self.assertEqual(text.count(old), 1, old)
        found = problems_of(text.replace(old, new))
        self.assertEqual(len(found), 1, found)
        return found[0]

    def test_places(self) -> None:
        for old, new, said in (
            ('"x",\n   "p"', '"x",\n   "pp"', "28:5: no router is named pp"),
            ('"weight": 5', '"weight": 0', "35:14: the weight 0 is out of range"),
            ('"weight": 5', '"weight": "5"', '35:15: "5" is a string'),
            ('"weight": 5', '"weight": 5.5', "35:14: 5.5 is no number"),
            ('"p": 9', '"p": true', "45:9: true is no number"),
            ('"p": 9', '"q": 9', "45:9: the distance from q to itself is not 0"),
            ('"identifier": 20', '"identifier": "30"', "18:19: the identifier 30 is used twice"),
            ('"identifier": 20', '"identifier": -1', "12:18: -1 is no identifier"),
            ('"hop_step": true', '"hop_step": 1', "7:16: hop_step is true or false"),
            ('"role": "client"', '"role": "peer"', "17:13: peer is no role"),
            ('"gone"', '"one"', '53:4: the list one is given twice'),
            ('"gone"', '"go ne"', '53:4: a name in lists is "go ne"'),
            ('"lists"', '"list"', "49:3: a plan has no list"),
            ('"hop_step"', '"hopstep"', "7:5: a router has no hopstep"),
        ):
            found = self.one(old, new)
            self.assertTrue(found.startswith("plan.json:"), found)
            self.assertIn(said.split(": ", 1)[1], found)
            self.assertRegex(found, rf"^plan\.json:{said.split(': ')[0]}: ", old)

    def test_members(self) -> None:
        for name in ("routers", "sessions", "lists"):
            less = {key: value for key, value in LINKED.items() if key != name}
            said = f"plan.json:1:1: {name} is missing from a plan"
            self.assertIn(said, problems_of(json.dumps(less)))
        client = copy.deepcopy(LINKED)
        client["routers"][2]["hop_step"] = True
        (found,) = problems_of(json.dumps(client))
        self.assertIn("hop_step is for reflectors alone", found)
        twice = '{"mark": "RRP1", "mark": "RRP2", ' + json.dumps(LINKED)[1:]
        self.assertIn("plan.json:1:19: mark is given twice", problems_of(twice))

    def test_a_mark_that_does_not_hold_a_distance(self) -> None:
        far = copy.deepcopy(LINKED)
        far["distances"]["q"]["p"] = 65535
        self.assertEqual(Plan.parse(json.dumps({**far, "mark": "RRP2"})).mark, "RRP2")
        (found,) = problems_of(json.dumps({"mark": "RRP1", **far}))
        self.assertIn("the distance 65,535 is too far for RRP1", found)

    def test_what_is_no_json(self) -> None:
        for text in ("{", '{"routers": }', '{"a": 1}}', "{1: 2}", '{"a": NaN}', '{"a": "\t"}'):
            (found,) = problems_of(text)
            self.assertRegex(found, r"^plan\.json:1:\d+: this is no JSON")
        self.assertEqual(len(problems_of("{" + '"a":[' * 100000)), 1)

    def test_anything_at_any_place_is_read_or_told(self) -> None:
        """No value at any place is a fault of the tool."""
        values = [None, True, 3, -1, 1.5, "x", "", [], {}, [[]], {"a": 1}, 1 << 40]
        count = 0
        for _, _, changed in varied(values):
            problems_of(json.dumps(changed))
            count += 1
        self.assertGreater(count, 300)

    def test_the_command_reports_them(self) -> None:
        answer = rrp("check", f"{TESTS}/plans/slip.json", "--json")
        self.assertEqual(answer.status, 2)
        (error,) = json.loads(answer.output)["errors"]
        self.assertEqual((error["line"], error["column"]), (8, 25))


def varied(values: list[object]) -> Iterator[tuple[tuple, object, dict]]:
    """The plan with each value at each place: where, what, and the plan."""
    for path in _paths(LINKED):
        for value in values:
            changed = copy.deepcopy(LINKED)
            node = changed
            for key in path[:-1]:
                node = node[key]
            node[path[-1]] = value
            yield path, value, changed


def _paths(value: object) -> Iterator[tuple]:
    """The paths of all values within a value."""
    items = {}
    if isinstance(value, dict):
        items = value
    elif isinstance(value, list):
        items = dict(enumerate(value))
    for key, each in items.items():
        yield (key,)
        yield from ((key, *more) for more in _paths(each))


class Schema(unittest.TestCase):
    """docs/plan.schema.json."""

    def setUp(self) -> None:
        self.schema = json.loads(read(f"{ROOT}/docs/plan.schema.json"))

    def test_what_is_written_fits(self) -> None:
        paths = glob.glob(f"{EXAMPLES}/*.rrp") + [M3]
        for path in paths:
            self.assertTrue(fits(written(path), self.schema, self.schema), path)
        changed = json.loads(rrp("unpack", M3, "--set", "distance r0 r1 3", "--json").output)
        self.assertTrue(fits(changed, self.schema, self.schema))
        self.assertTrue(fits(LINKED, self.schema, self.schema))

    def test_what_does_not_fit_is_refused(self) -> None:
        """Whatever is put at a place, what the schema does not take is not read."""
        values = [None, True, 3, -1, 1.5, "x y", "", [], {}, {"a": 1}, 1 << 40]
        refused = 0
        for path, value, changed in varied(values):
            if not fits(changed, self.schema, self.schema):
                self.assertNotEqual(problems_of(json.dumps(changed)), [], (path, value))
                refused += 1
        self.assertGreater(refused, 200)


if __name__ == "__main__":
    unittest.main()
