"""`rrp dot`: the text is one that Graphviz reads, whatever the names are."""

from __future__ import annotations

import json
import os
import random
import re
import shlex
import shutil
import subprocess
import unittest
from xml.etree import ElementTree

from rrp import Plan
from rrp.looks import Looks
from rrp.picture import edges, folded, graphviz, reflectors_graphviz, reflectors_of
from rrp.text import parse
from rrp.topology import links_of, topology_graphviz

from .networks import random_network, site_network
from .support import EXAMPLES, ROOT, TESTS, read, rrp

ODD = ['a"b', "back\\", "\\N", "a&amp;b", "é->x", "{x|y}", "[z]", 'end"', "graph", "", "\\", "x y"]

#: A text in quotes: any character but a quote, unless a backslash goes before it.
_QUOTED = re.compile(r'"((?:[^"\\]|\\.)*)"', re.DOTALL)


def unquoted(text: str) -> str:
    """What a text in quotes stands for."""
    return re.sub(r"\\(.)", r"\1", text)


def named(plan: Plan, names: list[str]) -> Plan:
    """The plan with other names, for a list as well. No text has all of these names, so the draft
    is another's, which has no links either."""
    lists, draft = [names[-1], *plan.lists[1:]], parse("reflector a 1\nlist l")
    return Plan(plan.data, names[: len(plan.routers)], lists, draft=draft)


def texts_of(picture: str) -> list[str]:
    """The words that a picture in SVG shows."""
    root = ElementTree.fromstring(picture)
    shown = [each.text for each in root.iter("{http://www.w3.org/2000/svg}text") if each.text]
    return [each.replace("\N{NO-BREAK SPACE}", " ") for each in shown]


class Pictures(unittest.TestCase):
    """The text of a picture."""

    def plans(self) -> list[Plan]:
        """The bundled plans, and random ones with odd names."""
        draw = random.Random(4456)
        odd = [named(random_network(draw), draw.sample(ODD, len(ODD))) for _ in range(40)]
        return [Plan.read(f"{EXAMPLES}/net.rrp"), Plan.read(f"{EXAMPLES}/m3.plan"), *odd]

    def test_names_come_back(self) -> None:
        for plan in self.plans():
            for verdict in plan.verdicts():
                text = graphviz(plan, verdict)
                self.assertNotIn('"', _QUOTED.sub("", text))
                lines = [line.strip() for line in text.splitlines()]
                nodes = [_QUOTED.match(line) for line in lines if " [label=" in line]
                routers = [unquoted(node.group(1)) for node in nodes[: len(plan.routers)]]
                self.assertEqual(tuple(routers), plan.routers)

    def test_an_arrow_for_each_reliance(self) -> None:
        for plan in self.plans():
            for verdict in plan.verdicts():
                arrows = _QUOTED.sub('""', graphviz(plan, verdict)).count('"" -> "" [label=')
                count = sum(len(plan.reliances(verdict.name, router)) for router in plan.routers)
                self.assertEqual(arrows, count)

    def test_the_cycle_is_red(self) -> None:
        net = Plan.read(f"{EXAMPLES}/net.rrp")
        red = [line for line in graphviz(net, net.verdict("transit")).splitlines() if "red" in line]
        self.assertEqual(len(red), 6)
        self.assertNotIn("red", graphviz(net, net.verdict("peering")))
        cycle = [edge for edge in edges(net, net.verdict("transit")) if edge.in_cycle]
        self.assertEqual([edge.router for edge in cycle], ["lon-rr", "par-rr", "fra-rr"])

    def test_ranks_are_rows(self) -> None:
        text = rrp("dot", f"{EXAMPLES}/net.rrp", "peering").output
        rows = [line.strip() for line in text.splitlines() if "rank=same" in line]
        self.assertEqual(len(rows), 4)
        self.assertIn('"rank 1" [shape=plaintext]; "lon-rr"; "fra-rr"; }', rows[2])

    @unittest.skipUnless(shutil.which("dot"), "Graphviz is not installed")
    def test_graphviz_shows_the_names(self) -> None:
        for plan in self.plans()[:12]:
            verdict, everyone = plan.verdict(0), list(plan.routers)
            topology = topology_graphviz(plan, verdict)
            reflectors = reflectors_graphviz(plan, verdict)
            for text, due in (
                (graphviz(plan, verdict), everyone),
                (topology, everyone),
                (reflectors, reflectors_of(plan)),
            ):
                drawn = subprocess.run(
                    ["dot", "-Tsvg"], input=text.encode(), capture_output=True, timeout=60
                )
                self.assertEqual((drawn.returncode, drawn.stderr), (0, b""), text)
                shown = texts_of(drawn.stdout.decode())
                for name in filter(None, due):
                    self.assertIn(name, shown)


class Looking(unittest.TestCase):
    """How routers look."""

    def lines(self, text: str) -> dict[str, str]:
        """The line of each node, by name."""
        found = [line.strip() for line in text.splitlines() if " [label=" in line]
        nodes = [line for line in found if '" -> "' not in line and '" -- "' not in line]
        return {unquoted(_QUOTED.match(line).group(1)): line for line in nodes}

    def test_filled_by_egress(self) -> None:
        net = Plan.read(f"{EXAMPLES}/net.rrp")
        for name in ("peering", "customer"):
            verdict = net.verdict(name)
            nodes = self.lines(graphviz(net, verdict))
            fills: dict[str, set[str]] = {}
            for router, route in verdict.table.items():
                (fill,) = re.findall('fillcolor="(.*?)"', nodes[router])
                fills.setdefault(route.egress, set()).add(fill)
            self.assertTrue(all(len(each) == 1 for each in fills.values()))
            self.assertEqual(len(set.union(*fills.values())), len(fills))
            thick = {router for router, line in nodes.items() if "penwidth=3" in line}
            self.assertEqual(thick, set(verdict.egresses))

    def test_more_egresses_than_fills(self) -> None:
        lines = [f"reflector r{number} {number}" for number in range(14)]
        plan = Plan.parse("\n".join([*lines, f"list all {' '.join(f'r{n}' for n in range(14))}"]))
        fills = list(Looks(plan, plan.verdict("all")).fills.values())
        self.assertEqual((len(fills), len(set(fills))), (14, 11))

    def test_without_a_route(self) -> None:
        left_out = read(f"{TESTS}/plans/left-out.rrp")
        plan = Plan.parse(left_out)
        seen = 0
        for verdict in (each for each in plan.verdicts() if each.stable):
            nodes = self.lines(graphviz(plan, verdict))
            dashed = {router for router, line in nodes.items() if "dashed" in line}
            self.assertEqual(dashed, set(verdict.without_route))
            self.assertTrue(all("no route" in nodes[router] for router in dashed))
            key = "dashed: no route" in graphviz(plan, verdict)
            self.assertEqual(key, bool(dashed))
            seen += bool(dashed)
        self.assertGreater(seen, 0)

    def test_the_whole_group_is_tinted(self) -> None:
        pairs = Plan.read(f"{EXAMPLES}/pairs.rrp")
        verdict = pairs.verdict("transit")
        for draw in (graphviz, reflectors_graphviz):
            nodes = self.lines(draw(pairs, verdict))
            tinted = {router for router, line in nodes.items() if "#fbdfd8" in line}
            self.assertEqual(tinted, set(verdict.grouped))
            red = {router for router, line in nodes.items() if "color=red" in line}
            self.assertEqual(red, set(verdict.cycle))
        inside = [edge for edge in edges(pairs, verdict) if edge.in_group]
        self.assertTrue(all({edge.router, edge.other} <= set(verdict.grouped) for edge in inside))
        self.assertEqual(len(inside), 12)

    def test_labels_of_many_routers(self) -> None:
        for sites, clients in ((3, 4), (3, 5), (5, 4), (6, 8)):
            plan = Plan.parse(site_network(sites, clients))
            for verdict in plan.verdicts():
                text = graphviz(plan, verdict)
                many = len(plan.routers) > 20
                self.assertNotEqual('"parent"' in text, many)
                self.assertEqual("rankdir=LR" in text, many and verdict.stable)
                self.assertEqual("layout=neato" in text, many and not verdict.stable)
                labelled = [line for line in text.splitlines() if "margin" in line]
                if many and not verdict.stable:
                    self.assertEqual(len(labelled), len(verdict.cycle))


class Reflectors(unittest.TestCase):
    """Clients in numbers."""

    def test_nodes_and_arrows(self) -> None:
        plan = Plan.parse(site_network(5, 4))
        for verdict in plan.verdicts():
            text = _QUOTED.sub('""', reflectors_graphviz(plan, verdict))
            shown = reflectors_of(plan)
            found = [{each.router, each.other} for each in edges(plan, verdict)]
            both = [ends for ends in found if ends <= set(shown)]
            self.assertEqual(text.count('"" -> "" [label='), len(both))
            self.assertEqual(text.count("shape=box"), len(shown))
            self.assertNotIn("ellipse", text)

    def test_numbers(self) -> None:
        net = Plan.read(f"{EXAMPLES}/net.rrp")
        found = folded(net, net.verdict("peering"), "lon-rr")
        self.assertEqual(found, (4, 1, 0))
        self.assertEqual(folded(net, net.verdict("transit"), "fra-rr"), (3, 1, None))
        text = rrp("dot", f"{EXAMPLES}/net.rrp", "peering", "--reflectors").output
        self.assertIn('label="lon-rr\\ntakes lon-b\\n4 clients, 1 listed"', text)
        cut = Plan.read(f"{TESTS}/plans/left-out.rrp")
        lacking = [each for each in cut.verdicts() if each.stable and each.without_route]
        counts = [folded(cut, lacking[0], name).without_route for name in reflectors_of(cut)]
        self.assertGreater(sum(counts), 0)

    def test_json(self) -> None:
        answer = json.loads(rrp("dot", f"{EXAMPLES}/net.rrp", "0", "--reflectors", "--json").output)
        names = [each["router"] for each in answer["routers"]]
        self.assertEqual(names, ["lon-rr", "par-rr", "fra-rr"])
        due = {"clients": 4, "listed": 1, "without_route": None}
        self.assertEqual(answer["routers"][0]["clients"], due)
        self.assertTrue(all(each["in_cycle"] for each in answer["reliances"]))


class Topology(unittest.TestCase):
    """Links and sessions."""

    def test_each_link_and_session_once(self) -> None:
        for text in (read(f"{EXAMPLES}/net.rrp"), read(f"{EXAMPLES}/pairs.rrp"), "link"):
            text = site_network(5, 4) if text == "link" else text
            plan = Plan.parse(text)
            drawn = topology_graphviz(plan, None)
            joins = [line for line in drawn.splitlines() if '" -- "' in line]
            labelled = [line for line in joins if "label=" in line]
            self.assertEqual(len(labelled), len(plan.draft.links) // 2)
            reflectors = reflectors_of(plan)
            mesh = len(reflectors) * (len(reflectors) - 1) // 2 if len(reflectors) > 4 else 0
            self.assertEqual(bool(mesh), "is not drawn" in drawn)
            blue = [line for line in joins if "#4a7fd0" in line]
            self.assertEqual(len(blue), len(plan.sessions) - mesh)

    def test_a_link_one_way(self) -> None:
        text = "reflector a 1\nreflector b 2\nreflector c 3\nlist l a\nlink a b 3\nlink b > c 4\n"
        links = links_of(Plan.parse(text + "link a > c 5\nlink c > a 6\n"))
        said = [(each.one, each.other, each.words) for each in links]
        due = [("a", "b", "3"), ("a", "c", "5 a > c, 6 c > a"), ("b", "c", "4 b > c")]
        self.assertEqual(said, due)

    def test_a_changed_plan(self) -> None:
        changes = ("link lon-b man-a none", "link lon-rr par-a 12", "session lon-rr man-a none")
        words = [word for each in changes for word in ("--set", each)]
        command = ("dot", f"{EXAMPLES}/net.rrp", "--topology", *words)
        answer = json.loads(rrp(*command, "--json").output)
        self.assertEqual(answer["set"], list(changes))
        links = {(each["one"], each["other"]): each["there"] for each in answer["links"]}
        self.assertEqual((links["lon-rr", "par-a"], len(links)), (12, 13))
        self.assertNotIn(("lon-b", "man-a"), links)
        self.assertEqual(len(answer["sessions"]), 15)
        for drawn in (rrp(*command), rrp("dot", f"{EXAMPLES}/net.rrp", "peering", *words)):
            title = drawn.output.splitlines()[1]
            self.assertIn("".join(f"\\nwith {each}" for each in changes), title)

    def test_without_links(self) -> None:
        text = rrp("dot", f"{EXAMPLES}/m3.plan", "--topology").output
        self.assertIn("the plan has no links", text)
        self.assertEqual(text.count(" -- "), 3)

    def test_a_list_or_topology(self) -> None:
        path = f"{EXAMPLES}/net.rrp"
        answer = rrp("dot", path)
        self.assertEqual((answer.status, answer.output), (2, ""))
        self.assertIn("name one of transit, peering, customer; or add --topology", answer.errors)
        self.assertEqual(rrp("dot", path, "0", "--topology", "--reflectors").status, 2)
        values = json.loads(rrp("dot", path, "--topology", "--json").output)
        self.assertEqual((len(values["links"]), len(values["sessions"])), (14, 16))
        self.assertNotIn("list", values)


class Stored(unittest.TestCase):
    """The pictures in docs are what the tool draws now: they have the same words."""

    def test_words(self) -> None:
        page = read(f"{ROOT}/docs/TOOL.md")
        drawn = r"^target/bin/rrp (dot .*) \| dot -Tsvg >(docs/pictures/.*)$"
        found = re.findall(drawn, page, re.M)
        self.assertGreaterEqual(len(found), 4)
        for command, picture in found:
            os.chdir(ROOT)
            text = rrp(*shlex.split(command)).output
            due = re.findall(r'label="((?:[^"\\]|\\.)*)"', text)
            lines = [unquoted(line) for each in due for line in each.split("\\n") if line]
            ranks = re.findall(r'"(rank \d+)" \[shape', text)
            self.assertEqual(sorted(texts_of(read(f"{ROOT}/{picture}"))), sorted(lines + ranks))
            self.assertIn(f"]({picture[len('docs/') :]})", page)


if __name__ == "__main__":
    unittest.main()
