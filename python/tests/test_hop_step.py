"""Reflectors with the hop step: in the text of a plan, in the library's answers by name, and in
what the commands say. The rules are written anew here, from docs/MODEL.md."""

from __future__ import annotations

import json
import random
import unittest
from itertools import product

from rrp import Plan, Route, Table, encoding
from rrp.accounts import Account, account, best_client, offered_by
from rrp.picture import graphviz
from rrp.remedies import smallest_remedy
from rrp.text import TextErrors
from rrp.text.writing import write as text_of
from rrp.verdict_files import entry

from .folders import InFolder, write
from .networks import random_network, random_table
from .support import EXAMPLES, TESTS, Answer, read, rrp
from .test_senders import advertised

HOP, NET, ROLES = f"{EXAMPLES}/hop.rrp", f"{EXAMPLES}/net.rrp", f"{TESTS}/plans/roles.rrp"
PASSED_ON = "passed on, so not better here"

#: Neighbours of a reflector w: the client x, at distance 10, which has a session with u too; u,
#: whose client y is at distance 5; and v, at distance 20.
TWO_TELL = """
reflector u 2
reflector v 3
client x 4 of w u
client y 5 of u
client z 6 of v
session w u
session w v
distance w x 10
distance w y 5
distance w v 20
distance u x 7
distance u y 3
"""


def with_roles(plan: Plan, *roles: int) -> Plan:
    """The plan with these roles for its first routers."""
    changed = [*roles, *plan.model.roles[len(roles) :]]
    data = encoding.encode(plan.model._replace(roles=changed))
    return Plan(data, plan.routers, plan.lists, plan.source)


def with_step(plan: Plan, *routers: str) -> Plan:
    """The plan with the hop step at these reflectors and at no other."""
    roles = list(plan.model.roles)
    for number, name in enumerate(plan.routers):
        if plan.role(name) == "reflector":
            roles[number] = encoding.REFLECTORS[plan.skips_clients(name), name in routers]
    return with_roles(plan, *roles)


def reflectors(plan: Plan) -> list[str]:
    """The reflectors of a plan."""
    return [router for router in plan.routers if plan.role(router) == "reflector"]


def compared(
    plan: Plan, router: str, egresses: tuple[str, str], flags: tuple[bool, bool]
) -> tuple[str | None, int | None]:
    """Which of two routes is better at a router, and the margin."""
    keys = []
    for egress, direct in zip(egresses, flags):
        way = plan.distance(router, egress)
        hops = int(plan.has_hop_step(router) and not direct)
        keys.append((way is None, hops, way, plan.router_number(egress)))
    (one_cut, _, one, _), (other_cut, _, other, _) = keys
    margin = None if one_cut or other_cut else one - other
    if egresses[0] == egresses[1] or (one_cut and other_cut):
        return None, margin
    return egresses[0 if keys[0] < keys[1] else 1], margin


def heard(plan: Plan, name: str, table: Table, router: str) -> dict[str, list[str]]:
    """Each egress that a router hears of and has a way to, with the neighbours that tell it."""
    found: dict[str, list[str]] = {}
    for other in sorted(plan.neighbours(router), key=plan.router_number):
        egress = None
        if other in plan.egresses(name):
            egress = other
        elif plan.role(other) == "reflector":
            egress = advertised(plan, table, other, router)
        if egress is not None and plan.distance(router, egress) is not None:
            found.setdefault(egress, []).append(other)
    return found


def chosen(plan: Plan, name: str, table: Table, router: str) -> Route | None:
    """What an unlisted router chooses: of what it hears the fewest hops, if it has the step, then
    the nearest egress, then the one of the lowest number."""
    told = heard(plan, name, table, router)

    def order(egress: str) -> tuple[int, int, int]:
        hops = int(plan.has_hop_step(router) and egress not in told[egress])
        return hops, plan.distance(router, egress), plan.router_number(egress)

    if not told:
        return None
    egress = min(told, key=order)
    return Route(egress, egress if egress in told[egress] else told[egress][0])


class Text(unittest.TestCase):
    """`hop-step` in a plan's text."""

    def roles(self, words: str) -> list[int]:
        """The roles of a plan of a reflector with these words and a client."""
        return Plan.parse(f"reflector a 1 {words}\nclient b 2 of a\nlist l b\n").model.roles

    def test_either_order(self) -> None:
        self.assertEqual(self.roles(""), [1, 2])
        self.assertEqual(self.roles("no-client-reflection"), [3, 2])
        self.assertEqual(self.roles("hop-step"), [4, 2])
        self.assertEqual(self.roles("hop-step no-client-reflection"), [5, 2])
        self.assertEqual(self.roles("no-client-reflection\thop-step # both"), [5, 2])

    def test_bytes_and_back(self) -> None:
        for roles in product((1, 3, 4, 5), (1, 3, 4, 5)):
            plan = with_roles(Plan.read(f"{EXAMPLES}/m3.plan"), *roles)
            for each in (plan, plan.widened()):
                self.assertEqual(Plan.parse(text_of(each)).data, each.data, roles)
            self.assertEqual(plan.widened().narrowed().data, plan.data)
            self.assertEqual(plan.widened().verdicts(), plan.verdicts())

    def test_names(self) -> None:
        lines = ["reflector hop-step 1 hop-step", "client c 2 of hop-step", "list hop-step c"]
        plan = Plan.parse("\n".join(lines))
        self.assertTrue(plan.has_hop_step("hop-step"))
        self.assertEqual(plan.egresses("hop-step"), ("c",))

    def test_clients_take_no_such_word(self) -> None:
        for line in ("client b 2 hop-step", "client b 2 of a hop-step", "mesh a hop-step"):
            with self.assertRaisesRegex(TextErrors, "hop-step is for reflectors alone"):
                Plan.parse(f"reflector a 1\n{line}\nlist l a\n")

    def test_what_a_plan_says(self) -> None:
        plan = Plan.read(ROLES)
        self.assertEqual(plan.model.roles, [1, 1, 3, 4, 5, 2, 2, 2])
        self.assertEqual([each for each in plan.routers if plan.has_hop_step(each)], ["d", "e"])
        self.assertEqual([each for each in plan.routers if plan.skips_clients(each)], ["c", "e"])
        self.assertEqual({plan.role(each) for each in "abcde"}, {"reflector"})


class Rules(unittest.TestCase):
    """The library's answers, by the rules."""

    def networks(self, count: int) -> list[Plan]:
        """Random networks, of which some reflectors have the step."""
        draw = random.Random(4456)
        return [random_network(draw) for _ in range(count)]

    def test_comparison(self) -> None:
        steps = set()
        for plan in self.networks(12):
            for router, one, other in product(plan.routers, repeat=3):
                for flags in product((False, True), (False, True)):
                    found = plan.compare(router, one, other, *flags)
                    due = compared(plan, router, (one, other), flags)
                    self.assertEqual((found.better, found.margin), due)
                    steps.add((plan.has_hop_step(router), found.margin == 0, found.better == one))
        self.assertEqual(steps, set(product((False, True), repeat=3)))

    def test_choice(self) -> None:
        draw, direct = random.Random(4456), 0
        for plan in self.networks(100):
            for name in plan.lists:
                table, listed = random_table(plan, name, draw), plan.egresses(name)
                for router in (each for each in plan.routers if each not in listed):
                    due = chosen(plan, name, table, router)
                    found = plan.activate(name, router, table)[router]
                    self.assertEqual(found, due, (router, table))
                    self.hold_better(plan, name, table, router, found)
                    told = heard(plan, name, table, router)
                    nearest = min((plan.distance(router, egress) for egress in told), default=0)
                    direct += found is not None and plan.distance(router, found.egress) > nearest
        self.assertGreater(direct, 20)

    def test_choice_of_an_egress_heard_both_ways(self) -> None:
        for step, due in (("hop-step", Route("x", "x")), ("", Route("y", "u"))):
            plan = Plan.parse(f"reflector w 1 {step}\n{TWO_TELL}list l x y\n")
            table = plan.empty_table("l").with_route("u", Route("x", "x"))
            self.assertEqual(heard(plan, "l", table, "w"), {"x": ["u", "x"]})
            self.assertEqual(plan.activate("l", "w", table)["w"], Route("x", "x"))
            self.assertEqual(plan.verdict("l").table["w"], due)

    def test_choice_of_a_route_to_the_one_that_tells_it(self) -> None:
        for step, due in (("hop-step", Route("v", "v")), ("", Route("y", "u"))):
            plan = Plan.parse(f"reflector w 1 {step}\n{TWO_TELL}list l y\n")
            table = plan.empty_table("l").with_route("v", Route("v", "z"))
            table = table.with_route("u", Route("y", "y"))
            self.assertEqual(heard(plan, "l", table, "w"), {"v": ["v"], "y": ["u"]})
            self.assertEqual(plan.activate("l", "w", table)["w"], due)

    def hold_better(
        self, plan: Plan, name: str, table: Table, router: str, route: Route | None
    ) -> None:
        """What was chosen is better than all else that is heard, by the comparison: a route is
        direct exactly if its sender is its egress."""
        told = heard(plan, name, table, router)
        for egress in told:
            flags = route.sender == route.egress, egress in told[egress]
            better = plan.compare(router, route.egress, egress, *flags).better
            self.assertEqual(better, None if egress == route.egress else route.egress)

    def test_rule_3(self) -> None:
        decided = set()
        for plan in self.networks(60):
            for name, (router, other) in product(plan.lists, product(reflectors(plan), repeat=2)):
                own, offer = best_client(plan, name, router), offered_by(plan, name, other)
                listed = plan.egresses(name)
                if None in (own, offer) or router in listed or router == other:
                    continue
                if plan.distance(router, offer) is None:
                    continue
                better = plan.compare(router, offer, own, other in listed, True).better
                self.assertEqual(plan.relies(name, router, other), better == offer)
                passed_on = plan.has_hop_step(router) and other not in listed
                self.assertFalse(passed_on and better == offer)
                nearer = plan.distance(router, offer) < plan.distance(router, own)
                decided.add((plan.has_hop_step(router), other in listed, nearer, better == offer))
        self.assertLessEqual({(True, False, True, False), (True, True, True, True)}, decided)
        self.assertLessEqual({(False, False, True, True), (True, True, False, False)}, decided)

    def test_no_cycle_has_one(self) -> None:
        suspect = 0
        for plan in self.networks(500):
            for verdict in plan.verdicts():
                groups = [router for group in verdict.groups for router in group]
                self.assertFalse(any(map(plan.has_hop_step, groups)), verdict)
                suspect += not verdict.stable and any(map(plan.has_hop_step, plan.routers))
        self.assertGreater(suspect, 5)

    def test_with_all_every_list_is_stable(self) -> None:
        suspect, highest = 0, set()
        for plan in self.networks(100):
            suspect += any(not each.stable for each in with_step(plan).verdicts())
            for verdict in with_step(plan, *reflectors(plan)).verdicts():
                self.assertTrue(verdict.stable)
                highest.add(verdict.highest)
        self.assertGreater(suspect, 10)
        self.assertEqual(max(highest), 3)

    def test_one_of_a_cycle_ends_it(self) -> None:
        ended = 0
        for plan in map(with_step, self.networks(100)):
            for verdict in (each for each in plan.verdicts() if not each.stable):
                for router in verdict.cycle:
                    after = with_step(plan, router).verdict(verdict.name)
                    self.assertFalse(any(router in group for group in after.groups))
                    ended += after.stable
        self.assertGreater(ended, 20)

    def test_it_takes_reliances_on_unlisted_reflectors_alone(self) -> None:
        for plan in map(with_step, self.networks(20)):
            for router, name in product(reflectors(plan), plan.lists):
                stepping = with_step(plan, router)
                for one in plan.routers:
                    before, after = (each.reliances(name, one) for each in (plan, stepping))
                    lost = set(before) - set(after)
                    self.assertLessEqual(set(after), set(before))
                    self.assertTrue(one == router or not lost)
                    self.assertFalse(lost & set(plan.egresses(name)))
                    self.assertLessEqual(lost, set(reflectors(plan)))

    def test_mixed_roles_settle_in_time(self) -> None:
        draw = random.Random(4456)
        for plan in self.networks(60):
            for verdict in (each for each in plan.verdicts() if each.stable):
                start, acts = random_table(plan, verdict.name, draw), []
                for _ in range(verdict.rounds):
                    acts += draw.sample(plan.routers, len(plan.routers))
                run = plan.run(verdict.name, acts, start)
                self.assertEqual((run.rounds, run.table), (verdict.rounds, verdict.table))

    def test_m3(self) -> None:
        m3 = Plan.read(f"{EXAMPLES}/m3.plan")
        routes = {
            (True, False): ([1, 2], [("r2", "r2"), ("r2", "r0")]),
            (False, True): ([2, 1], [("r3", "r1"), ("r3", "r3")]),
            (True, True): ([1, 1], [("r2", "r2"), ("r3", "r3")]),
        }
        for roles in product((1, 3, 4, 5), (1, 3, 4, 5)):
            verdict, steps = with_roles(m3, *roles).verdict(0), tuple(role > 3 for role in roles)
            self.assertEqual(verdict.stable, any(steps), roles)
            if not verdict.stable:
                self.assertEqual(verdict.cycle, ("r0", "r1"), roles)
                continue
            ranks, held = routes[steps]
            self.assertEqual(list(verdict.ranks.values()), [*ranks, 0, 0], roles)
            self.assertEqual(list(verdict.table.values())[:2], held, roles)


class Accounts(unittest.TestCase):
    """No sentence says nearer or farther where the step decided."""

    def accounts(self, plan: Plan) -> list[tuple[str, Account]]:
        """The account of every two routers for every list."""
        pairs = product(plan.lists, plan.routers, plan.routers)
        return [(name, account(plan, name, one, other)) for name, one, other in pairs]

    def test_words(self) -> None:
        draw, signs = random.Random(4456), set()
        for plan in [Plan.read(ROLES), *(random_network(draw) for _ in range(40))]:
            for name, found in self.accounts(plan):
                self.assertEqual(PASSED_ON in found.sentence, found.by_step)
                self.assertEqual("hop step" in found.sentence, found.by_step)
                if found.by_step:
                    self.hold_step(plan, name, found)
                    signs.add((found.margin > 0) - (found.margin < 0))
                elif found.margin is not None:
                    self.hold_distances(plan, found)
        self.assertEqual(signs, {-1, 0, 1})

    def hold_step(self, plan: Plan, name: str, found: Account) -> None:
        """The step decided: the router has it, and the offer is passed on."""
        self.assertTrue(plan.has_hop_step(found.router))
        self.assertNotIn(found.other, plan.egresses(name))
        self.assertEqual((found.relies, found.explanation.words), (False, "offer not better"))
        self.assertEqual((found.direct, found.offer == found.own), (False, False))
        for word in ("nearer", "farther", "as far", "identifier"):
            self.assertNotIn(word, found.sentence)
        without = with_step(plan).explain(name, found.router, found.other)
        if found.margin:
            self.assertEqual(without.relies, found.margin < 0)

    def hold_distances(self, plan: Plan, found: Account) -> None:
        """Distances and numbers decided, and the words are those of the margin."""
        if found.offer == found.own:
            self.assertIn("its own best client too (margin 0)", found.sentence)
            return
        word = "as far" if found.margin == 0 else "nearer" if found.margin < 0 else "farther"
        self.assertIn(word, found.sentence)
        offer, own = plan.router_number(found.offer), plan.router_number(found.own)
        self.assertEqual(found.relies, (found.margin, offer) < (0, own))

    def test_values(self) -> None:
        plan = Plan.read(ROLES)
        values = account(plan, "two", "d", "a").values()
        self.assertEqual(values["offer"], {"egress": "y", "distance": 6, "direct": False})
        self.assertEqual(values["own"], {"egress": "x", "distance": 10, "direct": True})
        self.assertEqual((values["margin"], values["by_step"], values["code"]), (-4, True, 9))
        values = account(plan, "near", "d", "b").values()
        self.assertEqual(values["offer"], {"egress": "b", "distance": 6, "direct": True})
        self.assertEqual((values["margin"], values["by_step"], values["code"]), (-4, False, 4))

    def test_changes_of_a_distance_are_shown_where_one_decides(self) -> None:
        draw, ended = random.Random(4456), 0
        for plan in (random_network(draw) for _ in range(40)):
            for name, found in self.accounts(plan):
                if not plan.has_hop_step(found.router) or found.explanation.words != "better offer":
                    continue
                pair = found.router, found.other
                remedy = smallest_remedy(plan, name, *pair)
                self.assertFalse(remedy.change.applied(plan).relies(name, *pair))
                self.assertTrue(found.own is None or found.other in plan.egresses(name))
                ended += found.own is not None
        self.assertGreater(ended, 3)


class Commands(InFolder):
    """What the commands say."""

    def set(self, path: str, *changes: str) -> Answer:
        """The plan checked with changes."""
        return rrp("check", path, *(word for each in changes for word in ("--set", each)))

    def test_sizes(self) -> None:
        for words, said in (
            (("", ""), "2 reflectors, 2 clients"),
            (("hop-step", ""), "2 reflectors, 1 of them with the hop step, 2 clients"),
            (("", "no-client-reflection"), "2 reflectors, 2 clients"),
            (("hop-step", "hop-step"), "2 reflectors, all with the hop step, 2 clients"),
        ):
            text = read(HOP).replace("10.0.0.1 hop-step", f"10.0.0.1 {words[0]}")
            write("x.rrp", text.replace("10.0.0.2", f"10.0.0.2 {words[1]}"))
            line = f"x.rrp: 4 routers ({said}), 3 sessions, 2 lists"
            for command in ("check", "show"):
                self.assertEqual(rrp(command, "x.rrp").output.splitlines()[0], line)
            packed = rrp("pack", "x.rrp", "-o", "x.plan").output
            self.assertEqual(packed, f"x.plan: 90 bytes of RRP1, from {line}\n")
            sizes = json.loads(rrp("check", "x.rrp", "--json").output)["sizes"]
            steps = sum("hop-step" in each for each in words)
            self.assertEqual((sizes["reflectors"], sizes["hop_step_reflectors"]), (2, steps))
        write("x.rrp", "reflector a 1 hop-step\nlist l a\n")
        said = "1 router (1 reflector, with the hop step, 0 clients)"
        self.assertIn(said, rrp("check", "x.rrp").output)

    def test_a_suspect_list_made_stable_by_one(self) -> None:
        self.assertEqual(rrp("check", HOP).status, 0)
        answer = self.set(HOP, "reflector lon-rr")
        self.assertEqual(answer.status, 1)
        self.assertIn("\nlon-rr then has no hop step\n", answer.output)
        for router in ("lon-rr", "par-rr", "fra-rr no-client-reflection"):
            answer = self.set(NET, f"reflector {router} hop-step")
            self.assertEqual(answer.status, 0, router)
            self.assertIn(f"\n{router.split()[0]} then has the hop step\n", answer.output)

    def test_what_is_left_out_is_said(self) -> None:
        lines = self.set(NET, "reflector fra-rr hop-step").output.splitlines()
        self.assertEqual(lines[2], "fra-rr then has the hop step and reflects between its clients")
        kept = "reflector fra-rr no-client-reflection hop-step"
        self.assertEqual(lines[3], f"    to keep it from reflecting between them: {kept}")
        self.assertNotIn(" then ", self.set(NET, kept.replace("hop-step", "")).output)
        self.assertNotIn(" then ", self.set(NET, "reflector lon-rr 10.0.0.1").output)

    def test_a_change_is_the_text_with_another_line(self) -> None:
        lon, fra, skips = "lon-rr 10.0.0.1", "fra-rr 10.0.0.3", "no-client-reflection"
        for change, old, new in (
            ("reflector lon-rr hop-step", lon, f"{lon} hop-step"),
            (f"reflector {lon} hop-step", lon, f"{lon} hop-step"),
            ("reflector fra-rr", f"{fra} {skips}", fra),
            (f"reflector fra-rr hop-step {skips}", f"{fra} {skips}", f"{fra} {skips} hop-step"),
        ):
            write("x.rrp", read(NET).replace(f"{old}\n", f"{new}\n"))
            values = json.loads(rrp("check", NET, "--set", change, "--json").output)
            due = json.loads(rrp("check", "x.rrp", "--json").output)
            self.assertEqual(values["sizes"], due["sizes"], change)
            for one, other in zip(values["lists"], due["lists"]):
                self.assertEqual(one["after"], {key: other[key] for key in one["after"]}, change)
            (role,) = values["roles"]
            plan = Plan.read("x.rrp")
            skips, step = plan.skips_clients(role["router"]), plan.has_hop_step(role["router"])
            self.assertEqual(role["after"], {"client_reflection": not skips, "hop_step": step})

    def test_the_last_change_counts(self) -> None:
        answer = self.set(HOP, "reflector lon-rr", "reflector lon-rr hop-step")
        self.assertEqual((answer.status, answer.output.count("as before")), (0, 2))

    def test_why(self) -> None:
        lines = rrp("why", HOP, "transit", "lon-rr", "par-rr").output.splitlines()
        self.assertEqual(lines[0], "no: lon-rr does not rely on par-rr (offer not better):")
        self.assertIn("par-a at distance 6, passed on, so not better here than ", lines[1])
        self.assertTrue(lines[1].endswith("its own best client lon-a at 10 (margin -4)"), lines[1])
        self.assertTrue(lines[2].startswith("  by its hop step, "), lines[2])
        self.assertEqual(len(rrp("why", HOP, "transit", "par-rr", "lon-rr").output.splitlines()), 2)

    def test_pictures_mark_them(self) -> None:
        plan = Plan.read(ROLES)
        lines = graphviz(plan, plan.verdict("two")).splitlines()
        nodes = [line for line in lines if "shape" in line]
        marked = [line.split('"')[1] for line in nodes if "peripheries=2" in line]
        self.assertEqual(marked, ["d", "e"])
        marks = [line.count(r"\nhop step") for line in nodes[:8]]
        self.assertEqual(marks, [0, 0, 0, 1, 1, 0, 0, 0])
        routers = json.loads(rrp("dot", ROLES, "two", "--json").output)["routers"]
        self.assertEqual([each["router"] for each in routers if each["hop_step"]], ["d", "e"])
        self.assertNotIn("peripheries", rrp("dot", NET, "transit").output)

    def test_unpack(self) -> None:
        values = json.loads(rrp("unpack", ROLES, "--json").output)["routers"]
        found = [(each["client_reflection"], each["hop_step"]) for each in values]
        kinds = [(True, False), (True, False), (False, False), (True, True), (False, True)]
        self.assertEqual(found, [*kinds, *[(False, False)] * 3])

    def test_runs(self) -> None:
        draw = random.Random(4456)
        for seed in draw.sample(range(1000), 5):
            answer = rrp("run", HOP, "transit", "--random", str(seed))
            self.assertIn("this is the table of the verdict, ", answer.output)

    def test_a_verdict_of_the_time_when_it_was_refused_is_false(self) -> None:
        hop = self.copy(HOP)
        write(f"{hop}.verdict", f"refused 4\n{entry(Plan.read(hop).data).digest}")
        answer = rrp("audit", ".")
        self.assertEqual(answer.status, 1)
        said = f"false: ./{hop}: filed refused 4, is 4 routers and 2 lists\n"
        self.assertTrue(answer.output.startswith(said), answer.output)
        self.assertEqual(rrp("file", hop).output, f"{hop}.verdict: replaced: 2 lists, 0 suspect\n")
        self.assertEqual(rrp("audit", ".").status, 0)

    def test_the_step_is_seen_by_an_audit(self) -> None:
        hop = self.copy(HOP)
        rrp("file", hop)
        write(hop, read(hop).replace("10.0.0.1 hop-step", "10.0.0.1"))
        self.assertTrue(rrp("audit", ".").output.startswith(f"false: ./{hop}: list 0 (transit): "))
        write(hop, read(HOP).replace("10.0.0.1 hop-step", "10.0.0.1 hop-step no-client-reflection"))
        self.assertTrue(rrp("audit", ".").output.startswith(f"changed: ./{hop}: "))


if __name__ == "__main__":
    unittest.main()
