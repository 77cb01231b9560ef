"""Lists of nobody, of a prefix that is gone everywhere: what is read and written, what is said, and
that old routes are flushed in time."""

from __future__ import annotations

import json
import random
import unittest
from itertools import product

from rrp import Plan, Verdict, encoding, library
from rrp.output import nobody_words
from rrp.picture import graphviz
from rrp.tables import Route
from rrp.text import TextErrors
from rrp.text.writing import write as write_text
from rrp.verdict_files import entry

from .folders import InFolder, write
from .networks import random_network, random_table
from .support import EXAMPLES, rrp

NET = f"{EXAMPLES}/net.rrp"
GONE = f"{EXAMPLES}/gone.rrp"

#: Plans in which no client has a parent, and plans in which one has.
NO_PARENT = (
    "reflector a 1",
    "client a 1",
    "reflector a 1\nreflector b 2\nsession a b",
    "reflector a 1\nclient b 2",
    "client a 1\nclient b 2\nsession a b",
    "reflector a 1\nclient b 2\nclient c 3\nsession b c",
)
A_PARENT = (
    "reflector a 1\nclient b 2 of a",
    "client a 1\nreflector b 2 no-client-reflection\nsession a b",
    "reflector a 1\nclient b 2\nclient c 3 of a\nsession b c",
)

LISTED = "no router is listed, so every router ends without a route"


def flushed(rounds: int) -> str:
    """What is said of a list of nobody."""
    return f"nobody: all routes are flushed within {rounds} rounds"


def emptied(plan: Plan, number: int = 0) -> Plan:
    """The plan with nobody in a list."""
    lists = list(plan.model.lists)
    lists[number] = []
    return Plan(encoding.encode(plan.model._replace(lists=lists)), plan.routers, plan.lists)


def has_parent(plan: Plan, router: str) -> bool:
    """Whether a router is a client that has a session with a reflector."""
    reflectors = [each for each in plan.neighbours(router) if plan.role(each) == "reflector"]
    return plan.role(router) == "client" and bool(reflectors)


class Text(unittest.TestCase):
    """A list of nobody in a text and in bytes."""

    def test_a_name_alone(self) -> None:
        for line in ("list gone", "list gone ", "\tlist\tgone\t# a b", "list gone#", "list gone\r"):
            plan = Plan.parse(f"reflector a 1\nreflector b 2\ndistance a b 5\n{line}\n")
            self.assertEqual((plan.lists, plan.egresses("gone")), (("gone",), ()), line)
            self.assertEqual(plan.notes, ())

    def test_the_count_byte_is_0(self) -> None:
        for lists, body in (
            (["list x"], [1, 0]),
            (["list x", "list y b a"], [2, 0, 2, 0, 1]),
            (["list y b a", "list x"], [2, 2, 0, 1, 0]),
            (["list x", "list y", "list z b", "list u"], [4, 0, 0, 1, 1, 0]),
        ):
            plan = Plan.parse("\n".join(["reflector a 1", "reflector b 2", *lists]))
            self.assertEqual(plan.data[-len(body) :], bytes(body), lists)
            self.assertEqual(library.refusal(plan.data), 0, lists)
            self.assertEqual(Plan.from_bytes(plan.data).model.lists, plan.model.lists)

    def test_it_is_written_and_read_back(self) -> None:
        draw = random.Random(4456)
        for _ in range(60):
            plan = random_network(draw, width=draw.choice([encoding.NARROW, encoding.WIDE]))
            for number in draw.sample(range(3), draw.randint(1, 3)):
                plan = emptied(plan, number)
            text = write_text(plan)
            nobody = [name for name in plan.lists if not plan.egresses(name)]
            lines = [line for line in text.splitlines() if line.endswith("  # nobody")]
            self.assertEqual(lines, [f"list {name}  # nobody" for name in nobody])
            self.assertEqual(Plan.parse(text).data, plan.data)

    def test_a_list_with_a_router_in_its_name_is_noted(self) -> None:
        routers = "reflector a 1\nclient b 2 of a\ndistance a b 5\n"
        for name, why, listed in (
            ("b", "it is named as a router is", "b"),
            ("x,a,b", "its name has a, b in it", "a b"),
            ("x:b", "its name has b in it", "b"),
            ("b;b", "its name has b, b in it", "b b"),
        ):
            (note,) = Plan.parse(f"{routers}list transit a\nlist {name}\n").notes
            advice = f"to list routers, write: list NAME {listed}"
            self.assertEqual(note, f"nobody is in the list {name}, though {why}: {advice}")
        for lists in ("list b a", "list b b", "list x,a b", "list c", "list ab", "list x-a"):
            self.assertEqual(Plan.parse(routers + lists).notes, (), lists)

    def test_a_word_for_nobody_is_no_router(self) -> None:
        for word in ("none", "nobody", "nothing"):
            with self.assertRaises(TextErrors) as caught:
                Plan.parse(f"reflector a 1\nlist gone {word}\n")
            (problem,) = caught.exception.problems
            self.assertEqual(problem.message, f"no router is named {word}")
            alone = "for a list of nobody write its name alone: list gone"
            self.assertEqual(problem.advice, alone)
            plan = Plan.parse(f"reflector {word} 1\nlist gone {word}\n")
            self.assertEqual(plan.egresses("gone"), (word,))

    def test_the_name_is_needed(self) -> None:
        with self.assertRaisesRegex(TextErrors, r"write: list NAME \[ROUTER ..\]"):
            Plan.parse("reflector a 1\nlist\n")


class Answers(unittest.TestCase):
    """What the library answers on lists of nobody, by name."""

    def plans(self, count: int) -> list[Plan]:
        """Random networks with nobody in a list."""
        draw = random.Random(4456)
        return [emptied(random_network(draw), draw.randint(0, 2)) for _ in range(count)]

    def verdicts(self, count: int) -> list[tuple[Plan, Verdict]]:
        """The verdicts of random networks for their lists of nobody."""
        plans = self.plans(count)
        return [(plan, each) for plan in plans for each in plan.verdicts() if each.nobody]

    def test_rounds(self) -> None:
        for texts, highest in ((NO_PARENT, 0), (A_PARENT, 1)):
            for text in texts:
                verdict = Plan.parse(f"{text}\nlist gone").verdict("gone")
                found = (verdict.stable, verdict.highest, verdict.rounds)
                self.assertEqual(found, (True, highest, highest + 2), text)
                self.assertEqual(nobody_words(verdict), flushed(highest + 2), text)

    def test_ranks_and_routes(self) -> None:
        for plan, verdict in self.verdicts(60):
            self.assertTrue(verdict.stable)
            self.assertEqual((verdict.egresses, plan.egresses(verdict.name)), ((), ()))
            ranks = {router: int(has_parent(plan, router)) for router in plan.routers}
            self.assertEqual(verdict.ranks, ranks)
            self.assertEqual(verdict.without_route, plan.routers)
            self.assertEqual(verdict.table, plan.empty_table(verdict.name))
            self.assertEqual((verdict.cycle, verdict.groups), ((), ()))

    def test_only_lists_of_nobody_leave_all_without_a_route(self) -> None:
        for plan in self.plans(60):
            counted = sum(each.nobody for each in plan.verdicts())
            self.assertGreater(counted, 0)
            self.assertEqual(entry(plan.data).nobody, counted)
            for verdict in plan.verdicts():
                self.assertEqual(verdict.nobody, verdict.without_route == plan.routers)

    def test_old_routes_are_flushed_in_time(self) -> None:
        draw = random.Random(4456)
        for plan, verdict in self.verdicts(60):
            start, acts = random_table(plan, verdict.name, draw), []
            for _ in range(verdict.rounds):
                again = draw.choices(plan.routers, k=draw.randint(0, 4))
                acts += draw.sample([*plan.routers, *again], len(plan.routers) + len(again))
            run = plan.run(verdict.name, acts, start)
            self.assertGreaterEqual(run.rounds, verdict.rounds)
            self.assertEqual(set(run.table.values()), {None})
            later = draw.choices(plan.routers, k=20)
            self.assertEqual(plan.run(verdict.name, later, run.table).table, run.table)

    def test_a_round_less_is_not_enough(self) -> None:
        plan = Plan.read(GONE)
        start = plan.verdict("transit").table
        for router in plan.egresses("transit"):
            start = start.with_route(router, None)
        order = ["lon-a", "lon-rr", "par-rr", "par-a"]
        two, three = (plan.run("gone", order * rounds, start) for rounds in (2, 3))
        self.assertEqual((two.rounds, two.table["lon-a"]), (2, Route("par-a", "lon-rr")))
        self.assertEqual((three.rounds, three.table), (3, plan.verdict("gone").table))

    def test_reliances(self) -> None:
        for plan, verdict in self.verdicts(20):
            for router, other in product(plan.routers, plan.routers):
                found = plan.explain(verdict.name, router, other)
                parent = has_parent(plan, router) and plan.role(other) == "reflector"
                self.assertEqual(found.relies, parent and other in plan.neighbours(router))
                reasons = ("same router", "not neighbours", "second an unlisted client", "no offer")
                self.assertIn(found.words, ["parent"] if found.relies else reasons)


class Commands(InFolder):
    """What the commands say."""

    def test_check_has_the_rounds_of_the_verdict(self) -> None:
        for text, rounds in [*((each, 2) for each in NO_PARENT), *((each, 3) for each in A_PARENT)]:
            write("x.rrp", f"{text}\nlist gone\n")
            answer = rrp("check", "x.rrp")
            words = f"stable: highest rank {rounds - 2}, settles within {rounds} rounds"
            due = [f"gone  {words}", f"      {flushed(rounds)}", f"      {LISTED}"]
            *lines, every_list = answer.output.splitlines()[1:]
            self.assertEqual((answer.status, lines), (0, due), text)
            self.assertEqual(every_list, "no egress list can make this plan suspect")
            self.assertEqual(rrp("check", "x.rrp", "--strict").status, 1, text)
            (values,) = json.loads(rrp("check", "x.rrp", "--json").output)["lists"]
            self.assertEqual((values["list"], values["routers"]), ("gone", []))
            self.assertEqual((values["stable"], values["rounds"]), (True, rounds))
            self.assertEqual(values["without_route"], list(Plan.read("x.rrp").routers))

    def test_other_lists_say_nothing_of_it(self) -> None:
        for words in (["check", NET], ["show", NET], ["show", GONE, "transit"]):
            self.assertNotIn("nobody", rrp(*words).output, words)
        lines = rrp("check", GONE).output.splitlines()
        self.assertTrue(lines[1].startswith("transit  stable: highest rank 2, "), lines)
        self.assertEqual(lines[3], f"         {flushed(3)}")

    def test_show(self) -> None:
        lines = rrp("show", GONE).output.splitlines()
        self.assertEqual(lines[2], "transit  stable   lon-a, par-a")
        self.assertEqual(lines[3:5], [f"gone     stable   {flushed(3)}", " " * 18 + LISTED])
        lines = rrp("show", GONE, "gone").output.splitlines()
        self.assertEqual(lines[0], "gone is stable: highest rank 1, settles within 3 rounds")
        self.assertEqual(lines[2], "lon-rr     0  nothing")
        self.assertEqual(lines[-2:], [flushed(3), LISTED])
        values = json.loads(rrp("show", GONE, "gone", "--json").output)
        self.assertEqual((values["routers"], values["rounds"]), ([], 3))
        self.assertEqual(set(values["table"].values()), {None})
        self.assertEqual((values["sender_may_differ"], values["sender_note"]), ([], None))

    def test_a_router_called_nobody_is_told_from_nobody(self) -> None:
        write("x.rrp", "reflector nobody 1\nlist one nobody\nlist gone\n")
        lines = rrp("show", "x.rrp").output.splitlines()
        self.assertEqual(lines[2:4], ["one   stable   nobody", f"gone  stable   {flushed(2)}"])

    def test_why(self) -> None:
        for words, due in (
            (["lon-a", "lon-rr"], "it is a client that has a session with the reflector lon-rr"),
            (["lon-rr", "par-rr"], "par-rr offers nothing: nobody is in the list"),
            (["lon-rr", "lon-a"], "lon-a is a client that is not in the list, and advertises "),
        ):
            answer = rrp("why", GONE, "gone", *words).output
            self.assertEqual(answer.startswith("yes: "), words[0] == "lon-a")
            self.assertIn(f"\n  {due}", answer)

    def test_the_picture_says_it(self) -> None:
        plan = Plan.read(GONE)
        text = graphviz(plan, plan.verdict("gone"))
        self.assertIn(f"settles within 3 rounds\\n{flushed(3)}\\n", text)
        self.assertNotIn("filled", text)
        self.assertNotIn("nobody", graphviz(plan, plan.verdict("transit")))

    def test_pack_and_unpack(self) -> None:
        lines = rrp("pack", GONE, "-o", "gone.plan").output.splitlines()
        self.assertEqual(lines[1:], ["    nobody is in the list gone"])
        self.assertIn("\nlist l1  # nobody\n", rrp("unpack", "gone.plan", "-o", "-").output)
        write("x.rrp", "reflector a 1\nlist x\nlist y a\nlist z\n")
        lines = rrp("pack", "x.rrp", "-o", "x.plan").output.splitlines()
        self.assertEqual(lines[1:], ["    nobody is in the lists x, z"])
        values = json.loads(rrp("pack", "x.rrp", "--json").output)
        self.assertEqual(values["lists"], ["x", "y", "z"])
        self.assertEqual(values["lists_of_nobody"], ["x", "z"])
        values = json.loads(rrp("unpack", "x.plan", "--json").output)
        self.assertEqual(values["lists"], {"l0": [], "l1": ["r0"], "l2": []})

    def test_a_change_to_nobody_and_back(self) -> None:
        answer = rrp("check", NET, "--set", "list transit", "--set", "list peering")
        self.assertEqual(answer.status, 0)
        for line in (
            "taken from the list: lon-a, par-a, fra-a",
            "12 routers lose their route: ",
            flushed(3),
            LISTED,
        ):
            self.assertRegex(answer.output, f"\n +{line}")
        words = ("check", NET, "--set", "list peering", "--json")
        values = {each["list"]: each for each in json.loads(rrp(*words).output)["lists"]}
        peering = values["peering"]
        self.assertEqual((peering["routers"], peering["after"]["rounds"]), ([], 3))
        self.assertEqual(peering["members"]["taken"], ["lon-b", "fra-b"])
        self.assertEqual(len(peering["routes"]["lost"]), 12)
        again = rrp("check", GONE, "--set", "list gone lon-a par-a").output
        self.assertIn("4 routers gain a route: ", again)
        self.assertNotIn("nobody", again)

    def test_as_before(self) -> None:
        answer = rrp("check", GONE, "--set", "link lon-rr lon-a 11")
        self.assertRegex(answer.output, "gone     as before +stable: highest rank 1, ")
        self.assertRegex(answer.output, f"\n +{flushed(3)}\n +{LISTED}\n")

    def test_file_and_audit(self) -> None:
        gone = self.copy(GONE)
        said = "2 lists, 0 suspect, 1 names nobody"
        self.assertEqual(rrp("file", gone).output, f"{gone}.verdict: filed: {said}\n")
        self.assertEqual(rrp("audit", ".").status, 0)
        write("x.rrp", "client a 1\nclient b 2\nlist x\nlist y a\nlist z\n")
        said = "3 lists, 0 suspect, 2 name nobody, 1 leaves routers without a route"
        self.assertEqual(rrp("file", "x.rrp").output, f"x.rrp.verdict: filed: {said}\n")

    def test_a_verdict_of_the_time_when_it_was_refused_is_false(self) -> None:
        gone = self.copy(GONE)
        write(f"{gone}.verdict", f"refused 7\n{entry(Plan.read(gone).data).digest}")
        answer = rrp("audit", ".")
        self.assertEqual(answer.status, 1)
        said = f"false: ./{gone}: filed refused 7, is 4 routers and 2 lists\n"
        self.assertTrue(answer.output.startswith(said), answer.output)

    def test_converted(self) -> None:
        plan = Plan.read(GONE)
        self.assertEqual(plan.widened().verdicts(), plan.verdicts())
        self.assertEqual(plan.widened().narrowed().data, plan.data)


class Runs(InFolder):
    """`rrp run --from` a table of the list before."""

    def before(self) -> str:
        """A file with the table that the list transit settles on."""
        write("before.json", rrp("show", GONE, "transit", "--json").output)
        return "before.json"

    def test_old_routes_are_flushed(self) -> None:
        order = "lon-a,lon-rr,par-rr,par-a"
        answer = rrp("run", GONE, "gone", "--from", self.before(), "--order", order)
        withdrawn = "is not in the list gone, and starts with nothing"
        notes = [f"note: lon-a {withdrawn}", f"note: par-a {withdrawn}"]
        self.assertEqual((answer.status, answer.errors.splitlines()), (0, notes))
        lines = answer.output.splitlines()
        self.assertIn("    1  lon-a   nothing -> par-a from lon-rr", lines)
        settled = "settled after 9 activations (2 rounds ended): all routes are flushed, "
        self.assertEqual(lines[-2], f"{settled}which is promised within 3 rounds.")
        self.assertEqual(lines[-1], f"{LISTED[0].upper()}{LISTED[1:]}.")

    def test_values(self) -> None:
        answer = rrp("run", GONE, "gone", "--from", self.before(), "--json")
        values = json.loads(answer.output)
        found = (values["routers"], values["rounds"], values["outcome"], len(values["notes"]))
        self.assertEqual(found, ([], 3, "settled", 2))
        self.assertEqual(set(values["table"].values()), {None})
        self.assertIn(": all routes are flushed, ", values["sentence"])

    def test_from_nothing_there_is_none_to_flush(self) -> None:
        lines = rrp("run", GONE, "gone").output.splitlines()
        self.assertIn("no router holds a route at the start", lines[1])
        self.assertIn("start from the table of another list, which show PLAN LIST", lines[-1])
        self.assertNotIn("are flushed", " ".join(lines))

    def test_not_flushed_yet(self) -> None:
        words = ("--order", "lon-a,lon-rr,par-rr,par-a", "--rounds", "2")
        lines = rrp("run", GONE, "gone", "--from", self.before(), *words).output.splitlines()
        due = "not settled after 8 activations (2 rounds ended): that is promised within 3 rounds."
        still = "No router is listed, and 1 router holds an old route still: lon-a."
        self.assertEqual(lines[-2:], [due, still])
        words = ("--order", "lon-a,par-a")
        lines = rrp("run", GONE, "gone", "--from", self.before(), *words).output.splitlines()
        still = "No router is listed, and 3 routers hold an old route still: lon-rr, par-rr, lon-a."
        self.assertIn("no router of this order changes the table any more, but ", lines[-2])
        self.assertEqual(lines[-1], still)

    def test_the_way_back(self) -> None:
        write("gone.json", rrp("show", GONE, "gone", "--json").output)
        answer = rrp("run", GONE, "transit", "--from", "gone.json")
        own = "is in the list transit, and starts with its own route"
        self.assertEqual(answer.errors, f"note: lon-a {own}\nnote: par-a {own}\n")
        self.assertIn("settled after ", answer.output)


if __name__ == "__main__":
    unittest.main()
