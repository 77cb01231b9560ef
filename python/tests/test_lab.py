"""Labs without booting them: what is written, what is read, and what is made of it."""

from __future__ import annotations

import json
import os
import stat
import subprocess
import tempfile
import unittest
from unittest import mock

from rrp import Plan, encoding
from rrp.errors import RrpError
from rrp.lab import addresses
from rrp.lab.bird import configurations as bird
from rrp.lab.bird import reading as bird_reading
from rrp.lab.bird.daemons import Bird
from rrp.lab.boots import Stage
from rrp.lab.comparing import compare, finding
from rrp.lab.failures import read_failure, without
from rrp.lab.frr import configurations as frr
from rrp.lab.frr import reading as frr_reading
from rrp.lab.frr.daemons import Frr
from rrp.lab.hearing import Heard, table_of

from .support import EXAMPLES, TESTS, Answer, rrp

NET = f"{EXAMPLES}/net.rrp"
M3 = f"{EXAMPLES}/m3.plan"
HOP = f"{EXAMPLES}/hop.rrp"

#: What birdc says at a client of two reflectors.
TWO_REFLECTORS = """\
BIRD 2.0.12 ready.
Table master4:
203.0.113.0/24       blackhole [reflector_lon_rr 22:44:13.283 from 192.0.2.1] * (100/35) [i]
\tType: BGP univ
\tBGP.origin: IGP
\tBGP.as_path: 
\tBGP.next_hop: 198.51.100.5
\tBGP.local_pref: 100
\tBGP.originator_id: 10.0.1.2
\tBGP.cluster_list: 10.0.0.1
                     blackhole [reflector_par_rr 22:44:13.283 from 192.0.2.2] (100/35) [i]
\tType: BGP univ
\tBGP.origin: IGP
\tBGP.as_path: 
\tBGP.next_hop: 198.51.100.5
\tBGP.local_pref: 100
\tBGP.originator_id: 10.0.1.2
\tBGP.cluster_list: 10.0.0.2 10.0.0.1
"""

#: .. at a listed router that hears another one's route too, ..
OWN_ROUTE = """\
BIRD 2.0.12 ready.
Table master4:
203.0.113.0/24       blackhole [own_route 22:44:12.303] * (200)
\tType: static univ
                     blackhole [client_fra_b 22:44:13.239 from 192.0.2.11] (100/18) [i]
\tType: BGP univ
\tBGP.origin: IGP
\tBGP.as_path: 
\tBGP.next_hop: 198.51.100.11
\tBGP.local_pref: 100
"""

#: .. and of its protocols.
PROTOCOLS = """\
BIRD 2.0.12 ready.
Name       Proto      Table      State  Since         Info
device1    Device     ---        up     22:43:58.512  

distances  Static     igp_routes up     22:43:58.512  
  Channel ipv4
    Route change stats:     received   rejected   filtered    ignored   accepted
      Import updates:             11          0          0          0         11

reflector_lon_rr BGP        ---        up     22:43:59.352  Established   
  BGP state:          Established
  Channel ipv4
    Route change stats:     received   rejected   filtered    ignored   accepted
      Import updates:              3          0          0          0          3
      Import withdraws:            1          0        ---          0          1
      Export updates:              2          0          0        ---          2
      Export withdraws:            0        ---        ---        ---          0

client_lon_a BGP        ---        start  22:43:59.352  Connect       
  BGP state:          Connect
client_lon_b BGP        ---        down   22:43:59.352  
"""

#: What vtysh says at a client of two reflectors, one of which tells a route that has no way.
FRR_PATHS = {
    "paths": [
        {
            "valid": True,
            "clusterList": {"list": ["10.0.0.2", "10.0.0.1"]},
            "nexthops": [{"ip": "198.51.100.5", "metric": 35, "accessible": True}],
            "peer": {"peerId": "192.0.2.2"},
        },
        {
            "valid": True,
            "bestpath": {"overall": True, "selectionReason": "Cluster length"},
            "clusterList": {"list": ["10.0.0.1"]},
            "nexthops": [{"ip": "198.51.100.5", "metric": 35, "accessible": True}],
            "peer": {"peerId": "192.0.2.1"},
        },
        {
            "nexthops": [{"ip": "198.51.100.11", "accessible": False}],
            "peer": {"peerId": "192.0.2.2"},
        },
    ]
}


def plan_of(text: str) -> Plan:
    """A plan that a test states."""
    return Plan.parse(text, "test")


class Addresses(unittest.TestCase):
    """Names, addresses and identifiers."""

    def test_session_addresses_rise_with_the_numbers(self) -> None:
        texts = [addresses.session_address(number) for number in range(64)]
        self.assertEqual(texts, sorted(texts, key=lambda text: int(text.split(".")[3])))
        for number, text in enumerate(texts):
            self.assertEqual(addresses.number_at(text), number)
            self.assertEqual(addresses.number_at(addresses.next_hop(number)), number)
        for other in ("", "192.0.2.", "10.0.0.1", "0.0.0.0"):
            self.assertIsNone(addresses.number_at(other))

    def test_identifiers(self) -> None:
        plan = Plan.read(NET)
        self.assertEqual(addresses.router_id(plan, 0), "10.0.0.1")
        zero = plan_of("reflector a 0\nreflector b 4294967295\nlist l a\n")
        ids = [addresses.router_id(zero, number) for number in range(2)]
        self.assertEqual(ids, ["0.0.0.1", "0.0.0.2"])
        self.assertIn("identifier 0", bird.configuration(zero, "l", "a"))

    def test_labels(self) -> None:
        self.assertEqual(addresses.labels(Plan.read(NET))[:2], ("lon_rr", "par_rr"))
        alike = plan_of("reflector a-b 1\nreflector A.B 2\nreflector é 3\nlist l é\n")
        self.assertEqual(addresses.labels(alike), ("r0_a_b", "r1_A_B", "r2"))
        name = "x" * 70
        long = plan_of(f"reflector {name}1 1\nreflector {name}2 2\nlist l {name}1\n")
        self.assertEqual(len(set(addresses.labels(long))), 2)
        self.assertLess(max(map(len, addresses.labels(long))), 50)


class Bird2(unittest.TestCase):
    """What is written for BIRD 2, and read from it."""

    plan = Plan.read(NET)

    def test_distances(self) -> None:
        text = bird.configuration(self.plan, "peering", "mrs-a")
        for number, name in enumerate(self.plan.routers):
            way = self.plan.distance("mrs-a", name)
            route = f"route {addresses.next_hop(number)}/32 blackhole {{ igp_metric = {way}; }};"
            self.assertEqual(route in text, name != "mrs-a", name)

    def test_no_way(self) -> None:
        cut = plan_of(
            "reflector a 1\nclient b 2 of a\ndistance a > b none\ndistance b > a 4294967294\n"
            "list l b\n"
        )
        text = bird.configuration(cut, "l", "a")
        self.assertIn("if bgp_next_hop = 198.51.100.2 then reject;", text)
        self.assertNotIn("route 198.51.100.2/32", text)
        self.assertIn("igp_metric = 4294967294;", bird.configuration(cut, "l", "b"))

    def test_listed(self) -> None:
        for name in self.plan.routers:
            text = bird.configuration(self.plan, "peering", name)
            listed = name in ("lon-b", "fra-b")
            self.assertEqual("route 203.0.113.0/24" in text, listed, name)
            self.assertEqual("next hop address" in text, listed, name)

    def test_reflection(self) -> None:
        london = bird.configuration(self.plan, "peering", "lon-rr")
        self.assertEqual((london.count("rr client;"), london.count("export filter")), (4, 0))
        frankfurt = bird.configuration(self.plan, "peering", "fra-rr")
        self.assertEqual((frankfurt.count("rr client;"), frankfurt.count("export filter")), (3, 3))
        self.assertNotIn("rr client", bird.configuration(self.plan, "peering", "mrs-a"))
        for name in self.plan.routers:
            text = bird.configuration(self.plan, "peering", name)
            self.assertEqual(text.count("protocol bgp "), len(self.plan.neighbours(name)))

    def test_routes(self) -> None:
        heard = bird_reading.read_routes(self.plan, "mrs-a", TWO_REFLECTORS)
        due = (Heard("lon-b", "lon-rr", 1, True), Heard("lon-b", "par-rr", 2, False))
        self.assertEqual(heard, due)
        heard = bird_reading.read_routes(self.plan, "fra-a", OWN_ROUTE)
        own = (Heard("fra-a", "fra-a", 0, True), Heard("fra-b", "fra-b", 0, False))
        self.assertEqual(heard, own)
        self.assertEqual(bird_reading.read_routes(self.plan, "fra-a", "BIRD 2.0.12 ready.\n"), ())
        with self.assertRaises(RuntimeError):
            strange = TWO_REFLECTORS.replace("198.51.100.5", "10.1.1.1")
            bird_reading.read_routes(self.plan, "mrs-a", strange)

    def test_sessions(self) -> None:
        names = {bird.protocol_name(self.plan, each): each for each in self.plan.routers}
        found = bird_reading.read_sessions(names, PROTOCOLS)
        self.assertEqual(found.established, {"lon-rr": True, "lon-a": False, "lon-b": False})
        self.assertEqual(found.counts, (11, 3, 1, 2, 0))


class FrrFiles(unittest.TestCase):
    """What is written for FRR, and read from it."""

    plan = Plan.read(NET)

    def test_configuration(self) -> None:
        text = frr.configuration(self.plan, "peering", "fra-rr")
        self.assertEqual(text.count("route-reflector-client"), 3)
        self.assertIn("no bgp client-to-client reflection", text)
        self.assertNotIn("network 203.0.113.0/24", text)
        text = frr.configuration(self.plan, "peering", "fra-b")
        self.assertIn("network 203.0.113.0/24", text)
        self.assertIn("set ip next-hop 198.51.100.11", text)
        self.assertEqual(text.count("route-map own_route out"), 3)
        self.assertNotIn("client", text.split("router bgp")[1].replace("a client", ""))

    def test_network(self) -> None:
        lines = frr.network(self.plan, "mrs-a").splitlines()
        self.assertIn("address add 192.0.2.9/24 dev eth0", lines)
        self.assertIn("route add 198.51.100.5/32 dev eth0 metric 35", lines)
        self.assertEqual(sum(line.startswith("route add") for line in lines), 11)
        self.assertIn("neighbor add 192.0.2.2 lladdr 02:00:00:00:00:02 dev eth0", lines)
        self.assertEqual(sum(line.startswith("neighbor add") for line in lines), 2)

    def test_reading(self) -> None:
        heard = frr_reading.read_routes(self.plan, "mrs-a", json.dumps(FRR_PATHS))
        due = (Heard("lon-b", "par-rr", 2, False), Heard("lon-b", "lon-rr", 1, True))
        self.assertEqual(heard, due)
        own = {"paths": [{"valid": True, "sourced": True, "bestpath": {"overall": True}}]}
        heard = frr_reading.read_routes(self.plan, "lon-b", json.dumps(own))
        self.assertEqual(heard, (Heard("lon-b", "lon-b", 0, True),))
        self.assertEqual(frr_reading.read_routes(self.plan, "lon-b", "{}"), ())

    def test_sessions(self) -> None:
        stats = {"updatesSent": 1, "updatesRecv": 2, "keepalivesSent": 5}
        said = {
            "192.0.2.1": {"bgpState": "Established", "messageStats": stats},
            "192.0.2.2": {"bgpState": "Active"},
        }
        found = frr_reading.read_sessions(self.plan, json.dumps(said))
        self.assertEqual(found.established, {"lon-rr": True, "par-rr": False})
        self.assertEqual(found.counts, (1, 2, 0, 0))

    def test_too_far(self) -> None:
        far = plan_of("reflector a 1\nclient b 2 of a\ndistance a b 16777216\nlist l b\n")
        with self.assertRaisesRegex(RrpError, "16,777,216: FRR takes no more than 16,777,215"):
            Frr.refuse(far)
        Bird.refuse(far)


class Scripts(unittest.TestCase):
    """The script of a lab, which a shell takes."""

    def test_scripts(self) -> None:
        strange = 'reflector "$(x)` 1\nreflector {a} 2\nlist `l" "$(x)`\n'
        for plan, name in ((Plan.read(NET), "peering"), (plan_of(strange), 0)):
            for daemons in (Bird, Frr):
                text = daemons.files(plan, plan.lists[plan.list_number(name)])["lab"]
                parsed = subprocess.run(["sh", "-n"], input=text, text=True, capture_output=True)
                self.assertEqual((parsed.returncode, parsed.stderr), (0, ""))
                code = [line for line in text.splitlines() if not line.startswith("#")]
                self.assertNotIn("$(x)", "\n".join(code))

    def test_what_a_plan_is_called_stays_in_its_comment(self) -> None:
        plan = Plan(Plan.read(M3).data, source="a\nrouter id 1.1.1.1;\r\u2028b")
        for daemons in (Bird, Frr):
            for name, text in daemons.files(plan, "l0").items():
                self.assertNotRegex(text, r"(?m)^router id 1\.1\.1\.1", name)

    def test_usage(self) -> None:
        with tempfile.TemporaryDirectory() as folder:
            rrp("lab", NET, "peering", "-o", f"{folder}/new")
            self.assertTrue(os.stat(f"{folder}/new/lab").st_mode & stat.S_IXUSR)
            ended = subprocess.run([f"{folder}/new/lab"], capture_output=True, text=True)
        self.assertEqual(ended.returncode, 2)
        told = [line.split()[1] for line in ended.stdout.splitlines()]
        self.assertEqual(told, ["up", "show", "down"])


class Comparing(unittest.TestCase):
    """What was heard, beside the verdict."""

    plan = Plan.read(NET)

    def hearing(self, table) -> dict:
        """What routers hear that hold a table and hear nothing else."""
        return {
            router: () if route is None else (Heard(*route, 0, True),)
            for router, route in table.items()
        }

    def test_agrees(self) -> None:
        verdict = self.plan.verdict("peering")
        hearing = self.hearing(verdict.table)
        self.assertEqual(table_of(self.plan, hearing), verdict.table)
        found = finding(self.plan, verdict, hearing)
        self.assertEqual((found.kind, found.as_promised), ("agrees", True))

    def test_differs(self) -> None:
        verdict = self.plan.verdict("peering")
        for held in ((), (Heard("fra-b", "lon-rr", 0, True),)):
            hearing = {**self.hearing(verdict.table), "mrs-a": held}
            found = finding(self.plan, verdict, hearing)
            self.assertEqual((found.kind, found.as_promised), ("differs", False))
            self.assertEqual(found.comparison.differing, ("mrs-a",))

    def test_senders_by_cluster_list_alone(self) -> None:
        verdict = self.plan.verdict("peering")
        kinds = {(1, 2): "agrees but for senders", (2, 2): "differs", (3, 2): "differs"}
        for (held, due), kind in kinds.items():
            heard = Heard("lon-b", "par-rr", held, True), Heard("lon-b", "lon-rr", due, False)
            hearing = {**self.hearing(verdict.table), "mrs-a": heard}
            found = finding(self.plan, verdict, hearing)
            self.assertEqual((found.kind, found.as_promised), (kind, kind != "differs"))
        unheard = {**self.hearing(verdict.table), "mrs-a": heard[:1]}
        self.assertEqual(compare(verdict.table, unheard).differing, ("mrs-a",))

    def test_no_rest(self) -> None:
        for name, promised in (("peering", False), ("transit", True)):
            found = finding(self.plan, self.plan.verdict(name), None)
            self.assertEqual((found.kind, found.as_promised), ("moves", promised))

    def test_suspect_lists_rest_in_listed_tables(self) -> None:
        plan = Plan.read(M3)
        for each in plan.steady(0).tables:
            found = finding(plan, plan.verdict(0), self.hearing(each.table))
            self.assertEqual((found.kind, found.number), ("rests", each.number))
        found = finding(plan, plan.verdict(0), self.hearing(plan.empty_table(0)))
        self.assertEqual((found.kind, found.as_promised), ("differs", False))
        none = self.plan.empty_table("transit")
        found = finding(self.plan, self.plan.verdict("transit"), self.hearing(none))
        self.assertEqual((found.kind, found.as_promised), ("differs", False))

    def test_too_many_grouped(self) -> None:
        plan = Plan.read(f"{TESTS}/plans/thirteen.rrp")
        name = next(each.name for each in plan.verdicts() if len(each.grouped) > 12)
        hearing = self.hearing(plan.empty_table(name))
        found = finding(plan, plan.verdict(name), hearing)
        self.assertEqual((found.kind, found.number, found.as_promised), ("rests", None, True))


class Failures(unittest.TestCase):
    """What fails, and the plan after it."""

    plan = Plan.read(NET)

    def test_session(self) -> None:
        failure = read_failure(self.plan, "session par-rr lon-rr")
        after = without(self.plan, failure)
        self.assertEqual(set(self.plan.sessions) - set(after.sessions), {("lon-rr", "par-rr")})
        self.assertEqual(after.model.lists, self.plan.model.lists)
        self.assertEqual(failure.words, "session par-rr lon-rr")

    def test_router(self) -> None:
        after = without(self.plan, read_failure(self.plan, "router lon-b"))
        self.assertEqual(after.neighbours("lon-b"), ())
        self.assertEqual(after.egresses("peering"), ("fra-b",))
        self.assertEqual(after.model.distances, self.plan.model.distances)
        alone = without(after, read_failure(after, "router 10"))
        self.assertTrue(alone.verdict("peering").nobody)

    def test_wrong_words(self) -> None:
        for text in ("", "session", "session lon-rr", "router lon-a lon-b", "link lon-rr par-a"):
            with self.assertRaisesRegex(RrpError, "is no failure: name 'session A B' or"):
                read_failure(self.plan, text)
        with self.assertRaisesRegex(RrpError, "lon-a has no session with par-a"):
            read_failure(self.plan, "session lon-a par-a")
        with self.assertRaisesRegex(RrpError, "has no router lon-c"):
            read_failure(self.plan, "router lon-c")


class Command(unittest.TestCase):
    """The command where nothing is booted."""

    def refused(self, *words: str) -> str:
        """What the command says in one line where it ends with 2."""
        answer = rrp("lab", *words)
        self.assertEqual((answer.status, answer.output), (2, ""), words)
        self.assertEqual(answer.errors.count("\n"), 1, answer.errors)
        return answer.errors

    def test_what_is_refused(self) -> None:
        self.assertIn("hop step, at lon-rr: BIRD 2 has nothing", self.refused(HOP, "0", "--run"))
        self.assertIn("FRR has nothing", self.refused(HOP, "0", "--with", "frr", "-o", "x"))
        self.assertIn("with -o, or boot it with --run", self.refused(NET, "peering"))
        self.assertIn("add --run", self.refused(NET, "peering", "-o", "x", "--again", "2"))
        self.assertIn("leave -o out", self.refused(NET, "0", "-o", "x", "--run", "--again", "2"))
        none = "--run", "--fail", "session lon-a par-a"
        self.assertIn("no session", self.refused(NET, "0", *none))
        twice = "--run", "--fail", "router lon-a", "--fail", "session lon-rr lon-a"
        self.assertIn("no session", self.refused(NET, "0", *twice))
        self.assertFalse(os.path.exists("x"))

    def test_what_is_missing(self) -> None:
        with mock.patch("os.geteuid", return_value=1000):
            self.assertIn("only root boots a lab", self.refused(NET, "peering", "--run"))
        with mock.patch("os.geteuid", return_value=0), mock.patch("shutil.which") as which:
            for missing, package in (("bird", "bird2"), ("birdc", "bird2"), ("ip", "iproute2")):
                which.side_effect = lambda name, path, gone=missing: None if name == gone else name
                said = self.refused(NET, "peering", "--run")
                due = f"a lab needs {missing}, which is not there: apt-get install {package}"
                self.assertIn(due, said)
            which.side_effect = lambda name, path: None if name == "bgpd" else name
            self.assertIn("apt-get install frr", self.refused(NET, "0", "--run", "--with", "frr"))

    def test_another_bird(self) -> None:
        old = subprocess.CompletedProcess([], 0, "", "BIRD version 1.6.8\n")
        with mock.patch("rrp.lab.bird.daemons.need_programs"):
            with mock.patch("rrp.lab.bird.daemons.answer", return_value=old):
                self.assertIn("bird of version 2", self.refused(NET, "peering", "--run"))

    def test_written(self) -> None:
        with tempfile.TemporaryDirectory() as folder:
            answer = rrp("lab", NET, "peering", "-o", f"{folder}/new")
            self.assertEqual((answer.status, answer.errors), (0, ""))
            self.assertEqual(len(os.listdir(f"{folder}/new")), 13)
            self.assertIn("is not empty", self.refused(NET, "peering", "-o", f"{folder}/new"))
            words = "lab", NET, "peering", "-o", f"{folder}/frr", "--with", "frr", "--json"
            values = json.loads(rrp(*words).output)
            self.assertEqual(len(values["files"]), 25)
            for name in values["files"]:
                self.assertTrue(os.path.isfile(f"{folder}/frr/{name}"), name)

    def test_wide_distances(self) -> None:
        plan = Plan.read(f"{EXAMPLES}/wide.rrp")
        self.assertEqual(plan.width, encoding.WIDE)
        farthest = max(way for row in plan.model.distances for way in row if way)
        written = "".join(Bird.files(plan, plan.lists[0]).values())
        self.assertIn(f"igp_metric = {farthest};", written)


class Printed(unittest.TestCase):
    """What the command writes of boots, and its exit status."""

    plan, pair = Plan.read(NET), Plan.read(M3)

    def answer(self, plan: Plan, name: str, hearings: list, *words: str) -> Answer:
        """What the command answers where routers hear this in its boots, or move if it is None."""
        verdict, boots = plan.verdict(name), []
        for hearing in hearings:
            table = None if hearing is None else table_of(plan, hearing)
            seen = finding(plan, verdict, hearing)
            boots.append([Stage(None, plan, verdict, table, seen)])
        with mock.patch("rrp.commands.lab.boot", side_effect=boots):
            with mock.patch.object(Bird, "version", return_value="BIRD 2.0.12"):
                return rrp("lab", plan.source, name, "--run", *words)

    def settled(self, **others: tuple) -> dict:
        """What routers hear that hold the settled table of peering, but for some."""
        table = self.plan.verdict("peering").table
        heard = {router: (Heard(*route, 0, True),) for router, route in table.items()}
        return {**heard, **{name.replace("_", "-"): held for name, held in others.items()}}

    def test_agrees(self) -> None:
        answer = self.answer(self.plan, "peering", [self.settled()])
        self.assertEqual((answer.status, answer.errors), (0, ""))
        self.assertIn("booted as 12 routers of BIRD 2.0.12, with 16 sessions\n", answer.output)
        self.assertIn("par-rr  lon-b from lon-rr  lon-b from lon-rr\n", answer.output)
        self.assertIn("\nagrees: every router holds what the verdict says\n", answer.output)

    def test_senders(self) -> None:
        heard = Heard("lon-b", "par-rr", 1, True), Heard("lon-b", "lon-rr", 2, False)
        answer = self.answer(self.plan, "peering", [self.settled(mrs_a=heard)])
        self.assertEqual(answer.status, 0)
        self.assertIn("agrees but for senders", answer.output)
        row = "mrs-a   lon-b from par-rr  lon-b from lon-rr  by CLUSTER_LIST\n"
        self.assertIn(row, answer.output)
        told = "mrs-a has lon-b from par-rr, whose CLUSTER_LIST has length 1, and not from lon-rr, "
        self.assertIn(f"{told}whose has 2\n", answer.output)

    def test_not_as_promised(self) -> None:
        answer = self.answer(self.plan, "peering", [self.settled(mrs_a=())])
        self.assertEqual(answer.status, 1)
        self.assertIn("differs: 1 router holds another route: mrs-a\n", answer.output)
        answer = self.answer(self.plan, "peering", [None])
        self.assertEqual(answer.status, 1)
        self.assertIn("this is not as promised", answer.output)
        empty = {router: () for router in self.pair.routers}
        answer = self.answer(self.pair, "l0", [empty])
        self.assertEqual(answer.status, 1)
        self.assertIn("rest in a table that the library does not list", answer.output)

    def test_suspect(self) -> None:
        answer = self.answer(self.plan, "transit", [None])
        self.assertEqual(answer.status, 0)
        self.assertIn("moves: read 5 times, 4 s apart", answer.output)
        answer = self.answer(self.pair, "l0", [self.rest(2)])
        self.assertEqual(answer.status, 0)
        self.assertIn("rests in table 2, which is listed by rrp steady\n", answer.output)

    def rest(self, number: int) -> dict:
        """What routers hear that hold the steady table of a number."""
        (table,) = [each.table for each in self.pair.steady(0).tables if each.number == number]
        return {router: (Heard(*route, 0, True),) for router, route in table.items()}

    def test_histogram(self) -> None:
        boots = [self.rest(2), self.rest(1), None, self.rest(2)]
        answer = self.answer(self.pair, "l0", boots, "--again", "4")
        self.assertEqual(answer.status, 0)
        self.assertIn("rests in table 1  1  #\nrests in table 2  2  ##\n", answer.output)
        self.assertIn("moves             1  #\n", answer.output)
        wrong = self.answer(self.plan, "peering", [self.settled(), None], "--again", "2")
        self.assertEqual(wrong.status, 1)
        self.assertIn("the first boot that is not as promised:\nmoves", wrong.output)

    def test_json(self) -> None:
        answer = self.answer(self.pair, "l0", [self.rest(2)], "--json")
        values = json.loads(answer.output)
        ((stage,),) = values["boots"]
        self.assertEqual((stage["outcome"], stage["steady_number"]), ("rests", 2))
        self.assertEqual(stage["table"], stage["due"])
        self.assertTrue(values["as_promised"])


if __name__ == "__main__":
    unittest.main()
