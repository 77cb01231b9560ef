"""Labs that are booted: the bundled plan's lists, the small plans of docs/MODEL.md, failures, and
what is left behind. Each boot is a process of its own, and several are under way at once.

Nothing is booted unless RRP_LAB_BOOT says with what, bird or frr: tests/run-lab.sh sets it where
that is there and network namespaces can be made.
"""

from __future__ import annotations

import glob
import json
import os
import signal
import subprocess
import tempfile
import time
import unittest
from collections.abc import Iterable, Iterator
from concurrent.futures import ThreadPoolExecutor
from contextlib import suppress
from typing import NamedTuple

from rrp import Plan, encoding

from .support import EXAMPLES, rrp_process

DAEMONS = os.environ.get("RRP_LAB_BOOT", "")
NET = f"{EXAMPLES}/net.rrp"
M3 = f"{EXAMPLES}/m3.plan"

#: So many labs run at once. Most of the time they wait.
_AT_ONCE = 4
_SECONDS = 300

AGREEING = ("agrees", "agrees but for senders")


class Booted(NamedTuple):
    """What `rrp lab --run --json` answered: its exit status, and its stages of the only boot."""

    status: int
    stages: list[dict]


class Case(NamedTuple):
    """A list to boot, and further words of the command."""

    plan: str
    list: str
    words: tuple[str, ...] = ()


def boot_all(cases: Iterable[Case]) -> list[Booted]:
    """Boots lists, some at once."""
    with ThreadPoolExecutor(_AT_ONCE) as pool:
        return list(pool.map(_boot, cases))


def _boot(case: Case) -> Booted:
    words = "lab", case.plan, case.list, "--run", "--json", "--with", DAEMONS, *case.words
    with rrp_process(*words) as process:
        output, errors = process.communicate(timeout=_SECONDS)
    values = json.loads(output)
    if "boots" not in values:
        raise AssertionError(f"{case}: {values} {errors.decode()}")
    return Booted(process.returncode, values["boots"][0])


def write_plan(folder: str, data: bytes) -> str:
    """The name of a new file in a folder, which has the bytes of a plan."""
    path = os.path.join(folder, f"{len(os.listdir(folder))}.plan")
    with open(path, "wb") as file:
        file.write(data)
    return path


def namespaces(name: str) -> list[str]:
    """The network namespaces of the lab of a name: that one, and any of routers."""
    listed = subprocess.run(["ip", "netns", "list"], capture_output=True, text=True).stdout
    found = [line.split()[0] for line in listed.splitlines()]
    return [each for each in found if each == name or each.startswith(f"{name}-")]


def inodes(name: str) -> set[int]:
    """What tells the network namespaces of a lab from all others, also once they have no name."""
    return {os.stat(f"/run/netns/{each}").st_ino for each in namespaces(name)}


def processes_in(spaces: set[int]) -> list[str]:
    """The processes that are in one of some network namespaces."""
    found = []
    for path in glob.glob("/proc/[0-9]*/ns/net"):
        with suppress(OSError):
            if os.stat(path).st_ino in spaces:
                found.append(path)
    return found


def _with(plan: Plan, ways: dict[tuple[int, int], int | None], *lists: list[int]) -> bytes:
    """The bytes of a plan with other distances and lists."""
    rows = [list(row) for row in plan.model.distances]
    for (start, end), way in ways.items():
        rows[start][end] = way
    return encoding.encode(plan.model._replace(distances=rows, lists=list(lists)))


def small_plans() -> dict[str, bytes]:
    """The small plans of docs/MODEL.md by name, without those of the hop step."""
    m3, both = Plan.read(M3), [2, 3]
    cut_off = {(2, 0): None, (2, 1): None, (2, 3): None, (3, 0): None, (3, 1): None}
    return {
        "M1": _with(m3, {(0, 3): 14, (1, 2): 14}, both),
        "M2": _with(m3, {(1, 2): 14}, both),
        "M3, M6, M7": _with(m3, {}, both, [3], [0]),
        "M4": _with(m3, {(0, 3): 10, (1, 2): 10}, both),
        "M5": _with(m3, {(0, 3): 9, (1, 2): 10}, both),
        "no way to an offer": _with(m3, {(0, 3): None}, both),
        "no way to a client": _with(m3, {(1, 3): None}, [3]),
        "cut off": _with(m3, cut_off, [3]),
        "skipping": _skipping(encoding.SKIPPING, [3], [5], [0], [3, 5]),
        "not skipping": _skipping(encoding.REFLECTOR, [3]),
    }


def small_cases(folder: str) -> Iterator[Case]:
    """All lists of the small plans, which are written to a folder."""
    for data in small_plans().values():
        path = write_plan(folder, data)
        yield from (Case(path, name) for name in Plan(data).lists)


def _skipping(role: int, *lists: list[int]) -> bytes:
    """Reflector 0 with clients 2, 3 and 4, of which 3 and 4 have a session, and reflector 1 with
    client 5. Each reflector is nearer to the other's clients."""
    ways = dict.fromkeys([(0, 5), (1, 2), (1, 3), (1, 4)], 6)
    ways.update(dict.fromkeys([(0, 2), (0, 3), (0, 4), (1, 5)], 10))
    model = encoding.Model(
        roles=[role, encoding.REFLECTOR] + [encoding.CLIENT] * 4,
        identifiers=list(range(1, 7)),
        sessions=[(0, 1), (0, 2), (0, 3), (0, 4), (1, 5), (3, 4)],
        distances=[
            [0 if u == e else ways.get((u, e), 30) for e in range(6)] for u in range(6)
        ],
        lists=list(lists),
    )
    return encoding.encode(model)


@unittest.skipUnless(DAEMONS, "RRP_LAB_BOOT does not say with what to boot")
class Boots(unittest.TestCase):
    """Lists as real daemons."""

    def test_lists(self) -> None:
        bundled = [Case(NET, name) for name in Plan.read(NET).lists]
        words = "--fail", "session par-rr mrs-a", "--fail", "router lon-rr"
        failing = Case(NET, "customer", words)
        with tempfile.TemporaryDirectory() as folder:
            cases = [*bundled, failing, *(small_cases(folder) if DAEMONS == "bird" else [])]
            booted = boot_all(cases)
        print(f"{len(cases)} lists were booted with {DAEMONS}")
        for case, (status, stages) in zip(cases, booted):
            with self.subTest(case=case):
                self.assertEqual(status, 0, stages)
                self.as_due(stages)
        seen = [booted[number].stages[0]["outcome"] for number in range(len(bundled))]
        self.assertEqual(seen, ["moves", "agrees", "agrees"])
        held = [stage["table"]["par-rr"] for stage in booted[len(bundled)].stages]
        due = [{"egress": "mrs-a", "from": "mrs-a"}, {"egress": "man-a", "from": "lon-rr"}, None]
        self.assertEqual(held, due)

    def as_due(self, stages: list[dict]) -> None:
        """What is seen at each stage is what may be."""
        for stage in stages:
            due = AGREEING if stage["verdict"]["stable"] else ("rests", "moves")
            self.assertIn(stage["outcome"], due, stage)

    def test_interrupt(self) -> None:
        for number, pause in ((signal.SIGINT, 0.0), (signal.SIGTERM, 2.0)):
            process = rrp_process("lab", NET, "peering", "--run", "--with", DAEMONS)
            name, until = f"rrp-lab-{process.pid}", time.monotonic() + _SECONDS
            while not namespaces(name) and time.monotonic() < until:
                time.sleep(0.05)
            time.sleep(pause)
            spaces = inodes(name)
            self.assertTrue(pause == 0 or processes_in(spaces))
            process.send_signal(number)
            output, errors = process.communicate(timeout=_SECONDS)
            self.assertEqual((process.returncode, output, errors), (-number, b"", b""))
            self.assertEqual((namespaces(name), processes_in(spaces)), ([], []))


@unittest.skipUnless(DAEMONS == "bird", "RRP_LAB_BOOT does not say that BIRD is there")
class Written(unittest.TestCase):
    """What is written is what BIRD takes, and its script runs it."""

    def test_bird_takes_every_configuration(self) -> None:
        with tempfile.TemporaryDirectory() as folder:
            for number, data in enumerate([*small_plans().values(), Plan.read(NET).data]):
                plan = Plan(data)
                path = f"{folder}/{number}"
                with rrp_process("lab", "-", "0", "-o", path, stdin=subprocess.PIPE) as process:
                    process.communicate(data, timeout=_SECONDS)
                names = [name for name in os.listdir(path) if name.endswith(".conf")]
                self.assertEqual(len(names), len(plan.routers))
                for name in names:
                    words = ["bird", "-p", "-c", f"{path}/{name}"]
                    ended = subprocess.run(words, capture_output=True, text=True)
                    self.assertEqual((ended.returncode, ended.stderr), (0, ""), name)

    def test_script(self) -> None:
        environment = {**os.environ, "NAMESPACE": f"rrp-lab-script-{os.getpid()}"}
        with tempfile.TemporaryDirectory() as folder:
            with rrp_process("lab", M3, "1", "-o", f"{folder}/m3") as process:
                process.communicate(timeout=_SECONDS)
            lab = f"{folder}/m3/lab"
            subprocess.run([lab, "up"], check=True, env=environment)
            try:
                for _ in range(100):
                    shown = subprocess.run([lab, "show"], capture_output=True, text=True).stdout
                    if shown.count(" Established ") == 6 and "holds nothing" not in shown:
                        break
                    time.sleep(0.2)
                every = subprocess.run([lab, "show", "r0"], capture_output=True, text=True).stdout
            finally:
                subprocess.run([lab, "down"], check=True, env=environment)
        self.assertEqual(shown.count("next_hop: 198.51.100.4"), 3, shown)
        self.assertIn("reflector_r1", every)
        self.assertEqual(namespaces(environment["NAMESPACE"]), [])


if __name__ == "__main__":
    unittest.main()
