"""Measures `rrp audit` on a library of random plans of four lists each: plans in bytes of 16
routers; with --links text plans of 18 routers and 30 links; with --distances the same as `rrp
unpack` writes them, with the distance of each two routers.

At the root of the repository, after ./build:
    PYTHONPATH=python python3 -m tests.measure_audit [--links | --distances] [PLANS]
"""

from __future__ import annotations

import os
import random
import subprocess
import sys
import tempfile
import time
from itertools import combinations

from rrp import Plan, encoding
from rrp.filing import packed, verdict_path
from rrp.text.writing import write
from rrp.verdict_files import entry

ROUTERS, REFLECTORS, LISTS = 16, 4, 4


def random_plan(draw: random.Random) -> bytes:
    """A plan with reflectors in a mesh, whose clients have one or two of them as neighbours."""
    clients = range(REFLECTORS, ROUTERS)
    sessions = set(combinations(range(REFLECTORS), 2))
    for client in clients:
        parents = draw.sample(range(REFLECTORS), draw.choice([1, 1, 2]))
        sessions.update((parent, client) for parent in parents)
    numbers = range(ROUTERS)
    model = encoding.Model(
        roles=[encoding.REFLECTOR] * REFLECTORS + [encoding.CLIENT] * len(clients),
        identifiers=sorted(draw.sample(range(2**32), ROUTERS)),
        sessions=sorted(sessions),
        distances=[[0 if u == e else draw.randint(1, 40) for e in numbers] for u in numbers],
        lists=[sorted(draw.sample(clients, draw.randint(1, 6))) for _ in range(LISTS)],
    )
    return encoding.encode(model)


def random_text(draw: random.Random) -> str:
    """The text of a plan: four reflectors in a mesh, 14 clients, a ring of links with chords."""
    reflectors = [f"site{number}-rr" for number in range(REFLECTORS)]
    clients = [f"site{number % REFLECTORS}-edge{number}" for number in range(14)]
    lines = ["# A plan among many.", *_router_lines(draw, reflectors, clients)]
    names = [*reflectors, *clients]
    ring = [*zip(names, names[1:]), (names[0], names[-1])]
    chords = [pair for pair in combinations(names, 2) if pair not in ring]
    for one, other in [*ring, *draw.sample(chords, 12)]:
        lines.append(f"link {one} {other} {draw.randint(1, 40)}")
    for number in range(LISTS):
        lines.append(f"list prefix{number} {' '.join(draw.sample(clients, draw.randint(1, 6)))}")
    return "\n".join([*lines, ""])


def _router_lines(draw: random.Random, reflectors: list[str], clients: list[str]) -> list[str]:
    lines = [f"reflector {name} 10.0.0.{number}" for number, name in enumerate(reflectors)]
    lines.append(f"mesh {' '.join(reflectors)}")
    for number, name in enumerate(clients):
        parents = draw.sample(reflectors, draw.choice([1, 1, 2]))
        lines.append(f"client {name} 10.0.1.{number} of {' '.join(parents)}  # edge")
    return lines


def random_content(draw: random.Random, kind: str) -> bytes:
    """The content of a plan's file."""
    if kind == "bytes":
        return random_plan(draw)
    text = random_text(draw)
    return (text if kind == "links" else write(Plan.parse(text))).encode()


def write_library(folder: str, count: int, kind: str) -> None:
    """Writes plans and their verdicts, 500 plans a folder."""
    draw = random.Random(4456)
    for number in range(count):
        below = f"{folder}/{number // 500:04}"
        os.makedirs(below, exist_ok=True)
        path = f"{below}/{number:06}.{'plan' if kind == 'bytes' else 'rrp'}"
        content = random_content(draw, kind)
        with open(path, "wb") as file:
            file.write(content)
        with open(verdict_path(path), "w", encoding="ascii") as file:
            file.write(entry(packed(content, path).data).text)


def main() -> None:
    """Writes a library, audits it three times, and prints the times."""
    words = sys.argv[1:]
    kind = next((word[2:] for word in words if word in ("--links", "--distances")), "bytes")
    count = next((int(word) for word in words if word.isdigit()), 10_000)
    with tempfile.TemporaryDirectory() as folder:
        write_library(folder, count, kind)
        for _ in range(3):
            clock, before = time.monotonic(), os.times()
            subprocess.run([sys.executable, "-m", "rrp", "audit", folder], check=True)
            after = os.times()
            used = after.children_user + after.children_system
            used -= before.children_user + before.children_system
            print(f"{time.monotonic() - clock:.2f} s by the clock, {used:.2f} s of processor time")


if __name__ == "__main__":
    main()
