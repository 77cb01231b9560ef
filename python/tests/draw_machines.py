"""Draws the machines of the four lists of examples/grades.rrp, for docs/MODEL.md.

usage, from the root: PYTHONPATH=python python3 -m tests.draw_machines     (in python/; needs dot)
"""

from __future__ import annotations

import subprocess
from collections.abc import Iterator

from rrp import Plan

from .machines import Machine
from .support import EXAMPLES, ROOT

GREEN, RED, GREY = "#d8f0d0", "#f6d0d0", "#888888"


def lines(machine: Machine) -> Iterator[str]:
    """The machine for Graphviz. A state is named by the routers that hold their own client's route;
    double circles are at rest, red ones never come to rest, and red moves can come round again."""
    yield "digraph {"
    yield '  node [shape=ellipse fontname="sans-serif" fontsize=11 margin="0.05,0.02"]'
    yield f'  edge [fontname="sans-serif" fontsize=9 color="{GREY}"]'
    for state, moves in enumerate(machine.moves):
        own = [router for place, router in enumerate(machine.movers) if state >> place & 1]
        fill = RED if state in machine.stuck else "white" if moves else GREEN
        look = f'style=filled fillcolor="{fill}"{"" if moves else " peripheries=2"}'
        yield f'  {state} [label="{" ".join(own) or "-"}" {look}]'
        for router, after in moves.items():
            red = ' color="#c00000" penwidth=1.6' if comes_round(machine, after, state) else ""
            yield f'  {state} -> {after} [label="{router}"{red}]'
    yield "}"


def comes_round(machine: Machine, start: int, end: int) -> bool:
    """Whether moves lead from a state to another."""
    seen, left = {start}, [start]
    while left:
        state = left.pop()
        if state == end:
            return True
        new = set(machine.moves[state].values()) - seen
        seen |= new
        left += new
    return False


def main() -> None:
    plan = Plan.read(f"{EXAMPLES}/grades.rrp")
    for number, name in enumerate(plan.lists, 1):
        text = "\n".join(lines(Machine(plan, name)))
        path = f"{ROOT}/docs/pictures/grade-{number}.svg"
        subprocess.run(["dot", "-Tsvg", "-o", path], input=text, text=True, check=True)


if __name__ == "__main__":
    main()
