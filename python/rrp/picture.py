"""Who relies on whom for a list: the reliances, and the text that Graphviz draws them from."""

from __future__ import annotations

from collections.abc import Iterable, Iterator
from typing import NamedTuple

from .looks import Looks, attributes, graph, label, quoted
from .output import count_words, nobody_words, verdict_words, with_lines
from .plan import RULES, Explanation, Plan, Verdict

#: In a picture of more routers than this, only offers have labels. If the list is stable, it goes
#: from left to right, so that names stand below one another; else the cycle is round, and only the
#: offers in it have labels.
_MANY = 20

#: So does a picture of more reflectors with their clients in numbers.
_MANY_FOLDED = 8

_ASIDE = "rankdir=LR; ranksep=1; nodesep=0.1;"
_ROUND = 'layout=neato; overlap=prism; sep="+8"; splines=true; start=7;'

_GROUP_ARROW, _PARENT_ARROW = "#e0907f", "#999999"


class Edge(NamedTuple):
    """A reliance of a router on another. `in_cycle` says whether it is one of the cycle's, and
    `in_group` whether both routers are in one group of two or more."""

    router: str
    other: str
    explanation: Explanation
    in_cycle: bool
    in_group: bool = False

    @property
    def on_parent(self) -> bool:
        """Whether it is a client's reliance on a reflector of its own."""
        return self.explanation.words == RULES[1]

    def lines(self, short: bool = False) -> list[str]:
        """The rule and, of a better offer, the egress and the margin. If short, a better offer has
        these alone, and the other rules have nothing."""
        explanation = self.explanation
        if explanation.offer is None:
            return [] if short else [explanation.words]
        margin = "" if explanation.margin is None else f", margin {explanation.margin}"
        offer = f"{explanation.offer}{margin}"
        return [offer] if short else [explanation.words, offer]


def edges(plan: Plan, verdict: Verdict) -> list[Edge]:
    """All reliances of a list."""
    cycle = set(zip(verdict.cycle, [*verdict.cycle[1:], *verdict.cycle[:1]]))
    grouped, labels = set(verdict.grouped), verdict.labels
    found = []
    for router in plan.routers:
        for other in plan.reliances(verdict.name, router):
            explanation = plan.explain(verdict.name, router, other)
            together = router in grouped and labels[router] == labels[other]
            found.append(Edge(router, other, explanation, (router, other) in cycle, together))
    return found


def graphviz(plan: Plan, verdict: Verdict) -> str:
    """The text that Graphviz draws: reflectors as boxes, double ones with the hop step, routers of
    a stable list filled by egress, its ranks in rows; groups tinted and the cycle red."""
    looks, many = Looks(plan, verdict), len(plan.routers) > _MANY
    nodes = [looks.node(router) for router in plan.routers]
    bare = many and not verdict.stable
    arrows = [_arrow(edge, many, bare and not edge.in_cycle) for edge in edges(plan, verdict)]
    layout = [_ASIDE if verdict.stable else _ROUND] * many
    lines = [*layout, *nodes, *_rows(verdict, plan.routers), *arrows]
    return _drawn(plan, verdict, lines, looks.key(plan.routers))


def reflectors_graphviz(plan: Plan, verdict: Verdict) -> str:
    """The text of a picture of the reflectors alone, each with how many clients it has."""
    looks, shown = Looks(plan, verdict), reflectors_of(plan)
    nodes = [looks.node(router, folded_lines(plan, verdict, router)) for router in shown]
    between = [edge for edge in edges(plan, verdict) if {edge.router, edge.other} <= set(shown)]
    arrows = [_arrow(edge, len(plan.routers) > _MANY) for edge in between]
    layout = [_ASIDE] * (verdict.stable and len(shown) > _MANY_FOLDED)
    lines = [*layout, *nodes, *_rows(verdict, shown), *arrows]
    return _drawn(plan, verdict, lines, looks.key(shown))


def reflectors_of(plan: Plan) -> list[str]:
    """The reflectors of a plan."""
    return [router for router in plan.routers if plan.role(router) == "reflector"]


class Folded(NamedTuple):
    """The clients of a reflector: how many there are, how many of them are listed, and how many end
    without a route, None where the list is suspect."""

    clients: int
    listed: int
    without_route: int | None


def folded(plan: Plan, verdict: Verdict, reflector: str) -> Folded:
    """The clients of a reflector in numbers."""
    clients = [name for name in plan.neighbours(reflector) if plan.role(name) == "client"]
    listed = sum(name in verdict.egresses for name in clients)
    lacking = verdict.without_route
    none = None if lacking is None else sum(name in lacking for name in clients)
    return Folded(len(clients), listed, none)


def folded_lines(plan: Plan, verdict: Verdict, reflector: str) -> list[str]:
    """What a reflector settles on, and its clients in numbers."""
    route = None if verdict.table is None else verdict.table[reflector]
    taken = [] if route is None else [f"takes {route.egress}"]
    found = folded(plan, verdict, reflector)
    counts = [count_words(found.clients, "client")]
    if found.listed:
        counts.append(f"{found.listed} listed")
    if found.without_route:
        counts.append(f"{found.without_route} without a route")
    return [*taken, ", ".join(counts)]


def _drawn(plan: Plan, verdict: Verdict, lines: Iterable[str], key: list[str]) -> str:
    """A picture with its title: the verdict, with which changes of the plan, what becomes of a list
    of nobody, and a key."""
    title = [f"{verdict.name} is {verdict_words(verdict)}", *with_lines(plan)]
    if verdict.nobody:
        title.append(nobody_words(verdict))
    return graph("digraph", verdict.name, [*title, *key], lines)


def _rows(verdict: Verdict, shown: Iterable[str]) -> Iterator[str]:
    """The routers of each rank of a stable list in a row with the rank. A rank has a space in it,
    which no name in a text plan has."""
    ranks = {router: verdict.ranks[router] for router in shown} if verdict.ranks else {}
    rows = {rank: quoted(f"rank {rank}") for rank in sorted(set(ranks.values()), reverse=True)}
    for rank, row in rows.items():
        routers = " ".join(f"{quoted(router)};" for router in ranks if ranks[router] == rank)
        yield f"{{ rank=same; {row} [shape=plaintext]; {routers} }}"
    if len(rows) > 1:
        yield f"{' -> '.join(rows.values())} [style=invis];"


def _arrow(edge: Edge, short: bool, bare: bool = False) -> str:
    given = {"label": label([] if bare else edge.lines(short))}
    if edge.in_group:
        given["color"] = quoted(_GROUP_ARROW)
    elif short and edge.on_parent:
        given["color"] = quoted(_PARENT_ARROW)
    if edge.in_cycle:
        given |= {"color": "red", "fontcolor": "red", "penwidth": "2"}
    return f"{quoted(edge.router)} -> {quoted(edge.other)} {attributes(given)}"
