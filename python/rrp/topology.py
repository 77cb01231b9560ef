"""The links and the sessions of a plan, and the text that Graphviz draws them from."""

from __future__ import annotations

from collections.abc import Iterator
from itertools import combinations
from typing import NamedTuple

from .looks import Looks, attributes, graph, label, quoted
from .output import count_words, verdict_words, with_lines
from .picture import reflectors_of
from .plan import Plan, Verdict
from .text.draft import session

_LINK, _SESSION = "#333333", "#4a7fd0"

#: A full mesh of more reflectors than this is told and not drawn.
_MESH_DRAWN = 4


class Link(NamedTuple):
    """A link between two routers: its weight from the first to the second, and back. None where it
    does not lead that way."""

    one: str
    other: str
    there: int | None
    back: int | None

    @property
    def words(self) -> str:
        """The weight, or both where they differ."""
        if self.there == self.back:
            return str(self.there)
        ways = ((self.one, self.other, self.there), (self.other, self.one, self.back))
        return ", ".join(f"{way} {start} > {end}" for start, end, way in ways if way is not None)


def links_of(plan: Plan) -> list[Link]:
    """The links that are up, by the numbers of their routers."""
    up = plan.draft.links_up
    pairs = {tuple(sorted(ends, key=plan.router_number)) for ends in up}
    ordered = sorted(pairs, key=lambda pair: [plan.router_number(name) for name in pair])
    return [Link(one, other, up.get((one, other)), up.get((other, one))) for one, other in ordered]


def topology_graphviz(plan: Plan, verdict: Verdict | None) -> str:
    """The text that Graphviz draws: routers as in the picture of the list, if one is given, joined
    by links with their weights and by sessions."""
    looks, links = Looks(plan, verdict), links_of(plan)
    mesh = _mesh(plan)
    title = [plan.source if verdict is None else f"{verdict.name} is {verdict_words(verdict)}"]
    title += [*with_lines(plan), *looks.key(plan.routers, _key(plan, links, mesh))]
    head = ['layout=neato; overlap=prism; sep="+6"; splines=true; start=7;']
    nodes = [looks.node(router) for router in plan.routers]
    return graph("graph", plan.source, title, [*head, *nodes, *_joins(plan, links, mesh)])


def _mesh(plan: Plan) -> set[tuple[str, str]]:
    """The sessions of a full mesh of the reflectors that is not drawn."""
    reflectors = reflectors_of(plan)
    mesh = {session(*pair) for pair in combinations(reflectors, 2)}
    whole = mesh <= {session(*pair) for pair in plan.sessions}
    return mesh if whole and len(reflectors) > _MESH_DRAWN else set()


def _key(plan: Plan, links: list[Link], mesh: set[tuple[str, str]]) -> Iterator[str]:
    yield "grey: links with their weights" if links else "the plan has no links"
    yield "blue: sessions"
    if mesh:
        yield f"the full mesh of {count_words(len(reflectors_of(plan)), 'reflector')} is not drawn"


def _joins(plan: Plan, links: list[Link], mesh: set[tuple[str, str]]) -> Iterator[str]:
    """A line for each link, double where there is a session too, and for each other session."""
    drawn = {session(*pair) for pair in plan.sessions} - mesh
    for link in links:
        both = session(link.one, link.other) in drawn
        color = f"{_LINK}:{_SESSION}" if both else _LINK
        given = {"label": label([link.words]), "color": quoted(color)}
        yield f"{quoted(link.one)} -- {quoted(link.other)} {attributes(given)}"
    linked = {session(link.one, link.other) for link in links}
    for one, other in (pair for pair in plan.sessions if session(*pair) in drawn - linked):
        given = {"color": quoted(_SESSION), "style": "dashed"}
        yield f"{quoted(one)} -- {quoted(other)} {attributes(given)}"
