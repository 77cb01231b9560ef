"""How routers look in a picture, and how a picture is written for Graphviz."""

from __future__ import annotations

from collections import Counter
from collections.abc import Iterable, Mapping

from .plan import Plan, Verdict

#: The fills of the egresses that most routers settle on. The other egresses share one.
_FILLS = (
    "#a6cee3",
    "#b2df8a",
    "#fdbf6f",
    "#cab2d6",
    "#ffffa8",
    "#8dd3c7",
    "#fccde5",
    "#d7c4a0",
    "#b7c9f2",
    "#d5e8a0",
)
_OTHER_FILL = "#e4e4e4"

#: The fill of a listed router where the list is suspect, and of routers in groups.
_LISTED_FILL = "#cfe8cf"
_GROUP_FILL = "#fbdfd8"

_NO_ROUTE = "no route"

#: So long is a line of a key at most.
_COLUMNS = 80


class Looks:
    """How the routers of a plan look for a list, or for none."""

    def __init__(self, plan: Plan, verdict: Verdict | None = None) -> None:
        self.plan = plan
        self.listed = set(verdict.egresses) if verdict else set()
        self.cycle = set(verdict.cycle) if verdict else set()
        self.grouped = set(verdict.grouped) if verdict else set()
        self.table = verdict.table if verdict else None
        self.fills = self._egress_fills()

    def _egress_fills(self) -> dict[str, str]:
        """The fill of each egress, those that most routers settle on first."""
        routes = [] if self.table is None else [route for _, route in self.table.items()]
        settled = Counter(route.egress for route in routes if route is not None)
        order = sorted(settled, key=lambda name: (-settled[name], self.plan.router_number(name)))
        own = dict(zip(order, _FILLS))
        return {name: own.get(name, _OTHER_FILL) for name in order}

    def node(self, router: str, more: Iterable[str] = ()) -> str:
        """The node of a router, with more lines below its name."""
        step = self.plan.has_hop_step(router)
        lines = [router, *["hop step"] * step, *[_NO_ROUTE] * self.lacks_route(router), *more]
        reflector = self.plan.role(router) == "reflector"
        given = {"label": label(lines), "shape": "box" if reflector else "ellipse"}
        if step:
            given["peripheries"] = "2"
        return f"{quoted(router)} {attributes({**given, **self._paint(router)})}"

    def lacks_route(self, router: str) -> bool:
        """Whether a router of a stable list ends without a route."""
        return self.table is not None and self.table[router] is None

    def _paint(self, router: str) -> dict[str, str]:
        """The fill and the line around a router."""
        paint, styles = {}, []
        fill = self._fill(router)
        if fill is not None:
            styles.append("filled")
            paint["fillcolor"] = quoted(fill)
        if self.lacks_route(router):
            styles.append("dashed")
            paint |= {"color": "red", "fontcolor": "red"}
        if router in self.listed:
            paint["penwidth"] = "3"
        if router in self.cycle:
            paint |= {"color": "red", "fontcolor": "red", "penwidth": "2"}
        return {"style": quoted(",".join(styles)), **paint} if styles else paint

    def _fill(self, router: str) -> str | None:
        """By the egress that a router settles on; of a suspect list by group and listing."""
        if self.table is not None:
            route = self.table[router]
            return None if route is None else self.fills[route.egress]
        if router in self.grouped:
            return _GROUP_FILL
        return _LISTED_FILL if router in self.listed else None

    def key(self, shown: Iterable[str], more: Iterable[str] = ()) -> list[str]:
        """What the looks of some routers say, and before that more, in lines of some length."""
        shown, said = set(shown), list(more)
        if self.fills:
            said.append("filled alike: the same egress")
        if shown & self.listed:
            said.append("thick line: listed")
        if self.grouped:
            said.append("tinted: they rely on one another")
        if any(map(self.lacks_route, shown)):
            said.append("dashed: no route")
        lines: list[str] = []
        for each in said:
            joined = f"{lines[-1]}; {each}" if lines else each
            lines[-1:] = [joined] if len(joined) <= _COLUMNS else [*lines[-1:], each]
        return lines


def graph(kind: str, name: str, title: list[str], lines: Iterable[str]) -> str:
    """A picture: a title above, then its lines."""
    head = [
        f"label={label(title)}; labelloc=t; fontname=Helvetica;",
        "node [fontname=Helvetica]; edge [fontname=Helvetica, fontsize=10];",
    ]
    body = "".join(f"    {line}\n" for line in [*head, *lines])
    return f"{kind} {quoted(name)} {{\n{body}}}\n"


def attributes(given: Mapping[str, str]) -> str:
    """Attributes as Graphviz takes them, with the end of a statement."""
    return f"[{', '.join(f'{name}={value}' for name, value in given.items())}];"


def quoted(text: str) -> str:
    """A text as a name that Graphviz takes, whatever is in it."""
    escaped = text.replace("\\", "\\\\").replace('"', '\\"')
    return f'"{escaped}"'


def label(lines: list[str]) -> str:
    """Lines as a label that Graphviz shows as they are."""
    shown = [quoted(line.replace("&", "&amp;"))[1:-1] for line in lines]
    return '"' + "\\n".join(shown) + '"'
