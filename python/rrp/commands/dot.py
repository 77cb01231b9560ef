"""`rrp dot PLAN LIST`: who relies on whom, as text for Graphviz. With --topology it is the links
and the sessions of the plan."""

from __future__ import annotations

import sys
from argparse import ArgumentParser, Namespace

from ..errors import RrpError
from ..inputs import add_plan, add_set, read_plan
from ..output import source_values, verdict_values, write_json, write_notes
from ..picture import Edge, edges, folded, graphviz, reflectors_graphviz, reflectors_of
from ..plan import Plan, Verdict
from ..topology import links_of, topology_graphviz

REFLECTORS_HELP = "draw the reflectors alone, each with how many clients it has"
TOPOLOGY_HELP = "draw links and sessions, for a list or for none"


def arguments(parser: ArgumentParser) -> None:
    """Adds what `dot` takes."""
    add_plan(parser)
    which = "a list, by name or number; --topology may be without it"
    parser.add_argument("list", metavar="LIST", nargs="?", help=which)
    kinds = parser.add_mutually_exclusive_group()
    kinds.add_argument("--reflectors", action="store_true", help=REFLECTORS_HELP)
    kinds.add_argument("--topology", action="store_true", help=TOPOLOGY_HELP)
    add_set(parser, "draw the plan with a change")
    parser.epilog = (
        "An arrow leads from a router to one that it relies on, and has the rule and the margin; "
        "of more than 20 routers only offers have labels, or those in the cycle if the list is "
        "suspect. "
        "Reflectors are boxes, double ones if they have the hop step; listed routers have a thick "
        "line. Of a stable list, routers that settle on the same egress are filled alike, those "
        "without a route are dashed, and the routers of a rank are in a row, rank 0 last. Of a "
        "suspect list, routers that rely on one another are tinted and the cycle is red. A "
        "topology has links with their weights, and sessions in blue. "
        "To draw it: rrp dot PLAN LIST | dot -Tsvg >PICTURE. "
        "Exit status: 0 written, be the list stable or suspect; 2 error."
    )


def run(options: Namespace) -> int:
    """Writes the text, or what it draws as JSON. Returns 0, whatever the verdict."""
    plan = read_plan(options)
    if options.list is None and not options.topology:
        raise RrpError(f"LIST is missing: name one of {', '.join(plan.lists)}; or add --topology")
    verdict = None if options.list is None else plan.verdict(options.list)
    if options.json:
        values = _topology_values(plan) if options.topology else {}
        values = values or _reliance_values(plan, verdict, options.reflectors)
        answer = {**source_values(plan), **_list_values(verdict), **values}
        write_json({**answer, "notes": plan.notes})
        return 0
    write_notes(plan.notes)
    draw = reflectors_graphviz if options.reflectors else graphviz
    sys.stdout.write((topology_graphviz if options.topology else draw)(plan, verdict))
    return 0


def _list_values(verdict: Verdict | None) -> dict[str, object]:
    return {} if verdict is None else {"list": verdict.name, **verdict_values(verdict)}


def _reliance_values(plan: Plan, verdict: Verdict, reflectors: bool) -> dict[str, object]:
    shown = reflectors_of(plan) if reflectors else plan.routers
    listed, routers = plan.egresses(verdict.name), []
    for router in shown:
        route = None if verdict.table is None else verdict.table[router]
        values = {
            **_router_values(plan, router),
            "listed": router in listed,
            "in_cycle": router in verdict.cycle,
            "in_group": router in verdict.grouped,
            "rank": verdict.ranks[router] if verdict.ranks else None,
            "egress": None if route is None else route.egress,
        }
        if reflectors:
            values["clients"] = folded(plan, verdict, router)._asdict()
        routers.append(values)
    found = [edge for edge in edges(plan, verdict) if {edge.router, edge.other} <= set(shown)]
    return {"routers": routers, "reliances": [_edge_values(edge) for edge in found]}


def _topology_values(plan: Plan) -> dict[str, object]:
    routers = [_router_values(plan, router) for router in plan.routers]
    links = [link._asdict() for link in links_of(plan)]
    return {"routers": routers, "links": links, "sessions": plan.sessions}


def _router_values(plan: Plan, router: str) -> dict[str, object]:
    step = plan.has_hop_step(router)
    return {"router": router, "role": plan.role(router), "hop_step": step}


def _edge_values(edge: Edge) -> dict[str, object]:
    return {
        "router": edge.router,
        "other": edge.other,
        "rule": edge.explanation.words,
        "offer": edge.explanation.offer,
        "own": edge.explanation.own,
        "margin": edge.explanation.margin,
        "in_cycle": edge.in_cycle,
        "in_group": edge.in_group,
    }
