"""Random plans that are like networks, and that have suspect lists often."""

from __future__ import annotations

import random
from itertools import combinations

from rrp import Plan, encoding
from rrp.tables import Route, Table


def random_network(
    draw: random.Random, nearest: int = 0, width: int = encoding.NARROW
) -> Plan:
    """A few reflectors in a mesh, each with some clients, and distances that are often equal: the
    nearest one given and up to 12 more. At times nobody is in a list. Of some plans a few
    reflectors have the hop step, or all."""
    reflectors = draw.randint(2, 4)
    count = reflectors + draw.randint(reflectors, 6)
    sessions = set(combinations(range(reflectors), 2))
    for client in range(reflectors, count):
        parents = draw.sample(range(reflectors), draw.choice([1, 1, 2]))
        sessions.update((parent, client) for parent in parents)
    clients = range(reflectors, count)
    sessions.update(pair for pair in combinations(clients, 2) if draw.random() < 0.1)
    model = encoding.Model(
        roles=_reflector_roles(draw, reflectors) + [encoding.CLIENT] * len(clients),
        identifiers=list(range(count)),
        sessions=sorted(sessions),
        distances=[
            [0 if u == e else _way(draw, nearest) for e in range(count)] for u in range(count)
        ],
        lists=[_members(draw, reflectors, clients) for _ in range(3)],
        width=width,
    )
    return Plan(encoding.encode(model))


def _reflector_roles(draw: random.Random, count: int) -> list[int]:
    stepping = draw.choice([0.0, 0.0, 0.3, 0.3, 1.0])
    kinds = [(draw.random() < 1 / 3, draw.random() < stepping) for _ in range(count)]
    return [encoding.REFLECTORS[kind] for kind in kinds]


def _way(draw: random.Random, nearest: int) -> int | None:
    return None if draw.random() < 0.05 else nearest + draw.randint(0, 12)


def _members(draw: random.Random, reflectors: int, clients: range) -> list[int]:
    if draw.random() < 0.08:
        return []
    listed = draw.sample(clients, draw.randint(1, len(clients)))
    return sorted(listed + draw.sample(range(reflectors), draw.choice([0, 0, 0, 1])))


def linked_text(draw: random.Random, regions: int, links: int, lists: int) -> str:
    """The text of a plan with a reflector and four clients in each region, each client with two
    reflectors; as many links, those that join all routers first; and as many lists."""
    names = [f"rr{region:02}" for region in range(regions)]
    lines = [f"reflector {name} 10.0.0.{place}" for place, name in enumerate(names, 1)]
    lines.append(" ".join(["mesh", *names]))
    clients, joined = [], {}
    for region, name in enumerate(names):
        other = names[(region + 1) % regions]
        joined.setdefault(frozenset((name, other)), draw.randint(20, 60))
        for place in range(4):
            clients.append(f"c{region:02}{place}")
            lines.append(f"client {clients[-1]} 10.0.{region + 1}.{place} of {name} {other}")
            joined[frozenset((name, clients[-1]))] = draw.randint(5, 20)
    while len(joined) < links:
        joined.setdefault(frozenset(draw.sample(names + clients, 2)), draw.randint(5, 60))
    lines += [f"link {' '.join(sorted(ends))} {weight}" for ends, weight in joined.items()]
    for number in range(lists):
        egresses = draw.sample(clients, draw.randint(2, 6))
        lines.append(" ".join(["list", f"list{number}", *egresses]))
    return "\n".join([*lines, ""])


def random_table(plan: Plan, egress_list: str, draw: random.Random) -> Table:
    """A table with left-over routes."""
    table, listed = plan.empty_table(egress_list), plan.egresses(egress_list)
    for router in plan.routers:
        neighbours = () if router in listed else plan.neighbours(router)
        if neighbours and draw.random() < 0.8:
            route = Route(draw.choice(plan.routers), draw.choice(neighbours))
            table = table.with_route(router, route)
    return table


def random_links(draw: random.Random, wide: bool = False) -> str:
    """The text of a small plan with links: two or three reflectors that are often nearer to one
    another's clients than to their own, a link or two one way, and at times a stated distance."""
    reflectors = [f"r{number}" for number in range(draw.randint(2, 3))]
    clients = [f"c{number}" for number in range(draw.randint(3, 5))]
    lines = [f"reflector {name} {number}" for number, name in enumerate(reflectors)]
    for number, name in enumerate(clients, 10):
        parents = draw.sample(reflectors, draw.choice([1, 1, 1, 2]))
        lines.append(f"client {name} {number} of {' '.join(parents)}")
    lines.append(f"mesh {' '.join(reflectors)}")
    for one, other in combinations([*reflectors, *clients], 2):
        if draw.random() < 0.5:
            way = draw.choice([" > ", " ", " ", " "])
            lines.append(f"link {one}{way}{other} {draw.randint(1, 9)}")
    if draw.random() < 0.3:
        one, other = draw.choice(reflectors), draw.choice(clients)
        lines.append(f"distance {one} > {other} {draw.choice(['none', 2, 5, 9])}")
    for number in range(3):
        lines.append(f"list l{number} {' '.join(draw.sample(clients, draw.randint(2, 3)))}")
    return "\n".join([*lines, *["wide"] * wide, ""])


def site_network(sites: int, clients: int) -> str:
    """The text of a plan of sites in a ring, with two reflectors each that share its clients. Each
    reflector is nearer to the next site's first client than to its own, so that the list `round` of
    all of these is suspect, and `some`, without the last site's, is stable."""
    reflectors = [f"s{site}-r{number}" for site in range(sites) for number in (1, 2)]
    lines = [f"reflector {name} {number}" for number, name in enumerate(reflectors)]
    lines.append(f"mesh {' '.join(reflectors)}")
    for site in range(sites):
        pair = f"s{site}-r1", f"s{site}-r2"
        names = [f"s{site}-c{number}" for number in range(clients)]
        for number, name in enumerate(names):
            lines.append(f"client {name} {100 * (site + 1) + number} of {' '.join(pair)}")
            lines += [f"link {reflector} {name} {10 + number}" for reflector in pair]
        lines += [f"link {reflector} s{(site + 1) % sites}-c0 6" for reflector in pair]
    first = [f"s{site}-c0" for site in range(sites)]
    return "\n".join([*lines, f"list round {' '.join(first)}", f"list some {' '.join(first[:-1])}"])
