"""What a lab calls its routers, and the addresses that it uses.

All addresses are of the ranges that RFC 5737 keeps for documentation, and exist in the lab's own
network namespace alone. Session addresses rise with the routers' numbers: a BGP daemon decides by
them last, so that it does as the model, which takes the lowest number.
"""

from __future__ import annotations

import re

from ..plan import Plan

#: The prefix whose egress routers the list names, and the network's autonomous system.
PREFIX = "203.0.113.0/24"
AUTONOMOUS_SYSTEM = 64512

#: The ranges of session addresses and of next-hop addresses, without the last byte, which is a
#: router's number and one.
SESSIONS, _NEXT_HOPS = "192.0.2", "198.51.100"

#: A longer name is cut. BIRD takes symbols of up to 64 letters.
_MOST_LETTERS = 40


def session_address(number: int) -> str:
    """The address that a router has its sessions from."""
    return f"{SESSIONS}.{number + 1}"


def next_hop(number: int) -> str:
    """The next hop of the routes that leave the network at a router. No daemon owns it: the IGP
    table of each router has the distance to it."""
    return f"{_NEXT_HOPS}.{number + 1}"


def number_at(address: str) -> int | None:
    """The number of the router whose session address or next hop this is, None if it is neither."""
    range_, _, last = address.rpartition(".")
    known = range_ in (SESSIONS, _NEXT_HOPS) and last.isdigit()
    return int(last) - 1 if known else None


def router_id(plan: Plan, number: int) -> str:
    """The identifier of a router, as an IPv4 address. BGP has no identifier 0: where the plan has
    one, all routers are given their numbers from 1, which are in the same order."""
    stated = plan.model.identifiers
    value = number + 1 if 0 in stated else stated[number]
    return ".".join(str(byte) for byte in value.to_bytes(4, "big"))


def labels(plan: Plan) -> tuple[str, ...]:
    """What the routers are called in the names of files and protocols, by number: their names with
    `_` for whatever is no ASCII letter or digit. Where two would be called alike, or one not at
    all, all have their numbers too."""
    plain = [re.sub("[^A-Za-z0-9]+", "_", name).strip("_") for name in plan.routers]
    short = [label[:_MOST_LETTERS] for label in plain]
    if "" in short or len({label.lower() for label in short}) < len(short):
        return tuple(f"r{number}_{label}".rstrip("_") for number, label in enumerate(short))
    return tuple(short)


def one_line(text: str) -> str:
    """A text that may stand in a comment, whatever it has in it."""
    return " ".join("".join(letter if letter.isprintable() else " " for letter in text).split())


def title(plan: Plan, egress_list: str, router: str) -> str:
    """What the configuration of a router is of, for a comment."""
    skips = " without reflection between its clients" if plan.skips_clients(router) else ""
    where = f"list {egress_list} of {one_line(plan.source)}"
    return f"{router}, a {plan.role(router)}{skips}: {where}, for the prefix {PREFIX}"


def identifier_words(plan: Plan) -> str:
    """Where router ids are from, for a comment."""
    if 0 in plan.model.identifiers:
        return "by its number, as the plan has an identifier 0, which BGP does not have"
    return "its identifier in the plan"
