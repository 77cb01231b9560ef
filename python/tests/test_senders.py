"""The note on senders: it names the routers that hear their egress from several reflectors."""

from __future__ import annotations

import json
import random
import unittest

from rrp import Plan, Route
from rrp.senders import heard_again
from rrp.tables import Table

from .networks import random_network
from .support import EXAMPLES, rrp


def advertised(plan: Plan, table: Table, reflector: str, router: str) -> str | None:
    """What an unlisted reflector advertises to a neighbour, by the rules of docs/MODEL.md."""
    route = table[reflector]
    if route is None or route.sender == router:
        return None
    to_client, from_client = plan.role(router) == "client", plan.role(route.sender) == "client"
    if from_client and to_client:
        return None if plan.skips_clients(reflector) else route.egress
    return route.egress if from_client or to_client else None


def senders(plan: Plan, name: str, table: Table, router: str) -> list[str]:
    """The reflectors that advertise to a router the egress that it settles on."""
    found = []
    for other in plan.neighbours(router):
        if plan.role(other) == "reflector" and other not in plan.egresses(name):
            if advertised(plan, table, other, router) == table[router].egress:
                found.append(other)
    return found


class Senders(unittest.TestCase):
    """Against the rules of advertising."""

    def test_random_networks(self) -> None:
        draw, several = random.Random(4456), 0
        for _ in range(60):
            plan = random_network(draw)
            for verdict in (each for each in plan.verdicts() if each.stable):
                again = heard_again(plan, verdict)
                for router, route in verdict.table.items():
                    apart = route is not None and route.sender != route.egress
                    heard = senders(plan, verdict.name, verdict.table, router) if apart else []
                    self.assertEqual(router in again, len(heard) > 1, (router, heard))
                several += bool(again)
        self.assertGreater(several, 10)

    def test_the_other_sender_has_the_same_egress(self) -> None:
        net = Plan.read(f"{EXAMPLES}/net.rrp")
        verdict = net.verdict("peering")
        self.assertEqual(heard_again(net, verdict), ("mrs-a",))
        self.assertEqual(verdict.table["mrs-a"], Route("lon-b", "lon-rr"))
        heard = senders(net, "peering", verdict.table, "mrs-a")
        self.assertEqual(heard, ["lon-rr", "par-rr"])

    def test_the_note_is_under_the_table(self) -> None:
        for words, who in (
            (["show", f"{EXAMPLES}/net.rrp", "peering"], ["mrs-a"]),
            (["show", f"{EXAMPLES}/net.rrp", "customer"], []),
            (["show", f"{EXAMPLES}/m3.plan", "1"], []),
        ):
            lines = rrp(*words).output.splitlines()
            note = " ".join(lines[-3:])
            self.assertTrue(note.startswith("note: heard from several reflectors, "))
            self.assertIn("CLUSTER_LIST (RFC 4456, section 9)", note)
            own = "if each reflector has a cluster identifier of its own."
            self.assertIn(f" the sender may differ, never the egress, {own} ", note)
            self.assertTrue(lines[-1].endswith(f" Here: {', '.join(who) or 'no router'}"), lines)
            values = json.loads(rrp(*words, "--json").output)
            self.assertEqual(values["sender_may_differ"], who)
            self.assertEqual(note, f"note: {values['sender_note']}")

    def test_a_suspect_list_has_no_table_and_no_note(self) -> None:
        self.assertNotIn("CLUSTER_LIST", rrp("show", f"{EXAMPLES}/net.rrp", "transit").output)


if __name__ == "__main__":
    unittest.main()
