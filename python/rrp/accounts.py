"""Why a router relies on another, or does not, as a sentence with the routes, distances and margin
that decide it.

The rule or the reason, the best clients and the margins are the library's answers. They are put
into words here.
"""

from __future__ import annotations

from typing import NamedTuple

from .plan import Explanation, Plan, Which

#: What is said where the hop step decided, and not the distances.
_STEP = (
    "by its hop step, a route told by its own egress router goes before one passed on, "
    "whatever the distances"
)


class Account(NamedTuple):
    """An explanation with all that was compared.

    `offer` is the egress that counts for the other router: what it offers, or itself if it is a
    client. `own` is the best client of the router. Both have the router's distance beside them, and
    `margin` is the first distance minus the second. What the explanation does not turn on is None;
    a distance is also None where there is no way. `reason` has all that in words. `nobody` says
    whether nobody is in the list.

    `direct` says whether the egress router of the offer itself tells its route, as the own best
    client always does; else the other router passes it on. `by_step` says whether the hop step of
    the router decided, so that distances and margin did not.
    """

    router: str
    other: str
    explanation: Explanation
    offer: str | None = None
    offer_distance: int | None = None
    own: str | None = None
    own_distance: int | None = None
    margin: int | None = None
    reason: str = ""
    nobody: bool = False
    direct: bool | None = None
    by_step: bool = False

    @property
    def relies(self) -> bool:
        """Whether the router relies on the other."""
        return self.explanation.relies

    @property
    def claim(self) -> str:
        """Whether the router relies on the other, with the rule or the reason by its name."""
        verb = "relies" if self.relies else "does not rely"
        other = "itself" if self.router == self.other else self.other
        return f"{self.router} {verb} on {other} ({self.explanation.words})"

    @property
    def lines(self) -> list[str]:
        """What the claim turns on and, if the hop step decided, what that is."""
        return [self.reason, *[_STEP] * self.by_step]

    @property
    def sentence(self) -> str:
        """The claim and what it turns on."""
        return f"{self.claim}: {'; '.join(self.lines)}"

    def values(self) -> dict[str, object]:
        """The account as plain values."""
        return {
            "router": self.router,
            "other": self.other,
            "relies": self.relies,
            "rule" if self.relies else "reason": self.explanation.words,
            "code": self.explanation.code,
            "offer": _route_values(self.offer, self.offer_distance, self.direct),
            "own": _route_values(self.own, self.own_distance, True),
            "margin": self.margin,
            "by_step": self.by_step,
            "sentence": self.sentence,
        }


def _route_values(
    egress: str | None, distance: int | None, direct: bool | None
) -> dict[str, object] | None:
    return None if egress is None else {"egress": egress, "distance": distance, "direct": direct}


def account(plan: Plan, egress_list: Which, router: Which, other: Which) -> Account:
    """Why a router relies on another for a list, or does not."""
    first, second = (plan.routers[plan.router_number(which)] for which in (router, other))
    explanation = plan.explain(egress_list, first, second)
    offer, own = _routes(plan, egress_list, first, second, explanation)
    found = Account(
        router=first,
        other=second,
        explanation=explanation,
        offer=offer,
        offer_distance=None if offer is None else plan.distance(first, offer),
        own=own,
        own_distance=None if own is None else plan.distance(first, own),
        nobody=not plan.egresses(egress_list),
        direct=None if offer is None else offer == second,
    )
    if offer is not None and own is not None:
        found = _compared(plan, found)
    return found._replace(reason=_REASONS[explanation.words](found))


def _compared(plan: Plan, found: Account) -> Account:
    """The account with the margin of the offer, and whether the hop step decides: it puts a route
    that is passed on behind that of the own best client, unless both are of one egress."""
    routes = found.router, found.offer, found.own
    margin = plan.compare(*routes, found.direct, True).margin
    passed_on = found.offer != found.own and not found.direct
    return found._replace(margin=margin, by_step=passed_on and plan.has_hop_step(found.router))


def _routes(
    plan: Plan, egress_list: Which, router: str, other: str, explanation: Explanation
) -> tuple[str | None, str | None]:
    """The egresses that an explanation turns on: the other router's, and the own best client."""
    words = explanation.words
    if words == "better offer":
        return explanation.offer, explanation.own
    if words == "no way to the offer":
        return offered_by(plan, egress_list, other), None
    if words == "offer not better":
        return offered_by(plan, egress_list, other), best_client(plan, egress_list, router)
    if words == "a client that is not the best one" and plan.distance(router, other) is not None:
        return other, best_client(plan, egress_list, router)
    if words in ("own best client", "peer client", "a client that is not the best one"):
        return other, None
    return None, None


def offered_by(plan: Plan, egress_list: Which, reflector: str) -> str | None:
    """What a reflector offers: itself if it is in the list, else its best client."""
    if reflector in plan.egresses(egress_list):
        return reflector
    return best_client(plan, egress_list, reflector)


def best_client(plan: Plan, egress_list: Which, reflector: str) -> str | None:
    """The best client of an unlisted reflector: the one that it relies on as such."""
    for other in plan.routers:
        explanation = plan.explain(egress_list, reflector, other)
        if explanation.relies and explanation.words == "own best client":
            return other
    return None


def _parent(found: Account) -> str:
    return f"it is a client that has a session with the reflector {found.other}"


def _peer_client(found: Account) -> str:
    session = f"it is a client that has a session with the listed client {found.other}"
    if found.offer_distance is None:
        return f"{session}, to which it has no way"
    return f"{session}, at distance {found.offer_distance}"


def _own_best_client(found: Account) -> str:
    return f"{found.other} is its best client in the list, at distance {found.offer_distance}"


def _better_offer(found: Account) -> str:
    offer = f"it is offered {found.offer} at distance {found.offer_distance}"
    if found.own is None:
        return f"{offer}, and has no best client of its own"
    own = f"its own best client {found.own} at {found.own_distance}"
    if found.margin == 0:
        return f"{offer}, as far as {own}, and {found.offer} has the lower identifier (margin 0)"
    return f"{offer}, nearer than {own} (margin {found.margin})"


def _same_router(found: Account) -> str:
    return "no router does"


def _not_neighbours(found: Account) -> str:
    return "they have no session"


def _first_listed(found: Account) -> str:
    return f"{found.router} is in the list, and holds its own route"


def _unlisted_client(found: Account) -> str:
    return f"{found.other} is a client that is not in the list, and advertises nothing"


def _not_the_best(found: Account) -> str:
    if found.offer_distance is None:
        return f"it has no way to {found.other}"
    best = f"its best client is {found.own} at distance {found.own_distance}"
    if found.margin == 0:
        return f"{best}, and {found.other} is as far and has the higher identifier (margin 0)"
    far = f"{found.other} is farther, at {found.offer_distance}"
    return f"{best}, and {far} (margin {found.margin})"


def _no_offer(found: Account) -> str:
    if found.nobody:
        return f"{found.other} offers nothing: nobody is in the list"
    neither = "neither it nor a client that it has a way to is in the list"
    return f"{found.other} offers nothing: {neither}"


def _no_way_to_the_offer(found: Account) -> str:
    return f"{found.other} offers {found.offer}, to which {found.router} has no way"


def _offer_not_better(found: Account) -> str:
    offer = f"it is offered {found.offer} at distance {found.offer_distance}"
    if found.offer == found.own:
        return f"{offer}, which is its own best client too (margin 0)"
    own = f"its own best client {found.own} at {found.own_distance}"
    if found.by_step:
        return f"{offer}, passed on, so not better here than {own} (margin {found.margin})"
    if found.margin == 0:
        return f"{offer}, as far as {own}, which has the lower identifier (margin 0)"
    return f"{offer}, farther than {own} (margin {found.margin})"


#: The words for each rule and each reason.
_REASONS = {
    "parent": _parent,
    "peer client": _peer_client,
    "own best client": _own_best_client,
    "better offer": _better_offer,
    "same router": _same_router,
    "not neighbours": _not_neighbours,
    "first router listed": _first_listed,
    "second an unlisted client": _unlisted_client,
    "a client that is not the best one": _not_the_best,
    "no offer": _no_offer,
    "no way to the offer": _no_way_to_the_offer,
    "offer not better": _offer_not_better,
}
