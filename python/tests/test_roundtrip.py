"""Text to bytes and back, on plans of the second checker and on random ones.

RRP_PLANS names a folder that `second write` filled. Without it the bundled plans are taken.
"""

from __future__ import annotations

import glob
import os
import random
import tempfile
import unittest
from itertools import combinations

from rrp import Plan, encoding, library
from rrp.text.writing import write

from .support import EXAMPLES, STORED_PLANS, read, rrp


def folders() -> list[str]:
    """Where plans in bytes are, each with the verdict program's lines beside it."""
    return [os.environ["RRP_PLANS"]] if "RRP_PLANS" in os.environ else [STORED_PLANS]


def stored_plans() -> list[tuple[str, bytes]]:
    """The plans of the folders that are not refused, with their paths."""
    found = []
    for path in sorted(path for folder in folders() for path in glob.glob(f"{folder}/*.plan")):
        with open(path, "rb") as file:
            data = file.read()
        if library.refusal(data) == 0:
            found.append((path, data))
    return found


def random_model(draw: random.Random) -> encoding.Model:
    """A model whose bytes are a plan of either mark: any roles, identifiers and distances. Those of
    an RRP2 plan may fit into RRP1."""
    count, width = draw.choice([1, 2, 3, 5, 9, 16]), draw.choice([encoding.NARROW, encoding.WIDE])
    most = encoding.longest(draw.choice([encoding.NARROW, width]))
    pairs = list(combinations(range(count), 2))
    roles = [draw.choice([1, 2, 2, 2, 3, 4, 5]) for _ in range(count)]
    sessions = sorted(draw.sample(pairs, draw.randint(0, len(pairs))))
    return encoding.Model(
        roles=roles,
        identifiers=sorted(draw.sample(range(draw.choice([64, 2**25, 2**32])), count)),
        sessions=few_parents(sessions, roles),
        distances=[random_row(draw, router, count, most) for router in range(count)],
        lists=[random_list(draw, count) for _ in range(draw.randint(1, 4))],
        width=width,
    )


def few_parents(sessions: list[tuple[int, int]], roles: list[int]) -> list[tuple[int, int]]:
    """The sessions, but of those of a client with reflectors only the first four."""
    kept, parents = [], [0] * len(roles)
    for session in sessions:
        clients = [router for router in session if roles[router] == encoding.CLIENT]
        if len(clients) == 1:
            parents[clients[0]] += 1
        if len(clients) != 1 or parents[clients[0]] <= 4:
            kept.append(session)
    return kept


def random_row(draw: random.Random, router: int, count: int, most: int) -> list[int | None]:
    """The distances from a router: 0 to itself, to others anything up to the most, or no way."""
    choices = [None, 0, 65534, most, draw.randint(0, 30), draw.randint(0, most)]
    choices += [65535, 65536] if most > 65536 else []
    return [0 if other == router else draw.choice(choices) for other in range(count)]


def random_list(draw: random.Random, count: int) -> list[int]:
    """Some routers, or none."""
    return sorted(draw.sample(range(count), draw.randint(0, count)))


def places_of_nobody(model: encoding.Model) -> set[str]:
    """Where among the lists those of nobody are."""
    places = ["first", *["between"] * (len(model.lists) - 2), "last"]
    if len(model.lists) == 1:
        places = ["alone"]
    return {place for place, members in zip(places, model.lists) if not members}


def rough_text(model: encoding.Model, draw: random.Random) -> str:
    """A text of a model as no program would write it: odd names, lines in any order."""
    letters = "abcXYZ0189-._/:é"
    names = [f"{''.join(draw.choices(letters, k=draw.randint(0, 4)))}:{n}" for n in range(99)]
    draw.shuffle(names)
    lines = [rough_router(model, names, number, draw) for number in range(len(model.roles))]
    needed = encoding.width_for(model.distances) == encoding.WIDE
    if model.width == encoding.WIDE and (not needed or draw.random() < 0.5):
        lines.append("wide")
    for one, other in model.sessions:
        ends = draw.sample([names[one], names[other]], 2)
        lines.append(" ".join([draw.choice(["session", "mesh", " session\t"]), *ends]))
    for one, row in enumerate(model.distances):
        for other, way in enumerate(row):
            if way is not None and one != other:
                arrow = draw.choice([">", " > ", "\t>"])
                lines.append(f"distance {names[one]}{arrow}{names[other]} {way}")
    draw.shuffle(lines)
    for number, members in enumerate(model.lists):
        routers = [names[router] for router in draw.sample(members, len(members))]
        lines.append(" ".join(["list", f"list-{number}", *routers]))
    return draw.choice(["\n", "\r\n", " # more\n\n"]).join(lines)


def rough_router(
    model: encoding.Model, names: list[str], number: int, draw: random.Random
) -> str:
    """The statement of a router, its identifier as a number or as an address, the words after it in
    any order."""
    role, identifier = model.roles[number], model.identifiers[number]
    address = ".".join(map(str, identifier.to_bytes(4, "big")))
    skips, step = ["no-client-reflection"] * (role in (3, 5)), ["hop-step"] * (role in (4, 5))
    words = draw.sample([*skips, *step], len([*skips, *step]))
    kind = "client" if role == 2 else "reflector"
    return " ".join([kind, names[number], str(draw.choice([identifier, address])), *words])


def least_sums(count: int, links: dict[tuple[int, int], int]) -> list[list[int | None]]:
    """The least sums of weights, by trying every router on the way."""
    sums: list[list[int | None]] = [[links.get((u, e)) for e in range(count)] for u in range(count)]
    for router in range(count):
        sums[router][router] = 0
    for middle in range(count):
        for one in range(count):
            for other in range(count):
                parts, known = (sums[one][middle], sums[middle][other]), sums[one][other]
                if None not in parts and (known is None or sum(parts) < known):
                    sums[one][other] = sum(parts)
    return sums


class RoundTrip(unittest.TestCase):
    """The bytes after text and back are the bytes before."""

    def test_stored_plans(self) -> None:
        plans = stored_plans()
        self.assertGreater(len(plans), 4)
        for path, data in plans:
            self.assertEqual(Plan.parse(write(Plan.from_bytes(data))).data, data, path)

    def test_by_the_commands(self) -> None:
        with tempfile.TemporaryDirectory() as folder:
            text, packed = f"{folder}/text.rrp", f"{folder}/packed.plan"
            for path, data in stored_plans()[:20]:
                self.assertEqual(rrp("unpack", path, "-o", text), (0, "", ""))
                self.assertEqual(rrp("pack", text, "-o", packed).status, 0)
                with open(packed, "rb") as file:
                    self.assertEqual(file.read(), data, path)

    def test_verdicts_are_those_of_the_verdict_program(self) -> None:
        for path, data in stored_plans():
            plan = Plan.parse(write(Plan.from_bytes(data)))
            lines = [f"routers {len(plan.routers)} lists {len(plan.lists)}"]
            for number, verdict in enumerate(plan.verdicts()):
                cycle = [str(plan.router_number(name)) for name in verdict.cycle]
                words = ["suspect", str(len(cycle)), *cycle]
                if verdict.stable:
                    words = ["stable", str(verdict.highest)]
                lines.append(" ".join([str(number), *words]))
            self.assertEqual("".join(f"{line}\n" for line in lines), read(f"{path[:-5]}.expected"))

    def test_random_models(self) -> None:
        draw, kinds, nobody, roles = random.Random(4456), set(), set(), set()
        for number in range(300):
            model = random_model(draw)
            roles.update(model.roles)
            kinds.add((model.width, encoding.width_for(model.distances)))
            nobody |= places_of_nobody(model)
            data = encoding.encode(model)
            self.assertEqual(library.refusal(data), 0, number)
            self.assertEqual(data[:4], b"RRP1" if model.width == 2 else b"RRP2", number)
            self.assertEqual(encoding.decode(data), model, number)
            self.assertEqual(Plan.parse(write(Plan.from_bytes(data))).data, data, number)
            self.assertEqual(Plan.parse(rough_text(model, draw)).data, data, number)
        self.assertEqual(kinds, {(2, 2), (4, 2), (4, 4)})
        self.assertEqual(nobody, {"alone", "first", "between", "last"})
        self.assertEqual(roles, {1, 2, 3, 4, 5})

    def converts(self, plan: Plan, what: object) -> bool:
        """Whether a plan has one of the other mark. That is then the same in all else, and leads
        back to the same bytes."""
        there, back, other = Plan.widened, Plan.narrowed, encoding.WIDE
        if plan.width == encoding.WIDE:
            there, back, other = back, there, encoding.NARROW
        if encoding.width_for(plan.model.distances) > other:
            with self.assertRaisesRegex(library.Refused, "refused 14", msg=what):
                there(plan)
            return False
        converted = there(plan)
        due = encoding.encode(plan.model._replace(width=other))
        self.assertEqual(converted.data, due, what)
        self.assertEqual(converted.verdicts(), plan.verdicts(), what)
        self.assertEqual(back(converted).data, plan.data, what)
        return True

    def test_conversions_of_stored_plans(self) -> None:
        for path, data in stored_plans():
            plan = Plan.from_bytes(data)
            if self.converts(plan, path):
                self.assertTrue(self.converts(Plan.parse(write(plan)), path))

    def test_conversions_of_random_models(self) -> None:
        draw, found = random.Random(4456), set()
        for number in range(300):
            plan = Plan(encoding.encode(random_model(draw)))
            found.add((plan.mark, self.converts(plan, number)))
        self.assertEqual(found, {("RRP1", True), ("RRP2", True), ("RRP2", False)})

    def test_text_to_text(self) -> None:
        net = Plan.read(f"{EXAMPLES}/net.rrp")
        again = Plan.parse(write(net))
        self.assertEqual((again.routers, again.lists), (net.routers, net.lists))
        self.assertEqual(again.data, net.data)

    def test_random_links(self) -> None:
        draw = random.Random(4456)
        for number in range(100):
            count = draw.randint(1, 9)
            pairs = [(u, e) for u in range(count) for e in range(count) if u != e]
            chosen = draw.sample(pairs, draw.randint(0, len(pairs)))
            links = {pair: draw.choice([1, 2, 9, draw.randint(1, 7000)]) for pair in chosen}
            lines = [f"client c{router} {router}" for router in range(count)]
            lines += [f"link c{u} > c{e} {weight}" for (u, e), weight in links.items()]
            plan = Plan.parse("\n".join([*lines, "list l c0"]))
            self.assertEqual(plan.model.distances, least_sums(count, links), number)


if __name__ == "__main__":
    unittest.main()
