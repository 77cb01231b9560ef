"""docs/CALLS.md, the header and the tool tell the same of the calls: the same functions, the same
refusals in the same words, the same rules and reasons."""

from __future__ import annotations

import re
import unittest

from rrp import library

from .support import ROOT, read

PAGE = read(f"{ROOT}/docs/CALLS.md")
HEADER = read(f"{ROOT}/include/rrp.h")

#: The orders of the checks, of a plan and of a sheet of links.
ORDERS = ([1, 2, 3, 4, 5, 13, 6, 7, 14, 8, 15, 9, 10], [2, 11, 12, 9])


def rows(section: str) -> list[tuple[str, str, str]]:
    """The rows of the tables of a section that have a number and a name of the header. A sentence
    may go on in a row without them."""
    text = re.search(rf"^## {section}\n(.*?)(?=^## |\Z)", PAGE, re.M | re.S)[1]
    text = text.replace(" |\n| | | ", " ")
    return re.findall(r"^\| (\d+) \| `(RRP_\w+)` \| (.*) \|$", text, re.M)


def members(enum: str) -> list[tuple[str, str, str]]:
    """The members of an enum of the header: number, name, and the comment before it."""
    body = re.search(rf"enum {enum} \{{(.*?)\}};", HEADER, re.S)[1]
    member = r"(?:/\*((?:(?!\*/).)*)\*/\s*)?(RRP_\w+) = (\d+)"
    found = re.findall(member, body, re.S)
    return [(number, name, words(comment)) for comment, name, number in found]


def words(comment: str) -> str:
    """A comment of the header on one line."""
    return " ".join(re.sub(r"^\s*\* ", "", comment, flags=re.M).split())


def sections() -> dict[str, list[int]]:
    """The refusals of each call by the page, in their order, by the call's name in C."""
    call = r"in C `(rrp_\w+)`\.\n.*?^- \*\*Refusals\*\*: ([\d, ]+)\."
    found = re.findall(call, PAGE, re.M | re.S)
    return {name: [int(number) for number in numbers.split(",")] for name, numbers in found}


def refusals(name: str) -> set[int]:
    """The refusals of a call by the last sentence on them in its comment in the header."""
    comments = re.findall(rf"/\*((?:(?!\*/).)*)\*/\s*uint8_t {name}\(", HEADER, re.S)
    said = re.findall(r"Refusals ([\d, a-z]+)", words(comments[0]))[-1]
    found = set()
    for first, last in re.findall(r"(\d+)(?: to (\d+))?", said):
        found.update(range(int(first), int(last or first) + 1))
    return found


class Refusals(unittest.TestCase):
    """The table of refusals."""

    def test_every_number_has_a_row(self) -> None:
        self.assertEqual([int(number) for number, _, _ in rows("Refusals")], list(range(1, 16)))

    def test_the_header_has_the_sentences(self) -> None:
        none = ("0", "RRP_OK", "not refused")
        self.assertEqual(members("rrp_refusal"), [none, *rows("Refusals")])

    def test_the_tool_has_the_sentences(self) -> None:
        told = {int(number): sentence for number, _, sentence in rows("Refusals")}
        self.assertEqual(library.REFUSALS, told)


class Calls(unittest.TestCase):
    """The sections of the calls."""

    def test_every_function_has_a_section(self) -> None:
        declared = re.findall(r"^uint8_t (rrp_\w+)\(", HEADER, re.M)
        self.assertEqual(sorted(sections()), sorted(declared))
        self.assertGreaterEqual(len(declared), 15)

    def test_the_overview_has_every_section(self) -> None:
        overview = PAGE.split("\n## ", 1)[0]
        named = re.findall(r"\[`(\w+)`\]\(#(\w+)\)", overview)
        self.assertTrue(all(name == anchor for name, anchor in named))
        _, _, *headings = re.findall(r"^## (.+)$", PAGE, re.M)
        self.assertEqual([name for name, _ in named], headings)

    def test_the_header_has_the_refusals(self) -> None:
        for name, numbers in sections().items():
            self.assertEqual(refusals(name), set(numbers), name)

    def test_the_order_of_the_checks(self) -> None:
        plan, sheet = (", ".join(map(str, order)) for order in ORDERS)
        stated = " ".join(PAGE.split())
        self.assertIn(f"on a plan {plan}; on a sheet of links {sheet}.", stated)
        self.assertIn(f"for a plan, {plan}; for a link sheet, {sheet}.", words(HEADER))
        for name, numbers in sections().items():
            order = ORDERS[1] if name == "rrp_distances" else ORDERS[0]
            self.assertEqual(numbers, [number for number in order if number in numbers], name)

    def test_flags(self) -> None:
        sentence = "A flag handed in counts as yes if it is not 0."
        for text in (PAGE, words(HEADER), read(f"{ROOT}/docs/EMBEDDING.md")):
            self.assertEqual(" ".join(text.split()).count(sentence), 1)

    def test_rules_and_reasons(self) -> None:
        told = [(number, name) for number, name, _ in rows("explain")]
        known = [*members("rrp_rule"), *members("rrp_reason")]
        self.assertEqual(told, [(number, name) for number, name, _ in known])
        self.assertGreaterEqual(len(told), 12)


if __name__ == "__main__":
    unittest.main()
