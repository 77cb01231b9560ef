"""Plans as text: one statement a line. docs/TEXT-PLANS.md has the grammar."""

from __future__ import annotations

from .decoding import decode_text
from .draft import Draft
from .gathering import Gathering
from .problems import Problem, TextErrors
from .statements import FORMS, SheetStatement, Statement, read_statement
from .words import Word, end_of, lines_of, words_of

__all__ = ["Draft", "TextErrors", "decode_text", "is_json", "parse"]


def is_json(text: str) -> bool:
    """Whether a text is meant as a plan in JSON: no statement starts with a brace."""
    return text.lstrip().startswith("{")


def parse(text: str, filename: str = "plan") -> Draft:
    """The draft of a plan's text, or of a plan in JSON. `TextErrors` has all problems of its
    statements."""
    if is_json(text):
        from .json_plans import parse_json

        return parse_json(text, filename)
    problems: list[Problem] = []
    statements: list[Statement] = []
    kinds = set()
    for line in lines_of(text, filename):
        words = words_of(line)
        if words:
            kinds.add(words[0].text)
            statement = read_statement(words, problems)
            if statement is not None:
                statements.append(statement)
    draft = Draft(filename)
    Gathering(draft, problems).gather(_with_sheets(statements, problems))
    problems += _missing(kinds, end_of(text, filename))
    if problems:
        raise TextErrors(problems)
    return draft


def _with_sheets(statements: list[Statement], problems: list[Problem]) -> list[Statement]:
    """The statements, with those of each sheet in place of the one that names it."""
    found: list[Statement] = []
    for statement in statements:
        if isinstance(statement, SheetStatement):
            from .sheets import read_sheet

            found += read_sheet(statement, problems)
        else:
            found.append(statement)
    return found


def _missing(kinds: set[str], end: Word) -> list[Problem]:
    """A plan has routers and lists. Not asked for where a statement's first word is misspelt."""
    problems = []
    if not kinds <= set(FORMS):
        return problems
    if not kinds & {"reflector", "client"}:
        advice = "add its routers, as: reflector lon-rr 10.0.0.1"
        problems.append(Problem(end, "the plan has no router", advice))
    if "list" not in kinds:
        advice = "add a list of egress routers, as: list transit lon-a par-a"
        problems.append(Problem(end, "the plan has no list", advice))
    return problems
