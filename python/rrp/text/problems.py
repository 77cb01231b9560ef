"""What is wrong with a text: each problem at its place, shown with the line and a mark."""

from __future__ import annotations

from collections.abc import Iterable, Sequence
from typing import NamedTuple

from ..columns import width
from ..errors import RrpError, cut_names, nearest
from .words import Word

#: So many problems are shown. A file that is no plan has one on every line.
MOST_SHOWN = 20

#: After so many problems no more guesses are made at what was meant, which take time.
_MOST_GUESSED = 200

#: So many columns of a line are shown, of which so many are before the mark.
_COLUMNS = 100
_BEFORE = 60


class Problem(NamedTuple):
    """What is wrong at a word, and what to do, in a line or more."""

    word: Word
    message: str
    advice: str

    def report(self) -> str:
        """The place and the message, the line with a mark under the word, the advice."""
        line = self.word.line
        shown, start = _window(line.text, self.word.column - 1)
        before, under = width(shown[:start]), width(shown[start:][: len(self.word.text)])
        place = f"{line.file}:{line.number}:{self.word.column}"
        mark = " " * before + "^" * max(1, under)
        below = [shown, mark, *cut_names(self.advice).split("\n")]
        said = f"{place}: {cut_names(self.message)}"
        return "\n".join([said, *(f"    {each}".rstrip() for each in below)])


class Slip(Exception):
    """Ends the reading of a statement that has a problem."""

    def __init__(self, word: Word, message: str, advice: str) -> None:
        super().__init__(message)
        self.problem = Problem(word, message, advice)


class TextErrors(RrpError):
    """All problems of a text, in the order of their places; after them those of its sheets."""

    def __init__(self, problems: Sequence[Problem]) -> None:
        files = list(dict.fromkeys(each.word.line.file for each in problems))

        def place(each: Problem) -> tuple[bool, int, int, int]:
            """Where a problem is."""
            line = each.word.line
            return line.sheet, files.index(line.file), line.number, each.word.column

        self.problems = sorted(problems, key=place)
        super().__init__(self.problems)

    def __str__(self) -> str:
        return self.report()

    def report(self) -> str:
        """The problems as the command prints them."""
        shown = [problem.report() for problem in self.problems[:MOST_SHOWN]]
        count = len(self.problems)
        if count > MOST_SHOWN:
            shown.append(f"rrp: {count} errors, of which the first {MOST_SHOWN} are shown")
        elif count > 1:
            shown.append(f"rrp: {count} errors")
        return "\n".join(shown)

    def as_json(self) -> list[dict[str, object]]:
        """The problems as plain values."""
        return [_values(problem) for problem in self.problems]


def first_problem(failure: RrpError) -> str | None:
    """That a plan's text has errors, and the first of them, in one line. None where that is not
    what failed."""
    if not isinstance(failure, TextErrors):
        return None
    count, first = len(failure.problems), failure.problems[0]
    errors = "1 error" if count == 1 else f"{count} errors"
    where = f"{first.word.line.place}: {cut_names(first.message)}"
    return f"the plan's text has {errors}, as in {where}"


def _values(problem: Problem) -> dict[str, object]:
    word = problem.word
    return {
        "file": word.line.file,
        "line": word.line.number,
        "column": word.column,
        "text": word.line.text,
        "message": cut_names(problem.message),
        "advice": cut_names(problem.advice.replace("\n", " ")),
    }


def guess(word: str, known: Iterable[str], problems: Sequence[Problem]) -> str | None:
    """The known word that may be meant by one that is not known."""
    return nearest(word, known) if len(problems) < _MOST_GUESSED else None


def printable(text: str) -> str:
    """A text with a blank for each tab and a `?` for what cannot be printed."""
    return "".join(letter if letter.isprintable() else "?" for letter in text.replace("\t", " "))


def _window(text: str, start: int) -> tuple[str, int]:
    """The part of a line that is shown, and where in it the mark starts."""
    cut = max(0, start - _BEFORE) if len(text) > _COLUMNS else 0
    shown = printable(text[cut : cut + _COLUMNS]).rstrip().ljust(start - cut)
    return (f"..{shown[2:]}" if cut else shown), start - cut
