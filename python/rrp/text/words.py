"""The lines and words of a text plan, each with its place."""

from __future__ import annotations

import re
from collections.abc import Iterator
from typing import NamedTuple

#: A word has no white space, `#` or `>` in it; a `>` is a word by itself.
_WORD = re.compile(r"[^\s#>]+|>")


class Line(NamedTuple):
    """A line of a file, numbered from 1. A sheet is a file that a plan's text names."""

    file: str
    number: int
    text: str
    sheet: bool = False

    @property
    def place(self) -> str:
        """Where the line is, for who reads the plan's text."""
        return f"{self.file}, line {self.number}" if self.sheet else f"line {self.number}"


class Word(NamedTuple):
    """A word of a line, and the column from 1 at which it starts."""

    text: str
    line: Line
    column: int


def lines_of(text: str, file: str, sheet: bool = False) -> Iterator[Line]:
    """The lines of a text, which may be that of a sheet."""
    for number, line in enumerate(text.split("\n"), 1):
        yield Line(file, number, line.rstrip("\r"), sheet)


def words_of(line: Line) -> list[Word]:
    """The words of a line, up to a `#`, which starts a comment."""
    content = line.text.split("#", 1)[0]
    return [Word(found.group(), line, found.start() + 1) for found in _WORD.finditer(content)]


def after(word: Word) -> Word:
    """The place where the next word would be."""
    return Word("", word.line, word.column + len(word.text) + 1)


def end_of(text: str, file: str) -> Word:
    """The place after the last line that has something on it."""
    lines = [line for line in lines_of(text, file) if line.text.strip()]
    last = lines[-1] if lines else Line(file, 1, "")
    return Word("", last, len(last.text) + 1)
