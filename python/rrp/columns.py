"""How wide a text is on a terminal, so that columns line up whatever letters names have; and lines
that are cut where they get too wide."""

from __future__ import annotations

from collections.abc import Iterable, Iterator, Sequence

#: So wide are tables side by side, and lines that are cut at blanks. No name is broken.
COLUMNS = 110
_WHOLE = {"break_long_words": False, "break_on_hyphens": False}

#: What stands for a blank at which no line is cut. No name has it.
_NO_BLANK = "\0"

#: Letters of these categories take no column of their own: accents and marks on the one before.
_MARKS = ("Mn", "Me", "Cf")


def width(text: str) -> int:
    """How many columns a terminal takes for a text."""
    if text.isascii():
        return len(text)
    from unicodedata import category, east_asian_width

    letters = (letter for letter in text if category(letter) not in _MARKS)
    return sum(2 if east_asian_width(letter) in "FW" else 1 for letter in letters)


def widest(texts: Iterable[str]) -> int:
    """How many columns the widest of some texts takes."""
    return max(map(width, texts))


def left(text: str, columns: int) -> str:
    """A text with blanks after it, up to so many columns."""
    return text + " " * (columns - width(text))


def right(text: str, columns: int) -> str:
    """A text with blanks before it, up to so many columns."""
    return " " * (columns - width(text)) + text


def row_lines(rows: Sequence[Sequence[str]]) -> Iterator[str]:
    """Rows in columns, a line each. The last column is as wide as it is."""
    *columns, _ = zip(*rows)
    widths = [widest(column) for column in columns]
    for *cells, last in rows:
        yield "  ".join([*map(left, cells, widths), last])


def wrapped(start: str, items: Iterable[str]) -> list[str]:
    """Items with commas between them, after some words. Lines are cut between items, and go on
    below the first item or, if that starts late, indented."""
    from textwrap import wrap

    text = start + ", ".join(item.replace(" ", _NO_BLANK) for item in items)
    indent = " " * (width(start) if width(start) < COLUMNS // 2 else 4)
    lines = wrap(text, COLUMNS, subsequent_indent=indent, **_WHOLE)
    return [line.replace(_NO_BLANK, " ") for line in lines]
