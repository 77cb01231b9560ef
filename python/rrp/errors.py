"""What the tool says where it cannot answer.

Every failure that a user can cause is an `RrpError`. Its text is complete: what is wrong, where,
and what to do.
"""

from __future__ import annotations

import re
from collections.abc import Iterable, Sequence

#: So many names are given where none is near to the one asked for.
_FEW = 8

#: A longer word is cut in a message.
_MOST_LETTERS = 64
_LONG_WORD = re.compile(rf"\S{{{_MOST_LETTERS + 1},}}")


class RrpError(Exception):
    """A failure with a text for the user. The command prints it and ends with 2."""

    def report(self) -> str:
        """The text as the command prints it."""
        return f"rrp: {self}"

    def as_json(self) -> list[dict[str, object]]:
        """The failure as plain values, one for each thing that is wrong."""
        return [{"message": str(self)}]


class LibraryMissing(RrpError):
    """The shared library was not found, or lacks a call that is needed."""


class UnknownName(RrpError):
    """A router or a list was asked for that the plan does not have."""


def cut_names(text: str) -> str:
    """A message in which words of more than 64 letters are cut."""
    return _LONG_WORD.sub(lambda found: f"{found.group()[: _MOST_LETTERS - 2]}..", text)


def nearest(word: str, known: Iterable[str]) -> str | None:
    """The known name that is most like the word, capital letters aside; None if none is."""
    from difflib import get_close_matches

    names = {name.casefold(): name for name in known}
    found = get_close_matches(word.casefold(), list(names), n=1, cutoff=0.5)
    return names[found[0]] if found else None


def unknown(kind: str, word: str, known: Sequence[str], source: str) -> UnknownName:
    """The failure for a word that is no router's or no list's name."""
    near = nearest(word, known)
    names = ", ".join(known[:_FEW]) + (", .." if len(known) > _FEW else "")
    advice = f"its {kind}s are {names}" if near is None else f"did you mean {near}?"
    return UnknownName(f"{source} has no {cut_names(f'{kind} {word}: {advice}')}")
