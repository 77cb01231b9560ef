"""The text of a file."""

from __future__ import annotations

from .problems import Problem, TextErrors
from .words import Line, Word

_A_PLAN = "a plan is text in UTF-8, or bytes that start with RRP1 or RRP2"


def decode_text(data: bytes, filename: str, advice: str = _A_PLAN, sheet: bool = False) -> str:
    """The text of a file, which is UTF-8; what to do if it is not."""
    try:
        return data.decode("utf-8-sig")
    except UnicodeDecodeError as failure:
        before = data[: failure.start].decode("utf-8-sig", "replace")
        rest = data[failure.start :].split(b"\n", 1)[0].decode("utf-8", "replace")
        number, start = before.count("\n") + 1, before.rpartition("\n")[2]
        word = Word("?", Line(filename, number, start + rest, sheet), len(start) + 1)
        raise TextErrors([Problem(word, "here the file is no text", advice)]) from None
