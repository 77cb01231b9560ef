"""Verdicts filed beside their plans, in a file that has the plan's name with `.verdict` added. What
they say is in `verdict_files`.

The verdict of a text plan is that of the bytes that it packs into.
"""

from __future__ import annotations

from contextlib import suppress
from typing import NamedTuple

from . import encoding
from .errors import RrpError
from .files import read_file
from .plan import Plan
from .text import decode_text, is_json
from .text.assembly import assemble
from .text.plain import plain_draft
from .text.statements import FORMS
from .verdict_differences import Names

#: What is added to the name of a plan's file.
SUFFIX = ".verdict"


class Packed(NamedTuple):
    """The bytes whose verdict is filed for a plan's file, and the names that its text has."""

    data: bytes
    names: Names = Names()


def verdict_path(plan: str) -> str:
    """The file that a plan's verdict is filed in."""
    return plan + SUFFIX


def packed(data: bytes, name: str) -> Packed:
    """The bytes whose verdict is filed for a plan's file: its content, or what its text packs into.

    Content that is not meant as a plan, as that of an empty or a damaged file, is taken for bytes:
    that they are refused is their verdict.
    """
    if encoding.is_bytes(data) or not is_meant(data):
        return Packed(data)
    plan = _parsed(decode_text(data, name), name)
    return Packed(plan.data, Names(plan.routers, plan.lists))


def _parsed(text: str, name: str) -> Plan:
    """The plan of a text. One with nothing wrong is read quickly, and what is wrong with another
    is found by reading it with the place of each word."""
    draft = plain_draft(text, name)
    if draft is not None:
        with suppress(RrpError):
            return assemble(draft)
    return Plan.parse(text, name)


def is_meant(data: bytes) -> bool:
    """Whether content is meant as a plan: it starts as bytes or as JSON do, or has a statement."""
    if encoding.is_bytes(data):
        return True
    text = data.decode("utf-8-sig", "replace")
    return is_json(text) or _has_statement(text)


def _has_statement(text: str) -> bool:
    """Whether some line starts as a statement does."""
    lines = text.split("\n")
    return any(word in FORMS for line in lines for word in line.split(maxsplit=1)[:1])


def read_verdict(path: str) -> str:
    """The text that is filed. Of a byte that no verdict has, the number is shown."""
    return read_file(path, "verdict")[1].decode("ascii", "backslashreplace")
