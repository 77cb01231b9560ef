"""Reading and writing files, with failures in plain words."""

from __future__ import annotations

import os
import sys
from collections.abc import Iterable
from contextlib import suppress

from .errors import RrpError

#: A longer file is no plan, neither text nor bytes, and no table or verdict of one.
MOST_BYTES = 1 << 22


def read_file(path: str | os.PathLike[str], what: str = "plan") -> tuple[str, bytes]:
    """The name that errors give a file, and its content; standard input if the path is `-`. What
    the file is to be is named where it is too long for that."""
    name = os.fspath(path)
    if name == "-" and sys.stdin is None:
        raise RrpError("standard input is closed: give the plan there, or name its file")
    try:
        if name == "-":
            name, data = "standard input", sys.stdin.buffer.read(MOST_BYTES + 1)
        else:
            with open(name, "rb") as file:
                data = file.read(MOST_BYTES + 1)
    except (OSError, ValueError) as failure:
        raise RrpError(f"{name} cannot be read: {_reason(failure)}") from None
    if len(data) > MOST_BYTES:
        raise RrpError(f"{name} is no {what}: it has more than {MOST_BYTES:,} bytes")
    return name, data


def need_file(path: str) -> None:
    """Refuses what is there and no file, as a pipe, which may never end."""
    if os.path.exists(path) and not os.path.isfile(path):
        raise RrpError(f"{path} is no file")


def write_file(path: str, data: bytes) -> None:
    """Writes a file whole; to standard output if the path is `-`."""
    if path == "-":
        sys.stdout.buffer.write(data)
        return
    try:
        with open(path, "wb") as file:
            file.write(data)
    except (OSError, ValueError) as failure:
        raise RrpError(f"{path} cannot be written: {_reason(failure)}") from None


def keep_input(source: str, output: str, sheets: Iterable[str] = ()) -> None:
    """Refuses to write a file that is read, be it the plan or a sheet of it."""
    for each, what in [(source, "the plan"), *((sheet, "a sheet") for sheet in sheets)]:
        with suppress(OSError, ValueError):
            if "-" not in (each, output) and os.path.samefile(each, output):
                raise RrpError(f"{output} is {what} that is read: name another file to write")


def _reason(failure: Exception) -> str:
    return getattr(failure, "strerror", None) or str(failure)
