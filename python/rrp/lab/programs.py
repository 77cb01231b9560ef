"""Programs of the system that a lab needs."""

from __future__ import annotations

import os
import shutil
import signal
import subprocess
from collections.abc import Sequence
from contextlib import suppress

from ..errors import RrpError
from .signals import waiting

#: Where programs of the system may be, if the path leaves that out.
_SYSTEM = "/usr/sbin:/sbin:/usr/local/sbin:/usr/lib/frr"

#: A program that takes longer is taken for hung.
_SECONDS = 300.0


def need_programs(programs: Sequence[tuple[str, str]]) -> None:
    """What is missing to boot a lab is told in one line: root, `ip`, or one of these programs, of
    which each has the Debian package that it is in."""
    if os.geteuid() != 0:
        raise RrpError("only root boots a lab, as it has a network namespace of its own: use sudo")
    for program, package in (*programs, ("ip", "iproute2")):
        if shutil.which(program, path=_path()) is None:
            raise RrpError(f"a lab needs {program}, which is not there: apt-get install {package}")


def answer(
    words: Sequence[str], folder: str | None = None, **environment: str
) -> subprocess.CompletedProcess[str]:
    """What a program answers, started in a folder. Ctrl-C on a terminal does not reach it: where a
    signal ends the command, the program and all that it has started end first."""
    process = None
    try:
        with waiting():
            process = _started(words, folder, environment)
        output, errors = process.communicate(timeout=_SECONDS)
    except BaseException as why:
        if process is not None:
            with suppress(ProcessLookupError):
                os.killpg(process.pid, signal.SIGKILL)
            process.communicate()
        if isinstance(why, subprocess.TimeoutExpired):
            raise RrpError(f"{words[0]} does not end after {_SECONDS:g} s") from None
        raise
    return subprocess.CompletedProcess(words, process.returncode, output, errors)


def _started(
    words: Sequence[str], folder: str | None, environment: dict[str, str]
) -> subprocess.Popen[str]:
    """A program in a session of its own."""
    return subprocess.Popen(
        words,
        cwd=folder,
        env={**os.environ, "PATH": _path(), "LC_ALL": "C", **environment},
        stdin=subprocess.DEVNULL,
        stdout=subprocess.PIPE,
        stderr=subprocess.PIPE,
        text=True,
        errors="replace",
        start_new_session=True,
    )


def said(ended: subprocess.CompletedProcess[str]) -> str:
    """All that a program said, in one line."""
    return " ".join((ended.stdout + ended.stderr).split()) or f"exit status {ended.returncode}"


def _path() -> str:
    return f"{os.environ.get('PATH', os.defpath)}:{_SYSTEM}"
