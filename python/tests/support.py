"""What the tests share: running the command in this process, and where things are."""

from __future__ import annotations

import io
import os
import signal
import subprocess
import sys
from contextlib import redirect_stderr, redirect_stdout
from typing import NamedTuple

from rrp.command import main

TESTS = os.path.dirname(os.path.abspath(__file__))
PYTHON = os.path.dirname(TESTS)
ROOT = os.path.dirname(PYTHON)
EXAMPLES = os.path.join(ROOT, "examples")
STORED_PLANS = os.path.join(ROOT, "tests", "verdict")

#: What the command says where it fails by a fault of its own.
FAULT = "fault of the tool"


class Answer(NamedTuple):
    """What a command wrote, and its exit status."""

    status: int
    output: str
    errors: str

    def text(self) -> str:
        """All of it as one text, as stored files have it."""
        errors = f"-- standard error\n{self.errors}" if self.errors else ""
        return f"{self.output}{errors}-- exit {self.status}\n"


def rrp(*words: str) -> Answer:
    """Runs the command in this process."""
    output, errors = io.TextIOWrapper(io.BytesIO(), "utf-8"), io.StringIO()
    with redirect_stdout(output), redirect_stderr(errors):
        try:
            status = main(words)
        except SystemExit as end:
            status = end.code
    output.flush()
    return Answer(status, output.buffer.getvalue().decode("utf-8"), errors.getvalue())


def rrp_process(*words: str, **options) -> subprocess.Popen:
    """Starts the command as a process of its own, which heeds interrupts."""
    environment = {**os.environ, "PYTHONPATH": PYTHON, **options.pop("environment", {})}
    command = [sys.executable, "-m", "rrp", *words]
    pipes = {"stdout": subprocess.PIPE, "stderr": subprocess.PIPE, **options}
    return subprocess.Popen(command, env=environment, preexec_fn=heed_interrupts, **pipes)


def heed_interrupts() -> None:
    """Where a shell runs the tests in the background, they ignore interrupts, and so would this."""
    signal.signal(signal.SIGINT, signal.SIG_DFL)


def read(path: str) -> str:
    """The text of a file."""
    with open(path, encoding="utf-8", newline="") as file:
        return file.read()
