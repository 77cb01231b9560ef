"""Tests in folders of their own, and libraries of plans with their verdicts."""

from __future__ import annotations

import os
import shutil
import tempfile
import unittest

from rrp.verdict_files import entry

from .support import EXAMPLES


def write(path: str, text: str) -> None:
    """Writes a file."""
    with open(path, "w", encoding="utf-8", newline="") as file:
        file.write(text)


def verdict_of(path: str) -> str:
    """The verdict of a plan in bytes."""
    with open(path, "rb") as file:
        return entry(file.read()).text


class InFolder(unittest.TestCase):
    """Each test has a folder of its own, and is in it."""

    maxDiff = None

    def setUp(self) -> None:
        folder = tempfile.TemporaryDirectory()
        before = os.getcwd()
        self.addCleanup(folder.cleanup)
        self.addCleanup(os.chdir, before)
        os.chdir(folder.name)

    def copy(self, path: str, name: str | None = None) -> str:
        """A copy of a file, in the folder."""
        name = name or os.path.basename(path)
        shutil.copyfile(path, name)
        return name

    def library(self, count: int) -> None:
        """A library of so many plans, with their verdicts."""
        for number in range(count):
            self.copy(f"{EXAMPLES}/m3.plan", f"{number:03}.plan")
            write(f"{number:03}.plan.verdict", verdict_of(f"{number:03}.plan"))
