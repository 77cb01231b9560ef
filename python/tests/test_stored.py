"""Outputs held to stored files.

errors/NAME.rrp: a text with errors; `rrp check NAME.rrp` says what NAME.expected has.
commands/NAME.words: the words of a command, as a shell reads them; run at the root of the
repository, it writes what NAME.expected has.

With RRP_STORE=1 the expected files are written anew: look at what changed before you keep it.
"""

from __future__ import annotations

import glob
import os
import shlex
import unittest

from rrp import encoding, library

from .support import ROOT, TESTS, read, rrp

#: A client with five reflectors, which a library of an older version takes.
_FIVE_PARENTS = encoding.Model(
    roles=[1, 1, 1, 1, 1, 2],
    identifiers=[0, 1, 2, 3, 4, 5],
    sessions=[(0, 5), (1, 5), (2, 5), (3, 5), (4, 5)],
    distances=[[0] * 6] * 6,
    lists=[[0]],
)


def stored(folder: str, ending: str) -> list[str]:
    """The stored cases of a folder, without their endings."""
    found = glob.glob(os.path.join(TESTS, folder, f"*{ending}"))
    return sorted(path[: -len(ending)] for path in found)


class Stored(unittest.TestCase):
    """Each stored case is a subtest."""

    maxDiff = None

    def hold(self, path: str, text: str) -> None:
        """The text is that of the stored file."""
        expected = f"{path}.expected"
        if os.environ.get("RRP_STORE"):
            with open(expected, "w", encoding="utf-8", newline="") as file:
                file.write(text)
        self.assertEqual(read(expected), text, os.path.basename(path))

    def test_errors(self) -> None:
        os.chdir(os.path.join(TESTS, "errors"))
        cases = stored("errors", ".rrp")
        self.assertGreater(len(cases), 20)
        for path in cases:
            name = os.path.basename(path)
            if name == "too-many-parents" and not library.refusal(encoding.encode(_FIVE_PARENTS)):
                continue
            with self.subTest(name):
                answer = rrp("check", f"{name}.rrp")
                self.assertEqual((answer.status, answer.output), (2, ""))
                self.hold(path, answer.text())

    def test_commands(self) -> None:
        os.chdir(ROOT)
        cases = stored("commands", ".words")
        self.assertGreater(len(cases), 10)
        for path in cases:
            with self.subTest(os.path.basename(path)):
                words = shlex.split(read(f"{path}.words"), comments=True)
                self.hold(path, rrp(*words).text())


if __name__ == "__main__":
    unittest.main()
