"""The wheel of `pip install -e`: it leads to the package where it is, and has the command."""

from __future__ import annotations

import base64
import hashlib
import os
import subprocess
import sys
import tempfile
import unittest
import zipfile

import wheel_backend
from rrp import __version__

from .support import EXAMPLES, PYTHON

#: Makes the folder of a wheel's files one that Python looks in, and starts the command that the
#: wheel names.
_START = (
    "import site, sys; site.addsitedir(sys.argv[1]); "
    "from importlib.metadata import distribution; "
    "(point,) = distribution('rrp').entry_points; sys.exit(point.load()(sys.argv[2:]))"
)


class Editable(unittest.TestCase):
    """The wheel as pip unpacks it."""

    def setUp(self) -> None:
        folder = tempfile.TemporaryDirectory()
        self.addCleanup(folder.cleanup)
        self.folder = folder.name
        name = wheel_backend.build_editable(self.folder)
        self.assertEqual(name, f"rrp-{__version__}-py3-none-linux_x86_64.whl")
        with zipfile.ZipFile(os.path.join(self.folder, name)) as archive:
            archive.extractall(self.folder)
            self.names = archive.namelist()

    def test_the_command_is_that_of_the_repository(self) -> None:
        words = [sys.executable, "-c", _START, self.folder, "check", f"{EXAMPLES}/m3.plan"]
        environment = {key: each for key, each in os.environ.items() if key != "PYTHONPATH"}
        ended = subprocess.run(words, env=environment, cwd="/", capture_output=True, text=True)
        self.assertEqual((ended.returncode, ended.stderr), (1, ""))
        self.assertIn("l0  suspect: r0 -> r1 -> r0\n", ended.stdout)

    def test_it_holds_no_copy(self) -> None:
        about = f"rrp-{__version__}.dist-info"
        files = ["METADATA", "WHEEL", "entry_points.txt", "RECORD"]
        due = ["rrp-editable.pth", *(f"{about}/{name}" for name in files)]
        self.assertEqual(self.names, due)
        with open(os.path.join(self.folder, "rrp-editable.pth"), "rb") as file:
            self.assertEqual(file.read(), os.fsencode(f"{PYTHON}\n"))

    def test_the_record_is_true(self) -> None:
        record = os.path.join(self.folder, self.names[-1])
        with open(record, encoding="utf-8") as file:
            rows = [line.rstrip("\n").split(",") for line in file]
        self.assertEqual([row[0] for row in rows], self.names)
        for name, digest, size in rows[:-1]:
            with open(os.path.join(self.folder, name), "rb") as file:
                data = file.read()
            due = base64.urlsafe_b64encode(hashlib.sha256(data).digest()).rstrip(b"=").decode()
            self.assertEqual((digest, int(size)), (f"sha256={due}", len(data)))


if __name__ == "__main__":
    unittest.main()
