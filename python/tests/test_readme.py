"""The pages are held to the repository: the commands that they show give the outputs shown, and the
files, headings, crates and theorems that they name are there.

In a block marked `console` a line after `$ ` is a command, and what follows is its output, in which
a line `..` stands for lines that are left out. The commands of a page are run one after the other
in a folder that has copies of the examples. Those of docs/EMBEDDING.md are of C programs, which
tests/run-embedding.sh builds and runs. tests/trace.py holds the names in docs/trace.
"""

from __future__ import annotations

import glob
import os
import re
import shlex
import shutil
import subprocess
import sys
import tempfile
import unittest
from typing import NamedTuple

from rrp.command import COMMANDS

from .support import EXAMPLES, ROOT, read, rrp

COMMAND = "target/bin/rrp"

#: The pages that must show commands, with the fewest that they show.
SHOWING = {"README.md": 1, "docs/TOOL.md": 75, "docs/TEXT-PLANS.md": 15}
ELSEWHERE = {"docs/EMBEDDING.md"}

#: What stands for a name in the name of a file; and the folder of what is built.
NO_FILES = {"NAME", "LABEL", "NN", "target"}

_BLOCK = re.compile(r"^```(\w+)\n(.*?)^```$", re.DOTALL | re.MULTILINE)
_LINK = re.compile(r"\]\(([^)\s]+)\)")
_HEADING = re.compile(r"^#+ (.*)$", re.MULTILINE)
_FOLDER = re.compile(r"(?<![\w/])(\w+/(?:specs|proofs|src)/[\w/]+)")
_PATH = re.compile(r"(?<![\w/.-])((?:crates|docs|examples|include|python|tests|\.ci)/[\w./-]*\w)")
_THEOREM = re.compile(r"`([\w-]+)`\s+\((\w+/proofs/\w+)\)")
_CRATE = re.compile(r"\bcrates? `(\w+)`")


class Shown(NamedTuple):
    """A command that is shown, and its output."""

    command: str
    output: str


def pages() -> list[str]:
    """The README and all pages of docs/, from the root of the repository."""
    found = glob.glob(f"{ROOT}/docs/**/*.md", recursive=True)
    return ["README.md", *sorted(os.path.relpath(path, ROOT) for path in found)]


def page(name: str) -> str:
    """The text of a page."""
    return read(f"{ROOT}/{name}")


def prose() -> list[str]:
    """The pages without those of the trace."""
    return [name for name in pages() if not name.lower().startswith("docs/trace")]


def blocks(name: str, kind: str) -> list[str]:
    """The blocks of a kind in a page."""
    return [block for mark, block in _BLOCK.findall(page(name)) if mark == kind]


def shown(name: str) -> list[Shown]:
    """The commands of a page."""
    text = "".join(blocks(name, "console"))
    parts = re.split(r"^\$ ", text, flags=re.MULTILINE)[1:]
    return [Shown(*part.split("\n", 1)) for part in parts]


def fits(output: str, expected: str) -> bool:
    """Whether an output is the one expected, but for lines that are left out."""
    lines = expected.splitlines()
    pattern = "".join("(?:.*\n)*" if line == ".." else re.escape(f"{line}\n") for line in lines)
    return re.fullmatch(pattern, output) is not None


def anchors(name: str) -> set[str]:
    """The headings of a page as links name them."""
    found = [re.sub(r"[^\w -]", "", heading.lower()) for heading in _HEADING.findall(page(name))]
    return {heading.replace(" ", "-") for heading in found}


def there(path: str) -> bool:
    """Whether a name is that of a file or a folder, or of a source without its ending."""
    return any(os.path.exists(f"{ROOT}/{path}{ending}") for ending in ("", ".antt", ".rt"))


class Commands(unittest.TestCase):
    """Every command that is shown."""

    def setUp(self) -> None:
        self.addCleanup(os.chdir, os.getcwd())

    def enter(self) -> None:
        """A new folder with copies of the examples."""
        folder = tempfile.TemporaryDirectory()
        self.addCleanup(folder.cleanup)
        os.chdir(folder.name)
        shutil.copytree(EXAMPLES, "examples")

    def output(self, command: str) -> str:
        """What a command writes on standard output, with what it writes on standard error before
        it if the command ends in ` 2>&1`."""
        if not command.startswith(COMMAND):
            ran = subprocess.run(command, shell=True, check=True, capture_output=True, text=True)
            return ran.stdout
        if command.endswith(" 2>&1"):
            answer = rrp(*shlex.split(command[: -len(" 2>&1")])[1:])
            return answer.errors + answer.output
        words, _, file = command.partition(" >")
        output = rrp(*shlex.split(words)[1:]).output
        if not file:
            return output
        with open(file, "w", encoding="utf-8") as written:
            written.write(output)
        return ""

    def test_outputs(self) -> None:
        for name in sorted(set(pages()) - ELSEWHERE):
            self.enter()
            commands = shown(name)
            self.assertGreaterEqual(len(commands), SHOWING.get(name, 0), name)
            for command, expected in commands:
                output = self.output(command)
                self.assertTrue(fits(output, expected), f"{name}: {command}\n{output}")

    def test_python(self) -> None:
        self.enter()
        found = blocks("docs/TOOL.md", "python")
        self.assertGreater(len(found), 0)
        for block in found:
            exec(compile(block, "TOOL.md", "exec"), {"print": lambda *values: None})

    def test_python_that_writes_a_plan(self) -> None:
        (block,) = blocks("docs/FORMAT.md", "python")
        ran = subprocess.run([sys.executable, "-c", block], check=True, capture_output=True)
        with open(f"{EXAMPLES}/m3.plan", "rb") as file:
            self.assertEqual(ran.stdout, file.read())

    def test_what_does_not_fit_is_found(self) -> None:
        for expected in ("a\nb\n", "a\n..\nc\n", "..\n"):
            self.assertTrue(fits("a\nb\n" if "c" not in expected else "a\nb\nc\n", expected))
        for expected in ("a\n", "b\n", "a\nb\nc\n", "..\na\n", ""):
            self.assertFalse(fits("a\nb\n", expected), expected)


class Names(unittest.TestCase):
    """What pages name is there."""

    def test_links(self) -> None:
        count = 0
        for name in pages():
            for link in _LINK.findall(page(name)):
                if re.match(r"\w+:", link):
                    continue
                path, _, anchor = link.partition("#")
                target = os.path.normpath(os.path.join(os.path.dirname(name), path))
                target = target if path else name
                self.assertTrue(there(target), f"{name}: {link}")
                if anchor:
                    self.assertIn(anchor, anchors(target), f"{name}: {link}")
                count += 1
        self.assertGreater(count, 50)

    def test_files(self) -> None:
        named = [(name, path) for name in prose() for path in _PATH.findall(page(name))]
        for name in prose():
            named += [(name, f"crates/{path}") for path in _FOLDER.findall(page(name))]
        self.assertGreater(len(named), 100)
        for name, path in named:
            if not NO_FILES & set(re.findall(r"\w+", path)):
                self.assertTrue(there(path), f"{name}: {path}")

    def test_crates(self) -> None:
        crates = set(os.listdir(f"{ROOT}/crates"))
        named = [(name, crate) for name in prose() for crate in _CRATE.findall(page(name))]
        self.assertGreater(len(named), 5)
        for name, crate in named:
            self.assertIn(crate, crates, name)

    def test_theorems(self) -> None:
        theorems = _THEOREM.findall(page("docs/PROVED.md"))
        self.assertGreaterEqual(len(theorems), 20)
        for theorem, file in theorems:
            text = read(f"{ROOT}/crates/{file}.antt")
            self.assertRegex(text, rf"(?m)^\s*pub {re.escape(theorem)} :", file)

    def test_modules(self) -> None:
        table = page("docs/ARCHITECTURE.md").split("| module of python/rrp |")[1].split("\n\n")[0]
        cells = [row.split("|")[1] for row in table.splitlines()[2:]]
        named = [name for cell in cells for name in re.findall("`(.+?)`", cell)]
        package = f"{ROOT}/python/rrp"
        found = [glob.glob(f"{package}/{place}*.py") for place in ("", "text/", "lab/")]
        modules = [os.path.relpath(path, package)[: -len(".py")] for path in sum(found, [])]
        due = [name for name in modules if not name.endswith("__")]
        self.assertEqual(sorted(named), sorted([*due, "commands/", "lab/bird/", "lab/frr/"]))

    def test_every_command_is_told(self) -> None:
        questions, _, rest = page("docs/TOOL.md").partition("\n## ")
        statuses = re.search(r"Exit status\n(.*?)\n## ", rest, re.S)[1]
        for command in COMMANDS:
            self.assertIn(f"`rrp {command} ", questions)
            self.assertRegex(statuses, rf"(?m)^\|[^|]*`{command}`")

    def test_columns(self) -> None:
        rows_of_any_length = "docs/trace/"
        for name in (each for each in pages() if not each.startswith(rows_of_any_length)):
            for number, line in enumerate(page(name).splitlines(), 1):
                self.assertLessEqual(len(line), 120, f"{name}:{number}")


if __name__ == "__main__":
    unittest.main()
