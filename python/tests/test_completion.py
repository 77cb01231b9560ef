"""Completions and the man page are made of what `--help` says."""

from __future__ import annotations

import os
import re
import shutil
import subprocess
import sys
import tempfile
import unittest

import wheel_backend
from rrp import __version__
from rrp.command import COMMANDS, all_commands, man_page
from rrp.completion import bash, zsh
from rrp.descriptions import option_names

from .support import EXAMPLES, PYTHON, ROOT, read, rrp

NET = f"{EXAMPLES}/net.rrp"

#: Asks bash for what completes the last of some words.
_ASK = """
rrp() { "$PYTHON3" -m rrp "$@"; }
source "$SCRIPT"
COMP_WORDS=("$@")
COMP_CWORD=$(($# - 1))
_rrp
printf '%s\\n' "${COMPREPLY[@]}"
"""


class Descriptions(unittest.TestCase):
    """What a command takes, beside its help."""

    def test_every_option_and_word(self) -> None:
        commands = all_commands()
        self.assertEqual([command.name for command in commands], list(COMMANDS))
        for command in commands:
            said = rrp(command.name, "--help").output
            options = set(re.findall(r"^  (?:-\w(?: \w+)?, )?(--[\w-]+)", said, re.M))
            names = option_names(command.options)
            self.assertEqual(options, {name for name in names if name.startswith("--")})
            for word in command.words:
                self.assertRegex(said, rf"(?m)^  {word.value}\b")
            closed = "".join(said.split())
            for text in [command.more, *(each.help for each in (*command.words, *command.options))]:
                self.assertIn("".join(text.split()), closed)

    def test_usage(self) -> None:
        usages = {command.name: command.usage for command in all_commands()}
        due = "rrp check [--help] [--set STATEMENT] [--strict] [--accept ACCEPT] [--json]"
        self.assertTrue(usages["check"].startswith(f"{due} PLAN"), usages["check"])
        self.assertTrue(usages["why"].endswith(" PLAN LIST ROUTER OTHER"), usages["why"])
        self.assertTrue(usages["show"].endswith(" PLAN [LIST]"), usages["show"])
        self.assertTrue(usages["file"].endswith(" PLAN [PLAN ..]"), usages["file"])


class Bash(unittest.TestCase):
    """What bash completes."""

    def setUp(self) -> None:
        folder = tempfile.TemporaryDirectory()
        self.addCleanup(folder.cleanup)
        self.folder = folder.name
        with open(f"{self.folder}/script", "w", encoding="utf-8") as file:
            file.write(rrp("completion", "bash").output)

    def completed(self, *words: str) -> list[str]:
        """What may stand in place of the last word."""
        given = {"SCRIPT": f"{self.folder}/script", "PYTHON3": sys.executable}
        environment = {**os.environ, **given, "PYTHONPATH": PYTHON}
        command = ["bash", "-c", _ASK, "bash", "rrp", *words]
        ran = subprocess.run(command, env=environment, capture_output=True, text=True, cwd=ROOT)
        self.assertEqual((ran.returncode, ran.stderr), (0, ""), words)
        return ran.stdout.split()

    def test_commands_and_options(self) -> None:
        self.assertEqual(self.completed("c"), ["check", "convert", "completion"])
        self.assertEqual(self.completed("check", "--s"), ["--set", "--strict"])
        self.assertEqual(self.completed("check", NET, "--s"), ["--set", "--strict"])
        self.assertEqual(self.completed("completion", "z"), ["zsh"])
        found = self.completed("")
        self.assertEqual(found, [*COMMANDS, "--help", "--version"])

    def test_files(self) -> None:
        self.assertEqual(self.completed("check", "examples/net"), ["examples/net.rrp"])
        self.assertEqual(self.completed("pack", NET, "-o", "examples/net"), ["examples/net.rrp"])
        self.assertEqual(self.completed("check", NET, "--set", "exam"), [])
        self.assertEqual(self.completed("file", NET, "examples/net"), ["examples/net.rrp"])

    def test_names_of_the_plan(self) -> None:
        self.assertEqual(self.completed("show", NET, ""), ["transit", "peering", "customer"])
        self.assertEqual(self.completed("show", "--json", NET, "p"), ["peering"])
        self.assertEqual(self.completed("why", NET, "transit", "lon-rr", "par-r"), ["par-rr"])
        self.assertEqual(self.completed("run", NET, "0", "--order", "fra-r"), ["fra-rr"])
        self.assertEqual(self.completed("run", "--random", "3", NET, "t"), ["transit"])
        self.assertEqual(self.completed("show", "missing", ""), [])
        self.assertEqual(self.completed("show", NET, "transit", ""), [])


class Written(unittest.TestCase):
    """What the commands write."""

    def test_names(self) -> None:
        self.assertEqual(rrp("completion", "lists", NET).output, "transit\npeering\ncustomer\n")
        self.assertEqual(len(rrp("completion", "routers", NET).output.split()), 12)
        for words in (["lists"], ["bash", NET], ["fish"]):
            answer = rrp("completion", *words)
            self.assertEqual((answer.status, answer.output), (2, ""), words)

    def test_the_texts_are_plain(self) -> None:
        for words in (["completion", "bash"], ["completion", "zsh"], ["man"]):
            answer = rrp(*words)
            self.assertEqual((answer.status, answer.errors), (0, ""))
            self.assertTrue(answer.output.isascii() and answer.output.endswith("\n"))
            self.assertNotIn("@", re.sub(r'"\$@"|\(@\)|\[@\]', "", answer.output))

    @unittest.skipUnless(shutil.which("zsh"), "zsh is not installed")
    def test_zsh_reads_it(self) -> None:
        text = rrp("completion", "zsh").output
        ran = subprocess.run(["zsh", "-n"], input=text, capture_output=True, text=True)
        self.assertEqual((ran.returncode, ran.stderr), (0, ""))

    def test_zsh_has_every_option(self) -> None:
        text = zsh(all_commands())
        for command in all_commands():
            (case,) = re.findall(rf"\n {{8}}{command.name}\)\n(.*?);;", text, re.S)
            for name in option_names(command.options):
                self.assertIn(f"{name}[", case)
            self.assertIn(f"'{command.name}:{command.line}'", text)

    def test_the_page_has_every_command(self) -> None:
        page = man_page().replace("\\-", "-")
        for command in all_commands():
            self.assertIn(f"\n.SS rrp {command.name}\n", page)
            self.assertIn(f"\nUsage: {command.usage}\n", page)

    def test_the_stored_page_is_up_to_date(self) -> None:
        how = "write it anew: PYTHONPATH=python python3 -m rrp man >docs/rrp.1"
        self.assertEqual(read(f"{ROOT}/docs/rrp.1"), man_page(), how)

    def test_the_wheel_has_them(self) -> None:
        folder = f"rrp-{__version__}.data/data/share"
        due = {
            f"{folder}/man/man1/rrp.1": man_page(),
            f"{folder}/bash-completion/completions/rrp": bash(all_commands()),
            f"{folder}/zsh/site-functions/_rrp": zsh(all_commands()),
        }
        found = {name: data.decode() for name, data in wheel_backend.shared_files().items()}
        self.assertEqual(found, due)


if __name__ == "__main__":
    unittest.main()
