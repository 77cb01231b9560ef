"""The command as a process: signals, pipes, closed outputs, other letters, standard input."""

from __future__ import annotations

import json
import os
import shlex
import shutil
import signal
import subprocess
import sys
import tempfile
import unittest

from rrp.command import COMMANDS

from .support import EXAMPLES, PYTHON, TESTS, read, rrp, rrp_process

NET = f"{EXAMPLES}/net.rrp"


class Processes(unittest.TestCase):
    """What cannot be tried in this process."""

    def run_process(self, *words: str, **options) -> tuple[int, bytes, bytes]:
        """The exit status, the output and the errors of the command."""
        given = options.pop("given", None)
        with rrp_process(*words, stdin=subprocess.PIPE, **options) as process:
            output, errors = process.communicate(given, timeout=30)
        return process.returncode, output, errors

    def test_standard_input(self) -> None:
        with open(f"{EXAMPLES}/m3.plan", "rb") as file:
            plan = file.read()
        status, text, errors = self.run_process("unpack", "-", given=plan)
        self.assertEqual((status, errors), (0, b""))
        self.assertEqual(self.run_process("pack", "-", given=text), (0, plan, b""))
        status, _, errors = self.run_process("check", "-", given=b"list")
        self.assertEqual(status, 2)
        self.assertIn(b"standard input:1:6: the list's name is missing", errors)

    def test_broken_pipe(self) -> None:
        for words in (["unpack", NET], ["check", NET], ["check", NET, "--json"], ["pack", NET]):
            reading, writing = os.pipe()
            os.close(reading)
            status, _, errors = self.run_process(*words, stdout=writing)
            os.close(writing)
            self.assertEqual((status, errors), (2, b""), words)

    def test_full_disk(self) -> None:
        with open("/dev/full", "wb") as full:
            status, _, errors = self.run_process("check", NET, stdout=full)
        message = b"rrp: the output cannot be written: No space left on device\n"
        self.assertEqual((status, errors), (2, message))

    def test_full_errors(self) -> None:
        with open("/dev/full", "wb") as full:
            for words in (["check", "missing"], ["chek"]):
                status, output, _ = self.run_process(*words, stderr=full)
                self.assertEqual((status, output), (2, b""), words)
            both = self.run_process("check", NET, stdout=full, stderr=full)
            self.assertEqual(both[0], 2)

    def test_no_file_can_be_opened(self) -> None:
        program = (
            "import resource, sys; from rrp.command import main; "
            "resource.setrlimit(resource.RLIMIT_NOFILE, (3, 3)); sys.exit(main(['check', 'x']))"
        )
        environment = {**os.environ, "PYTHONPATH": PYTHON}
        words = [sys.executable, "-c", program]
        ended = subprocess.run(words, env=environment, capture_output=True)
        message = b"rrp: the system does not let the command go on: Too many open files\n"
        self.assertEqual((ended.returncode, ended.stdout, ended.stderr), (2, b"", message))

    def test_closed_input(self) -> None:
        command = f"exec {sys.executable} -m rrp check - <&-"
        environment = {**os.environ, "PYTHONPATH": PYTHON}
        ended = subprocess.run(command, shell=True, env=environment, stderr=subprocess.PIPE)
        message = b"rrp: standard input is closed: give the plan there, or name its file\n"
        self.assertEqual((ended.returncode, ended.stderr), (2, message))

    def test_closed_output(self) -> None:
        command = f"exec {sys.executable} -m rrp check {NET} >&-"
        environment = {**os.environ, "PYTHONPATH": PYTHON}
        ended = subprocess.run(command, shell=True, env=environment, stderr=subprocess.PIPE)
        self.assertEqual((ended.returncode, ended.stderr), (1, b""))

    def test_interrupt(self) -> None:
        with tempfile.TemporaryDirectory() as folder:
            pipe = f"{folder}/pipe"
            os.mkfifo(pipe)
            process = rrp_process("check", pipe)
            with open(pipe, "wb"):  # opens once the command reads
                process.send_signal(signal.SIGINT)
                output, errors = process.communicate(timeout=30)
        self.assertEqual((process.returncode, output, errors), (-signal.SIGINT, b"", b""))

    def test_other_letters(self) -> None:
        with tempfile.TemporaryDirectory() as folder:
            path = f"{folder}/zürich.rrp"
            with open(path, "w", encoding="utf-8") as file:
                file.write("reflector zürich 1\nlist été zürich\n")
            plain = {"PYTHONIOENCODING": "ascii", "LC_ALL": "C"}
            status, output, errors = self.run_process("check", path, environment=plain)
            values = self.run_process("check", path, "--json", environment=plain)[1]
        self.assertEqual(json.loads(values)["lists"][0]["list"], "été")
        self.assertEqual((status, errors), (0, b""))
        self.assertIn(rb"\xe9t\xe9  stable: highest rank 0", output)

    def test_endless_input(self) -> None:
        status, output, errors = self.run_process("check", "/dev/zero")
        message = b"rrp: /dev/zero is no plan: it has more than 4,194,304 bytes\n"
        self.assertEqual((status, output, errors), (2, b"", message))

    def test_bytes_are_not_for_a_terminal(self) -> None:
        message = b"rrp: a plan's bytes are not for a terminal: name a file with -o\n"
        for words in (["pack", NET], ["convert", f"{EXAMPLES}/m3.plan"]):
            reading, writing = os.openpty()
            status, _, errors = self.run_process(*words, stdout=writing)
            os.close(writing)
            os.close(reading)
            self.assertEqual((status, errors), (2, message), words)

    def test_bytes_on_standard_output(self) -> None:
        with open(f"{EXAMPLES}/m3.plan", "rb") as file:
            plan = file.read()
        status, wide, errors = self.run_process("convert", "-", given=plan)
        self.assertEqual((status, len(wide), wide[:4], errors), (0, 122, b"RRP2", b""))
        self.assertEqual(self.run_process("convert", "-", given=wide), (0, plan, b""))

    def test_unreadable(self) -> None:
        with tempfile.TemporaryDirectory() as folder:
            path = f"{folder}/a\nb"
            status, output, errors = self.run_process("check", path)
        self.assertEqual((status, output), (2, b""))
        self.assertIn(b"cannot be read: No such file or directory", errors)


class Words(unittest.TestCase):
    """The words of the command line."""

    def test_help(self) -> None:
        answer = rrp("--help")
        self.assertEqual(answer.status, 0)
        for name, line in COMMANDS.items():
            self.assertIn(name, answer.output)
            self.assertIn(line, answer.output)
            self.assertIn("--json", rrp(name, "--help").output)

    def test_wrong_words(self) -> None:
        for words in ([], ["chek"], ["check"], ["check", NET, "--sett", "x"], ["pack", NET, "-o"]):
            answer = rrp(*words)
            self.assertEqual((answer.status, answer.output), (2, ""), words)
            self.assertIn("usage: rrp", answer.errors)

    def test_pack_says_what_it_wrote(self) -> None:
        with tempfile.TemporaryDirectory() as folder:
            answer = rrp("pack", NET, "-o", f"{folder}/net.plan")
            size = os.path.getsize(f"{folder}/net.plan")
        self.assertEqual((answer.status, answer.errors), (0, ""))
        said = f"net.plan: {size} bytes of RRP1, from {NET}: 12 routers"
        self.assertIn(said, answer.output)

    def test_the_plan_is_not_overwritten(self) -> None:
        with tempfile.TemporaryDirectory() as folder:
            path = f"{folder}/net.rrp"
            shutil.copyfile(NET, path)
            for command in ("pack", "unpack"):
                answer = rrp(command, path, "-o", f"{folder}/./net.rrp")
                self.assertEqual((answer.status, answer.output), (2, ""))
                self.assertIn("net.rrp is the plan that is read", answer.errors)
            self.assertEqual(read(path), read(NET))
            path = shutil.copyfile(f"{EXAMPLES}/m3.plan", f"{folder}/m3.plan")
            answer = rrp("convert", path, "-o", f"{folder}/./m3.plan")
            self.assertEqual((answer.status, answer.output), (2, ""))
            self.assertIn("m3.plan is the plan that is read", answer.errors)
            self.assertEqual(os.path.getsize(path), 90)

    def test_what_show_advises_is_taken(self) -> None:
        with tempfile.TemporaryDirectory() as folder:
            for name in ("-x", "--json", "x", "-"):
                path = f"{folder}/a plan.rrp"
                with open(path, "w", encoding="utf-8") as file:
                    file.write(f"reflector a 1\nlist {name} a\n")
                advice = rrp("show", path).output.splitlines()[-1]
                self.assertTrue(advice.startswith("to explain one: rrp show "), advice)
                answer = rrp(*shlex.split(advice.removeprefix("to explain one: rrp ")))
                self.assertEqual((answer.status, answer.errors), (0, ""), name)
                self.assertTrue(answer.output.startswith(f"{name} is stable: "), answer.output)

    def test_nothing_is_written_where_a_text_has_errors(self) -> None:
        with tempfile.TemporaryDirectory() as folder:
            answer = rrp("pack", f"{TESTS}/errors/no-list.rrp", "-o", f"{folder}/no.plan")
            self.assertEqual((answer.status, os.listdir(folder)), (2, []))


if __name__ == "__main__":
    unittest.main()
