"""The command `rrp`. Each subcommand is a module of `rrp.commands`; only the one that is asked for
is imported."""

from __future__ import annotations

import errno
import os
import signal
import sys
from argparse import Namespace
from collections.abc import Sequence
from contextlib import suppress
from importlib import import_module
from typing import TYPE_CHECKING, TextIO

from . import __version__
from .errors import RrpError
from .usage import Parser, may_be_rest, too_many, unknown_command

if TYPE_CHECKING:
    from .descriptions import Command

#: The subcommands with a line of help. Each is a module of its name, `_` for `-`, with `arguments`
#: and `run`; if it takes several words of a kind, also after options, `REST` names these.
COMMANDS = {
    "check": "judge a plan for each of its lists",
    "show": "name the lists, or explain the verdict for one",
    "why": "explain why a router relies on another, or does not",
    "steady": "show the tables that no activation changes, side by side",
    "hop-set": "name a smallest set of reflectors to load the hop step on",
    "run": "activate routers one by one, and say what changes",
    "sweep": "judge every failure of a link, a session or a router",
    "always": "say whether any egress list can make a plan suspect",
    "diff": "compare two plans, or a plan with its changed self, by name",
    "lab": "boot a list as real routers, and compare with its verdict",
    "dot": "write who relies on whom, or the links, for Graphviz",
    "pack": "write a text plan as bytes",
    "unpack": "write a plan as text",
    "convert": "turn an RRP1 plan into RRP2, or back",
    "figures": "count stable and suspect lists, ranks, and routers in groups",
    "file": "write the verdict beside the plan",
    "audit": "compare filed verdicts with their plans",
    "completion": "write completions for a shell",
    "man": "write the man page",
}

#: What the tool is, and what holds of every command.
_DESCRIPTION = "Checks BGP route-reflection plans, over a proved library."
_MORE = (
    "Exit status: 0 stable, 1 some list is suspect, 2 error. "
    "A plan is text, JSON or bytes, told apart by its first bytes; - is standard input."
)

#: The exit status of an error. A command returns 0 if all that it judged is stable, else 1.
ERROR = 2

#: The numbers of the failures that writing has: no space, no such stream, a broken device.
_OUTPUT_FAILURES = {errno.ENOSPC, errno.EDQUOT, errno.EFBIG, errno.EBADF, errno.EIO}


def main(words: Sequence[str] | None = None) -> int:
    """Runs the command with the words given, else those of the command line. Returns its exit
    status."""
    if words is None:
        _let_interrupt_end()
        words = sys.argv[1:]
    _prepare_output()
    try:
        status = _run(list(words))
        sys.stdout.flush()
        return status
    except BrokenPipeError:
        pass
    except OSError as failure:
        _say(f"{_what_failed(failure)}: {failure.strerror or failure}")
    except Exception as fault:
        _say(f"a fault of the tool itself, please report it: {fault!r}")
    finally:
        for stream in (sys.stdout, sys.stderr):
            if not _takes(stream):
                _drop(stream)
    return ERROR


def _run(words: list[str]) -> int:
    """Runs a subcommand. What it cannot answer is said on standard error, or as JSON if that is
    asked for."""
    as_json = "--json" in words
    try:
        options = _options(words)
        as_json = options.json
        return _module(options.command).run(options)
    except SystemExit as end:
        return int(end.code or 0)
    except RrpError as failure:
        _report(failure, as_json)
        return ERROR


def _options(words: list[str]) -> Namespace:
    """What the words ask for. Help and the version are written here, and end the command."""
    parser, parsers = _parser(words)
    command = next((word for word in words if not word.startswith("-")), None)
    if command not in COMMANDS and (command or not {"-h", "--help", "--version"} & set(words)):
        raise unknown_command(parser, command, list(COMMANDS))
    options, extra = parser.parse_known_args(words)
    rest = getattr(_module(options.command), "REST", None)
    if rest and may_be_rest(extra, words):
        getattr(options, rest).extend(extra)
    elif extra:
        raise too_many(parsers[options.command], extra, words)
    return options


def _report(failure: RrpError, as_json: bool) -> None:
    if as_json:
        from .output import write_json

        write_json({"errors": failure.as_json()})
    else:
        sys.stdout.flush()
        print(failure.report(), file=sys.stderr)


def _parser(words: list[str]) -> tuple[Parser, dict[str, Parser]]:
    """The parser, and that of each subcommand. The one that the words name has its arguments."""
    parser = Parser(prog="rrp", description=_DESCRIPTION, epilog=_MORE)
    parser.add_argument("--version", action="version", version=f"rrp {__version__}")
    subparsers = parser.add_subparsers(dest="command", metavar="COMMAND", required=True)
    parsers = {}
    for name, line in COMMANDS.items():
        description = f"{line[0].upper()}{line[1:]}."
        parsers[name] = subparsers.add_parser(name, help=line, description=description)
        if name in words:
            _module(name).arguments(parsers[name])
            parsers[name].add_argument("--json", action="store_true", help="write JSON")
    return parser, parsers


def all_commands() -> list[Command]:
    """What each command takes, as its help has it."""
    from .descriptions import described

    return described(_parser(list(COMMANDS))[1], COMMANDS)


def man_page() -> str:
    """The man page of all commands."""
    from .manual import page

    return page(all_commands(), _DESCRIPTION, _MORE)


def _module(name: str):
    """The module of a subcommand."""
    return import_module(f"rrp.commands.{name.replace('-', '_')}")


def _let_interrupt_end() -> None:
    """Ctrl-C ends the command at once and without a word, unless whoever started it ignores it."""
    if signal.getsignal(signal.SIGINT) is signal.default_int_handler:
        signal.signal(signal.SIGINT, signal.SIG_DFL)


def _prepare_output() -> None:
    """What an output cannot show is written by its code. An output that is closed takes nothing."""
    for name in ("stdout", "stderr"):
        if getattr(sys, name) is None:
            setattr(sys, name, open(os.devnull, "w"))
        stream = getattr(sys, name)
        if hasattr(stream, "reconfigure"):
            stream.reconfigure(errors="backslashreplace")


def _say(text: str) -> None:
    """Says on standard error why there is no answer. If that fails, the exit status says it."""
    with suppress(OSError):
        print(f"rrp: {text}", file=sys.stderr)


def _what_failed(failure: OSError) -> str:
    """What a failure that no command expects is about."""
    if failure.errno in _OUTPUT_FAILURES:
        return "the output cannot be written"
    return "the system does not let the command go on"


def _takes(stream: TextIO) -> bool:
    """Whether a stream takes what was written to it."""
    try:
        stream.flush()
    except OSError:
        return False
    return True


def _drop(stream: TextIO) -> None:
    """Nobody takes a stream any more: what is left of it goes nowhere. Its descriptor is closed
    first, as there may be no other."""
    with suppress(OSError):
        place = stream.fileno()
        os.close(place)
        opened = os.open(os.devnull, os.O_WRONLY)
        if opened != place:
            os.dup2(opened, place)
            os.close(opened)
