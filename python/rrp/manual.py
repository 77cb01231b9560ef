"""The man page, made of the descriptions of the commands."""

from __future__ import annotations

from collections.abc import Iterable

from .descriptions import Argument, Command

_HEAD = """.\\" Written by: rrp man
.TH RRP 1 "" "rrp" "User Commands"
.SH NAME
rrp \\- checks BGP route-reflection plans, over a proved library
.SH SYNOPSIS
.B rrp
.I COMMAND
[\\fIOPTION\\fR ..] [\\fIWORD\\fR ..]
.SH DESCRIPTION
"""

_COMMANDS = ".SH COMMANDS\n"

_TAIL = """.SH ENVIRONMENT
.TP
.B RRP_LIBRARY
names another librrp.so to load
.SH SEE ALSO
.BR dot (1)
"""


def page(commands: Iterable[Command], description: str, more: str) -> str:
    """The page: what the tool is, and each command with all that it takes."""
    body = [line for command in commands for line in _command_lines(command)]
    about = f"{_text(description)}\n.PP\n{_text(more)}\n"
    return "".join([_HEAD, about, _COMMANDS, "".join(f"{line}\n" for line in body), _TAIL])


def _command_lines(command: Command) -> list[str]:
    said = f"{command.line[0].upper()}{command.line[1:]}."
    lines = [f".SS rrp {_text(command.name)}", _text(said), ".PP", f"Usage: {_text(command.usage)}"]
    for argument in (*command.words, *command.options):
        lines += [".TP", f".B {_form(argument)}", _text(argument.help)]
    return [*lines, ".PP", _text(command.more)] if command.more else lines


def _form(argument: Argument) -> str:
    """An argument with its value, as its entry has it."""
    names = ", ".join(argument.names)
    value = "" if argument.value is None else f"\\fI{_text(argument.value)}\\fR"
    return " ".join(part for part in (_text(names), value) if part)


def _text(text: str) -> str:
    """A text as roff takes it: a backslash, a minus sign and a mark at the start of a line have a
    meaning there."""
    shown = text.replace("\\", "\\e").replace("-", "\\-")
    return f"\\&{shown}" if shown.startswith((".", "'")) else shown
