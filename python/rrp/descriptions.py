"""What each command takes, as `--help` has it: completions and the man page are made of this."""

from __future__ import annotations

from argparse import Action
from collections.abc import Iterable
from typing import NamedTuple

from .usage import Parser

#: What argparse calls words that may be repeated.
_REPEATED = ("+", "*")


class Argument(NamedTuple):
    """A word or an option of a command. An option has `names`, and if it takes a value, `value`
    says what that is; a word has that alone. `choices` has what may be given, if not anything."""

    names: tuple[str, ...]
    value: str | None
    help: str
    choices: tuple[str, ...]
    optional: bool
    repeated: bool

    @property
    def form(self) -> str:
        """How the argument is written in a line on usage."""
        shown = " ".join([*self.names[-1:], *([] if self.value is None else [self.value])])
        more = f" [{self.value} ..]" if self.repeated and not self.names else ""
        return f"[{shown}]{more}" if self.optional else f"{shown}{more}"


class Command(NamedTuple):
    """A command: its name, a line on it, its options, its words, and what is said below them."""

    name: str
    line: str
    options: tuple[Argument, ...]
    words: tuple[Argument, ...]
    more: str

    @property
    def usage(self) -> str:
        """The command with all that it takes."""
        return " ".join([f"rrp {self.name}", *(each.form for each in (*self.options, *self.words))])


def described(parsers: dict[str, Parser], lines: dict[str, str]) -> list[Command]:
    """The commands, from their parsers and the lines on them."""
    return [_command(name, lines[name], parser) for name, parser in parsers.items()]


def _command(name: str, line: str, parser: Parser) -> Command:
    arguments = [_argument(action, parser) for action in parser.actions()]
    options = tuple(each for each in arguments if each.names)
    words = tuple(each for each in arguments if not each.names)
    return Command(name, line, options, words, _filled(parser.epilog or "", parser))


def _argument(action: Action, parser: Parser) -> Argument:
    takes = not action.option_strings or action.nargs != 0
    value = (action.metavar or action.dest.upper()) if takes else None
    optional = bool(action.option_strings) or action.nargs in ("?", "*")
    repeated = action.nargs in _REPEATED or action.default == []
    choices = tuple(map(str, action.choices or ()))
    names, said = tuple(action.option_strings), _filled(action.help or "", parser)
    return Argument(names, value, said, choices, optional, repeated)


def _filled(text: str, parser: Parser) -> str:
    """A text as `--help` shows it, with its `%` signs resolved."""
    return text.replace("%(prog)s", parser.prog).replace("%%", "%")


def first_clause(text: str) -> str:
    """What a help says before its first full stop or semicolon."""
    for mark in (". ", "; "):
        text = text.split(mark, 1)[0]
    return text


def option_names(arguments: Iterable[Argument]) -> list[str]:
    """The names of all options."""
    return [name for each in arguments for name in each.names]
