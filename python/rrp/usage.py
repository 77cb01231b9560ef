"""What is wrong with the words of a command line, with advice."""

from __future__ import annotations

import argparse
import re
from collections.abc import Sequence
from typing import NoReturn

from .errors import RrpError, cut_names, nearest

#: What to give for a word that is missing.
_MISSING = {
    "PLAN": "name a file that has a plan",
    "A": "name two plans, or one and a change of it with --set",
    "LIST": "rrp show PLAN names the lists of a plan",
    "ROUTER": "name two routers: the one that relies, and the other",
    "OTHER": "name two routers: the one that relies, and the other",
    "DIR": "name a directory that has plans and their verdicts",
    "--set": "put the statement in quotes, as: --set 'link lon-rr par-a 12'",
    "--fail": "put what fails in quotes, as: --fail 'session lon-rr par-rr'",
    "--order": "name routers with commas between them, as: --order lon-rr,par-rr",
}

#: What to do where there are too many words.
_TOO_MANY = {
    "rrp audit": "audit one directory after the other",
}

#: Options whose value is often written without the quotes that keep its words together.
_QUOTED = ("--set", "--order", "--fail")

_REQUIRED = "the following arguments are required: "


class UsageError(RrpError):
    """Words that a command does not take, with how it is used and what to do."""

    def __init__(self, parser: argparse.ArgumentParser, message: str, advice: str) -> None:
        super().__init__(f"{parser.prog}: {cut_names(message)}\n    {cut_names(advice)}")
        self.usage, self.message, self.advice = parser.format_usage(), message, advice

    def report(self) -> str:
        """The text as the command prints it."""
        return f"{self.usage}{self}"

    def as_json(self) -> list[dict[str, object]]:
        """The failure as plain values."""
        return [{"message": cut_names(self.message), "advice": cut_names(self.advice)}]


class Parser(argparse.ArgumentParser):
    """A parser that raises what is wrong."""

    def error(self, message: str) -> NoReturn:
        """Raises a `UsageError` for what argparse says."""
        if message.startswith(_REQUIRED):
            words = message[len(_REQUIRED) :].split(", ")
            missing = f"{' and '.join(words)} {'is' if len(words) == 1 else 'are'} missing"
            raise UsageError(self, missing, _MISSING.get(words[0], self.help_advice()))
        option = re.match(r"argument (--?[\w-]+).*: expected one argument$", message)
        if option:
            advice = _MISSING.get(option[1], self.help_advice())
            raise UsageError(self, f"{option[1]} has no value after it", advice)
        raise UsageError(self, message.removeprefix("argument "), self.help_advice())

    def help_advice(self) -> str:
        """Where to read what the command takes."""
        return f"{self.prog} --help says what it takes"

    def actions(self) -> list[argparse.Action]:
        """What the command takes, options and words, in the order of its help."""
        return list(self._actions)

    def options(self) -> list[str]:
        """The options that the command takes."""
        return [name for action in self.actions() for name in action.option_strings]


def unknown_command(parser: Parser, word: str | None, known: Sequence[str]) -> UsageError:
    """The failure for a word that is no command, or for none."""
    all_of_them = f"the commands are {', '.join(known)}; rrp --help says what each does"
    if word is None:
        return UsageError(parser, "no command is given", all_of_them)
    near = nearest(word, known)
    advice = f"did you mean {near}?" if near else all_of_them
    return UsageError(parser, f"there is no command {word}", advice)


def too_many(parser: Parser, extra: list[str], words: Sequence[str]) -> UsageError:
    """The failure for words that are left over."""
    options = [word for word in extra if word.startswith("-") and word != "-"]
    if options:
        if _is_before_command(parser, options[0], words):
            advice = f"put {options[0]} after the command, as: {parser.prog} .. {options[0]}"
            return UsageError(parser, f"{options[0]} is before the command", advice)
        near = nearest(options[0].split("=")[0], parser.options())
        advice = f"did you mean {near}?" if near else parser.help_advice()
        return UsageError(parser, f"there is no option {options[0]}", advice)
    message = f"{' '.join(extra)} is too much"
    for option in (each for each in _QUOTED if each in words):
        advice = f"put what belongs to {option} in quotes, as: {option} '{_joined(option, words)}'"
        return UsageError(parser, message, advice)
    return UsageError(parser, message, _TOO_MANY.get(parser.prog, parser.help_advice()))


def may_be_rest(extra: Sequence[str], words: Sequence[str]) -> bool:
    """Whether words that are left over may be more of those that a command takes several of. Not
    where one is an option, nor where they seem to belong to a change without quotes."""
    if any(word.startswith("-") and word != "-" for word in extra):
        return False
    values = [after for word, after in zip(words, words[1:]) if word == "--set"]
    return all(len(value.split()) > 1 for value in values)


def _is_before_command(parser: Parser, option: str, words: Sequence[str]) -> bool:
    """Whether an option that the command takes stands before it."""
    command = parser.prog.split()[-1]
    return option in parser.options() and words.index(option) < words.index(command)


def _joined(option: str, words: Sequence[str]) -> str:
    """The words that seem to belong to an option: those after it, up to the next option."""
    after = list(words[words.index(option) + 1 :])
    count = next((place for place, word in enumerate(after) if word.startswith("-")), len(after))
    return " ".join(after[:count])
