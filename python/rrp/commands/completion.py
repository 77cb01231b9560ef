"""`rrp completion SHELL`: completions for a shell. `rrp completion lists PLAN` has the names that a
completion asks for."""

from __future__ import annotations

import sys
from argparse import ArgumentParser, Namespace

from ..completion import NAMES, bash, zsh
from ..errors import RrpError
from ..output import write_json
from ..plan import Plan

_SHELLS = {"bash": bash, "zsh": zsh}
_ASKED = sorted(set(NAMES.values()))


def arguments(parser: ArgumentParser) -> None:
    """Adds what `completion` takes."""
    what = "bash or zsh; or lists or routers, for the names that a plan has"
    parser.add_argument("what", metavar="SHELL", choices=[*_SHELLS, *_ASKED], help=what)
    plan = "a plan whose names are written, a line each"
    parser.add_argument("plan", metavar="PLAN", nargs="?", help=plan)
    parser.epilog = (
        'For bash put into ~/.bashrc: eval "$(rrp completion bash)". For zsh put into ~/.zshrc, '
        'after compinit: eval "$(rrp completion zsh)". Commands, options, files, and the lists and '
        "routers of the plan in the line are completed. Exit status: 0 written; 2 error."
    )


def run(options: Namespace) -> int:
    """Writes completions, or names. Returns 0."""
    if (options.what in _ASKED) != (options.plan is not None):
        needs = "needs a PLAN" if options.what in _ASKED else "takes no PLAN"
        raise RrpError(f"completion {options.what} {needs}")
    if options.plan is not None:
        lines = getattr(Plan.read(options.plan), options.what)
    else:
        from ..command import all_commands

        lines = _SHELLS[options.what](all_commands()).splitlines()
    if options.json:
        write_json({"what": options.what, "lines": lines})
    else:
        sys.stdout.write("".join(f"{line}\n" for line in lines))
    return 0
