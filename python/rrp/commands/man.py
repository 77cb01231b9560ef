"""`rrp man`: the man page."""

from __future__ import annotations

import sys
from argparse import ArgumentParser, Namespace

from ..output import write_json


def arguments(parser: ArgumentParser) -> None:
    """Adds what `man` takes."""
    parser.epilog = (
        "It has what --help says of each command. To read it: rrp man | man -l -. To keep it: "
        "rrp man >~/.local/share/man/man1/rrp.1. Exit status: 0 written; 2 error."
    )


def run(options: Namespace) -> int:
    """Writes the page. Returns 0."""
    from ..command import man_page

    text = man_page()
    if options.json:
        write_json({"page": text})
    else:
        sys.stdout.write(text)
    return 0
