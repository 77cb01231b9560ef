"""The folder of a lab: the configurations of its routers, and the script that runs them."""

from __future__ import annotations

import os

from ..errors import RrpError
from ..files import write_file
from ..plan import Plan
from .daemons import Daemons
from .script import SCRIPT


def write_lab(daemons: type[Daemons], plan: Plan, egress_list: str, folder: str) -> list[str]:
    """Writes the lab of a list into a folder, which is made if it is not there and must be empty.
    Returns the names of the files."""
    files = daemons.files(plan, egress_list)
    _make(folder)
    for name, text in files.items():
        path = os.path.join(folder, name)
        os.makedirs(os.path.dirname(path), exist_ok=True)
        write_file(path, text.encode("utf-8", "backslashreplace"))
    os.chmod(os.path.join(folder, SCRIPT), 0o755)
    return list(files)


def _make(folder: str) -> None:
    try:
        os.makedirs(folder, exist_ok=True)
        if os.listdir(folder):
            raise RrpError(f"{folder} is not empty: name a new directory")
    except (OSError, ValueError) as failure:
        reason = getattr(failure, "strerror", None) or failure
        raise RrpError(f"{folder} cannot be written: {reason}") from None
