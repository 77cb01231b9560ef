"""Checks BGP route-reflection plans, over a library whose every answer is proved.

`Plan.read(path)` reads a plan, from text or from bytes. See `rrp.plan`.
"""

from __future__ import annotations

from importlib import import_module
from typing import TYPE_CHECKING

if TYPE_CHECKING:
    from .errors import LibraryMissing, RrpError, UnknownName
    from .figures import Figures
    from .hop_sets import HopSet
    from .library import Refused
    from .plan import Comparison, EveryList, Explanation, Grade, Plan, Run
    from .plan import TooFarToNarrow, TooManyGrouped, Verdict
    from .steady import Steady, SteadyTable
    from .tables import Route, Table
    from .text import TextErrors

#: The version of the package, which `rrp --version` writes; pyproject.toml has it too.
__version__ = "1.12.0"

#: The names of the package, and the modules that they are of.
_HOMES = {
    "Comparison": "plan",
    "EveryList": "plan",
    "Explanation": "plan",
    "Figures": "figures",
    "Grade": "plan",
    "HopSet": "hop_sets",
    "LibraryMissing": "errors",
    "Plan": "plan",
    "Refused": "library",
    "Route": "tables",
    "RrpError": "errors",
    "Run": "plan",
    "Steady": "steady",
    "SteadyTable": "steady",
    "Table": "tables",
    "TextErrors": "text",
    "TooFarToNarrow": "plan",
    "TooManyGrouped": "plan",
    "UnknownName": "errors",
    "Verdict": "plan",
}

__all__ = sorted(_HOMES)


def __dir__() -> list[str]:
    """The names of the package, also those whose module is not imported yet."""
    return sorted({*globals(), *__all__})


def __getattr__(name: str) -> object:
    """A name of the package. Its module is imported when it is first asked for, so that the
    command, which does not ask for all, starts quickly."""
    if name not in _HOMES:
        raise AttributeError(f"module {__name__!r} has no attribute {name!r}")
    return getattr(import_module(f"{__name__}.{_HOMES[name]}"), name)
