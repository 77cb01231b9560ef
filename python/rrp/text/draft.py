"""What the statements of a text say, by name, with the place of each."""

from __future__ import annotations

from typing import NamedTuple

from .words import Word


class Router(NamedTuple):
    """A router: its role, its identifier, and where it is stated."""

    role: int
    identifier: int
    word: Word


class Way(NamedTuple):
    """A link's weight or a distance, None for `none`, and where it is stated."""

    value: int | None
    word: Word


class EgressList(NamedTuple):
    """The routers of a list, and where it is stated."""

    routers: tuple[str, ...]
    word: Word


class Draft:
    """A plan before it becomes bytes.

    A session is known by its two names in order. A link or a distance is known by the router that
    it leads from and the one that it leads to. `wide` is where it is stated that the plan is to be
    RRP2, None if it is not.
    """

    def __init__(self, file: str) -> None:
        self.file = file
        self.routers: dict[str, Router] = {}
        self.sessions: dict[tuple[str, str], Word] = {}
        self.links: dict[tuple[str, str], Way] = {}
        self.distances: dict[tuple[str, str], Way] = {}
        self.lists: dict[str, EgressList] = {}
        self.wide: Word | None = None

    def copy(self) -> Draft:
        """A draft of the same content."""
        copied = Draft(self.file)
        copied.routers = dict(self.routers)
        copied.sessions = dict(self.sessions)
        copied.links = dict(self.links)
        copied.distances = dict(self.distances)
        copied.lists = dict(self.lists)
        copied.wide = self.wide
        return copied

    def sheets(self) -> set[str]:
        """The files of the sheets that links and sessions were read from."""
        words = [*self.sessions.values(), *(way.word for way in self.links.values())]
        return {word.line.file for word in words if word.line.sheet}

    @property
    def links_up(self) -> dict[tuple[str, str], int]:
        """The weights of the links that are not down."""
        return {ends: way.value for ends, way in self.links.items() if way.value is not None}

    def ways(self, kind: str) -> dict[tuple[str, str], Way]:
        """The links or the distances."""
        return self.links if kind == "link" else self.distances


def session(one: str, other: str) -> tuple[str, str]:
    """What the session of two routers is known by."""
    return (one, other) if one < other else (other, one)
