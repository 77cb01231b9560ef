"""Sheets of links and of sessions, as CSV: files that a plan's text names.

The first line names the columns, and every other line is a link or a session. The columns `a` and
`b` are the two ends, of a link both ways; `from` and `to` those of a link one way. Other columns
are left alone.
"""

from __future__ import annotations

import os
import re
from collections.abc import Sequence

from ..errors import RrpError
from ..files import need_file, read_file
from .decoding import decode_text
from .problems import Problem, Slip, TextErrors, guess
from .statements import SessionStatement, SheetStatement, Statement, WayStatement
from .statements import clear, read_value
from .words import Line, Word, after, lines_of

#: What may stand between two cells. A sheet has the one that its first line has first.
_SEPARATORS = ",;\t"

#: The columns that a sheet may have, and how to write its first line.
_COLUMNS = {"links": ("a", "b", "from", "to", "weight"), "sessions": ("a", "b")}
_FIRST_LINES = {
    "links": "start with a line that names the columns: a,b,weight both ways, or from,to,weight",
    "sessions": "start with a line that names the columns: a,b",
}

_NOT_TEXT = "a sheet is text in UTF-8: save it as CSV in UTF-8"


def read_sheet(sheet: SheetStatement, problems: list[Problem]) -> list[Statement]:
    """The statements of the lines of a sheet. Its problems are added to those given."""
    path = os.path.join(os.path.dirname(sheet.file.line.file), sheet.file.text)
    try:
        need_file(path)
        name, data = read_file(path, "sheet")
    except RrpError as failure:
        advice = "a sheet is named from the folder that the plan is in"
        problems.append(Problem(sheet.file, str(failure), advice))
        return []
    try:
        text = decode_text(data, name, _NOT_TEXT, sheet=True)
    except TextErrors as failure:
        problems += failure.problems
        return []
    lines = [line for line in lines_of(text, name, sheet=True) if _has_content(line)]
    if not lines:
        problems.append(Problem(sheet.file, f"{name} is empty", _FIRST_LINES[sheet.kind]))
        return []
    return _Sheet(sheet.kind, lines, problems).statements()


def _has_content(line: Line) -> bool:
    """Whether a line has a cell that is not empty. A # starts no comment: the name of a circuit may
    start with one."""
    return bool(line.text.strip(" \t,;"))


class _Sheet:
    """The lines of a sheet, of which the first names the columns."""

    def __init__(self, kind: str, lines: Sequence[Line], problems: list[Problem]) -> None:
        self.kind, self.lines, self.problems = kind, lines, problems
        first = lines[0].text
        self.separator = min(_SEPARATORS, key=lambda each: first.find(each) % (len(first) + 1))
        self.columns: dict[str, int] = {}

    def statements(self) -> list[Statement]:
        """The statements that the lines make."""
        try:
            ends = self._read_columns()
        except Slip as slip:
            self.problems.append(slip.problem)
            return []
        found = []
        for line in self.lines[1:]:
            try:
                found.append(self._statement(_cells(line, self.separator), ends))
            except Slip as slip:
                self.problems.append(slip.problem)
        return found

    def _read_columns(self) -> tuple[str, str]:
        """Takes the names of the columns. Returns those of the two ends."""
        cells, advice = _cells(self.lines[0], self.separator), _FIRST_LINES[self.kind]
        for place, cell in enumerate(cells):
            name = cell.text.lower()
            if name in _COLUMNS[self.kind]:
                if name in self.columns:
                    raise Slip(cell, f"the column {name} is there twice", "leave one of them out")
                self.columns[name] = place
        one_way = "from" in self.columns or "to" in self.columns
        ends = ("from", "to") if one_way else ("a", "b")
        if one_way and {"a", "b"} & set(self.columns):
            message = "the ends of a link are a and b, both ways, or from and to, one way"
            raise Slip(cells[0], message, advice)
        for name in (*ends, *["weight"] * (self.kind == "links")):
            if name not in self.columns:
                texts = [cell.text.lower() for cell in cells]
                near = guess(name, texts, self.problems)
                word = cells[texts.index(near)] if near else cells[0]
                raise Slip(word, f"there is no column {name}", advice)
        return ends

    def _statement(self, cells: list[Word], ends: tuple[str, str]) -> Statement:
        one, other = (_name(self._cell(cells, name), name) for name in ends)
        if self.kind == "sessions":
            return SessionStatement(one, other, True)
        value = read_value(self._cell(cells, "weight"), "link")
        return WayStatement("link", one, other, ends[0] == "from", value)

    def _cell(self, cells: list[Word], name: str) -> Word:
        """The cell of a column, which is not empty."""
        place = self.columns[name]
        cell = cells[place] if place < len(cells) else after(cells[-1])
        if not cell.text:
            what = "the weight" if name == "weight" else f"the router in {name}"
            columns = self.separator.join(sorted(self.columns, key=self.columns.get))
            raise Slip(cell, f"{what} is missing", f"the columns are {columns}")
        return cell


def _cells(line: Line, separator: str) -> list[Word]:
    """The cells of a line, without blanks around them. One in quotes may have the separator in
    it."""
    pattern = re.compile(rf' *"((?:[^"]|"")*)" *(?={separator}|$)|([^{separator}]*)')
    cells, place = [], 0
    while True:
        found = pattern.match(line.text, place)
        group = 1 if found[1] is not None else 2
        text = found[group].strip()
        column = found.start(group) + found[group].find(text) + 1
        if group == 2 and text.startswith('"'):
            word = Word(text, line, column)
            raise Slip(word, "a quote is not closed", "a cell with a quote in it ends on its line")
        cells.append(Word(text.replace('""', '"') if group == 1 else text, line, column))
        place = found.end() + 1
        if found.end() >= len(line.text):
            return cells


def _name(cell: Word, column: str) -> Word:
    """A cell that is a router's name."""
    if not cell.text.isprintable() or re.search(r"[\s#>]", cell.text):
        message = f"{clear(cell.text)} in {column} is no router's name"
        raise Slip(cell, message, "name the router as the plan does")
    return cell
