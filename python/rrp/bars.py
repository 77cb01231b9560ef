"""Tables whose rows end in a bar, with a mark for each thing that is counted."""

from __future__ import annotations

from collections.abc import Iterable, Iterator, Sequence
from typing import NamedTuple

from .columns import left, right, widest

#: A bar has at most so many marks. Where a count is higher, a mark stands for several.
LONGEST = 40
MARK = "#"


class Row(NamedTuple):
    """A row: its cells, and the count that its bar shows."""

    cells: tuple[str, ...]
    count: int


def bar_lines(heads: Sequence[str], rows: Sequence[Row]) -> Iterator[str]:
    """The rows under their heads, each with its bar. The last head may be wider than its column,
    and says for how many a mark stands, if not for one. What is left over of so many has a mark
    too, so that no bar is empty but that of 0."""
    per = max(1, -(-max(row.count for row in rows) // LONGEST))
    widths = [widest(column) for column in zip(*(row.cells for row in rows))]
    widths[:-1] = [max(width, widest([head])) for width, head in zip(widths[:-1], heads)]
    scale = f" (a {MARK} for up to {per:,})" if per > 1 else ""
    yield _line(heads, widths, scale)
    for row in rows:
        yield _line(row.cells, widths, f"  {MARK * -(-row.count // per)}")


def _line(cells: Iterable[str], widths: Sequence[int], end: str) -> str:
    return ("  ".join(map(left, cells, widths)) + end).rstrip()


def aligned(numbers: Iterable[int]) -> list[str]:
    """Numbers as cells, the last digits below one another."""
    texts = [f"{number:,}" for number in numbers]
    return [right(text, widest(texts)) for text in texts] if texts else []
