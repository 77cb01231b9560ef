"""The figures of plans as text: what is counted, in words and in tables with bars.

No word here may say more than was counted. A suspect list may well settle, and a router that is
often in groups need not be the one to change.
"""

from __future__ import annotations

from collections.abc import Iterable, Iterator, Sequence
from itertools import groupby

from .bars import Row, aligned, bar_lines
from .figures import RouterSum, Sums
from .library import MAX_ROUTERS
from .rest import grade_words, standing_lines
from .text.writing import identifier_text

#: So many routers and so many plans have a row where plans are summed.
_MOST_ROWS = 20

#: More ranks than so many, one after the other, share a row where no stable list has them.
_MOST_EMPTY = 2

#: What is counted of a router.
_IN_GROUP = "lists in which it is in a group of two or more"

#: What is said where some list is suspect.
_SUSPECT = (
    "suspect says that settling is not promised, and is no proof that the routers never settle",
    "routers in a group of two or more rely on one another, directly or through others",
)


def figure_lines(sums: Sums, by_plan: bool) -> Iterator[str]:
    """The figures, also by plan if that is asked for."""
    several = len(sums.plans) > 1
    yield _lists_line(sums)
    if sums.suspect:
        yield f"of the suspect lists {grade_words(sums.by_grade)}"
    yield _highest_line(sums)
    yield from _rank_lines(sums)
    yield ""
    yield from _router_lines(sums, several, _MOST_ROWS if several else MAX_ROUTERS)
    if sums.suspect:
        if by_plan:
            yield ""
            yield from _plan_lines(sums)
        yield from ("", *_SUSPECT, *standing_lines(sums.by_grade))


def many(count: int, noun: str) -> str:
    """A count with its noun, where it may be a large one: 1 list, 2,000 lists."""
    return f"{count:,} {noun}" if count == 1 else f"{count:,} {noun}s"


def _lists_line(sums: Sums) -> str:
    words = f"{many(sums.lists, 'list')}: {sums.stable:,} stable, {sums.suspect:,} suspect"
    if not sums.nobody:
        return words
    names = "names" if sums.nobody == 1 else "name"
    return f"{words}; {sums.nobody:,} of the stable ones {names} nobody"


def _highest_line(sums: Sums) -> str:
    rank = "absent, as no list is stable" if sums.highest is None else sums.highest
    return f"highest rank among the stable lists: {rank}"


def _rank_lines(sums: Sums) -> Iterator[str]:
    """How many stable lists have each rank as their highest, up to the highest of all."""
    if sums.highest is None:
        return
    spans = list(_spans(sums.by_rank[: sums.highest + 1]))
    counts = aligned(count for *_, count in spans)
    rows = []
    for (first, last, count), cell in zip(spans, counts):
        rounds = f"{_from_to(first + 2, last + 2)} rounds"
        rows.append(Row((_from_to(first, last), rounds, cell), count))
    yield ""
    yield from bar_lines(("highest rank", "settles within", "stable lists"), rows)


def _spans(counts: Sequence[int]) -> Iterator[tuple[int, int, int]]:
    """The ranks with their counts, each from a first to a last one: itself, or several with 0."""
    for empty, ranks in groupby(range(len(counts)), lambda rank: counts[rank] == 0):
        found = list(ranks)
        if empty and len(found) > _MOST_EMPTY:
            yield found[0], found[-1], 0
        else:
            yield from ((rank, rank, counts[rank]) for rank in found)


def _from_to(first: int, last: int) -> str:
    return f"{first}" if first == last else f"{first} to {last}"


def _router_lines(sums: Sums, several: bool, most: int) -> Iterator[str]:
    """The routers that are in groups of two or more, most often first, at most so many."""
    grouped = [each for each in sums.by_router if each.grouped]
    if not grouped:
        yield "no router is in a group of two or more in any list"
        return
    shown, more = grouped[:most], grouped[most:]
    heads = ("router", *["identifier"] * several, _IN_GROUP)
    cells = _of_lists([(each.grouped, each.lists) for each in shown])
    rows = [
        Row((*_known_by(each, several), cell), each.grouped) for each, cell in zip(shown, cells)
    ]
    yield from bar_lines(heads, rows)
    if more:
        yield f".. and {many(len(more), 'router')} more, in {_span(each.grouped for each in more)}"
    others = len(sums.by_router) - len(grouped)
    if others:
        yield f"{_others(others, 'router')} {'is' if others == 1 else 'are'} in no such group"
    if several:
        yield from _identity_lines(shown)


def _known_by(router: RouterSum, several: bool) -> tuple[str, ...]:
    """What a router is known by, of one plan or of several."""
    identifier = [identifier_text(router.identifier)] * several
    return (router.name or "-", *identifier)


def _identity_lines(shown: Iterable[RouterSum]) -> Iterator[str]:
    """What a row stands for where plans are summed."""
    if any(each.plans > 1 for each in shown):
        yield "routers of several plans are taken for one where name and identifier are the same"
    if any(each.name is None for each in shown):
        yield "a router without a name, as in plans in bytes, is known by its identifier"


def _plan_lines(sums: Sums) -> Iterator[str]:
    """The plans that have suspect lists, those with most first."""
    plans = [each for each in sums.plans if each.figures.suspect]
    plans.sort(key=lambda each: -each.figures.suspect)
    shown, more = plans[:_MOST_ROWS], plans[_MOST_ROWS:]
    cells = _of_lists([(each.figures.suspect, each.figures.lists) for each in shown])
    rows = [Row((each.path, cell), each.figures.suspect) for each, cell in zip(shown, cells)]
    yield from bar_lines(("plan", "suspect lists"), rows)
    if more:
        lists = _span(each.figures.suspect for each in more)
        yield f".. and {many(len(more), 'plan')} more, with {lists} each"
    others = len(sums.plans) - len(plans)
    if others:
        yield f"{_others(others, 'plan')} {'has' if others == 1 else 'have'} none"


def _of_lists(pairs: Sequence[tuple[int, int]]) -> list[str]:
    """Cells that say how many lists of how many, one below the other."""
    counts, lists = map(aligned, zip(*pairs))
    return [f"{count} of {total}" for count, total in zip(counts, lists)]


def _others(count: int, noun: str) -> str:
    """How many others there are: the other plan, the other 2 plans."""
    return f"the other {noun}" if count == 1 else f"the other {many(count, noun)}"


def _span(counts: Iterable[int]) -> str:
    """How many lists, from the lowest count to the highest."""
    found = sorted(counts)
    least = "" if found[0] == found[-1] else f"{found[0]:,} to "
    return f"{least}{many(found[-1], 'list')}"
