"""The verdicts of several plans, a line each."""

from __future__ import annotations

from collections.abc import Iterator, Sequence
from typing import NamedTuple, Union

from .always import always_values
from .output import count_words
from .rest import GRADES, rest_of
from .plan import ALWAYS_RESTS, EveryList, Plan
from .plan_folders import Failed


class Judged(NamedTuple):
    """A plan that was judged, by its file: how many lists it has, the names of those that are
    suspect, with the number of each one's grade, of those that are stable but leave routers without
    a route, and of those among them that nobody is in; and whether any list at all makes the plan
    suspect."""

    path: str
    lists: int
    suspect: tuple[str, ...]
    grades: tuple[int | None, ...]
    lacking: tuple[str, ...]
    nobody: tuple[str, ...]
    every_list: EveryList

    @property
    def word(self) -> str:
        """The verdict on all lists in a word."""
        return "suspect" if self.suspect else "stable"

    def passes(self, resting: bool) -> bool:
        """Whether all lists are stable or, if that is enough, come to rest whatever the order."""
        return all(resting and grade == ALWAYS_RESTS for grade in self.grades)

    @property
    def words(self) -> str:
        """How many lists are what, by name unless they are stable and leave nobody without."""
        parts = [count_words(self.lists, "list")]
        if self.suspect:
            parts = [f"{len(self.suspect)} of {count_words(self.lists, 'list')}"]
            parts[0] += f": {', '.join(self._graded())}"
        lacking = [name for name in self.lacking if name not in self.nobody]
        if lacking:
            parts.append(f"routers without a route in {', '.join(lacking)}")
        if self.nobody:
            parts.append(f"nobody in {', '.join(self.nobody)}")
        return "; ".join(parts)

    def _graded(self) -> Iterator[str]:
        """The names of the suspect lists, those of one grade together."""
        for grade, (one, several) in GRADES.items():
            names = [name for name, its in zip(self.suspect, self.grades) if its == grade]
            if names:
                yield f"{', '.join(names)} ({one if len(names) == 1 else several})"

    def values(self) -> dict[str, object]:
        """The plan and its lists as plain values."""
        return {
            "plan": self.path,
            "stable": not self.suspect,
            "lists": self.lists,
            "suspect_lists": self.suspect,
            "grades": dict(zip(self.suspect, self.grades)),
            "lists_without_route": self.lacking,
            "lists_of_nobody": self.nobody,
            **always_values(self.every_list),
        }


#: What is found of a file.
Found = Union[Judged, Failed]


def judged(plan: Plan) -> Judged:
    """A plan that was read, judged for each list."""
    verdicts = plan.verdicts()
    rests = [rest for rest in (rest_of(plan, each) for each in verdicts) if rest is not None]
    return Judged(
        path=plan.source,
        lists=len(verdicts),
        suspect=tuple(each.name for each in verdicts if not each.stable),
        grades=tuple(rest.number for rest in rests),
        lacking=tuple(each.name for each in verdicts if each.without_route),
        nobody=tuple(each.name for each in verdicts if each.nobody),
        every_list=plan.every_list(),
    )


def judged_rows(found: Sequence[Found]) -> list[tuple[str, ...]]:
    """The plans with their verdicts, or why they have none."""
    rows = [("plan", "verdict", "lists")]
    for each in found:
        if isinstance(each, Failed):
            why = each.why.removeprefix(each.path).removeprefix(":").strip()
            rows.append((each.path, "not judged", why))
        else:
            rows.append((each.path, each.word, each.words))
    return rows


def judged_sums(found: Sequence[Found]) -> dict[str, int]:
    """How many plans are stable for all lists, suspect for some, and not judged."""
    plans = [each for each in found if isinstance(each, Judged)]
    suspect = sum(bool(each.suspect) for each in plans)
    return {
        "plans": len(plans),
        "stable_plans": len(plans) - suspect,
        "suspect_plans": suspect,
        "not_judged": len(found) - len(plans),
    }


def judged_words(found: Sequence[Found]) -> str:
    """A line that counts the plans."""
    sums = judged_sums(found)
    words = f"{count_words(sums['plans'], 'plan')} judged: {sums['stable_plans']} stable for all "
    words += f"lists, {sums['suspect_plans']} suspect for some"
    failed = sums["not_judged"]
    return f"{words}; {failed} not judged" if failed else words
