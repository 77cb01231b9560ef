"""`rrp sweep PLAN`: every failure of a link, a session or a router, judged for each list."""

from __future__ import annotations

from argparse import ArgumentParser, Namespace
from collections import Counter
from collections.abc import Iterable, Iterator, Sequence
from typing import NamedTuple

from ..always import always_values, always_words
from ..columns import right, row_lines, widest
from ..errors import RrpError
from ..failures import KINDS, LINK, ROUTER, Failure, failures_of, statements_of
from ..inputs import add_accept, add_plan, add_set, read_plan
from ..output import count_words, cycle_words, list_values, plan_line, plan_values, set_command
from ..output import verdict_lines, write_json, write_notes
from ..plan import NO, YES, EveryList, Plan, Verdict
from ..progress import with_progress
from ..rest import GRADES, Rest, promise_lines, rest_of
from ..sweeping import CLASSES, CUT, KEPT, MOVED, SUSPECT, Judged, NotJudged, Outcome, Sweep
from ..sweeping import beyond, loses, pairs_of

#: What words after options are more of.
REST = "lists"

#: So many failures are shown, unless all are asked for, and so many routers of each.
_MOST_ROWS = 20
_MOST_NAMES = 6

#: What failures of each class do, one and several.
_DOES = {
    SUSPECT: ("makes a stable list suspect", "make a stable list suspect"),
    CUT: ("leaves routers without a route", "leave routers without a route"),
    MOVED: ("moves routers to another egress", "move routers to another egress"),
    KEPT: ("moves nothing", "move nothing"),
}
_KEEPS = ": every router keeps its egress"

#: What two failures do at once beyond what either does alone.
_BEYOND = "beyond what either does alone"


class Swept(NamedTuple):
    """All that was judged, worst first, and what was not. Of pairs, `beyond` has those that do more
    than either failure alone, each with that alone."""

    judged: list[Judged]
    pairs: list[Judged]
    beyond: list[Judged]
    not_judged: list[NotJudged]


class Losing(NamedTuple):
    """Whether any list makes a plan suspect as it is; the failures with which one may though none
    does as it is; such pairs of failures of which neither does so alone; and how many failures
    there are, and with how many no list does."""

    as_it_is: EveryList
    alone: list[Judged]
    pairs: list[Judged]
    judged: int
    kept: int

    def values(self) -> dict[str, object]:
        """The same as plain values."""
        found = {"lost": self.alone, "lost_by_pairs": self.pairs}
        return {
            "as_it_is": always_values(self.as_it_is),
            **{name: [_lost_values(each) for each in judged] for name, judged in found.items()},
            "kept": self.kept,
        }


def arguments(parser: ArgumentParser) -> None:
    """Adds what `sweep` takes."""
    add_plan(parser)
    which = "lists to judge, by name or number; without them all are"
    parser.add_argument("lists", metavar="LIST", nargs="*", help=which)
    for kind in KINDS:
        said = f"judge failures of {kind}s; without --links, --sessions and --routers, all kinds"
        parser.add_argument(f"--{kind}s", action="store_true", help=said)
    pairs = "judge each two of these failures at once too"
    parser.add_argument("--pairs", action="store_true", help=pairs)
    always = "tell too after which failures some egress list can make the plan suspect"
    parser.add_argument("--always", action="store_true", help=always)
    every = f"show every failure that does something, and not the worst {_MOST_ROWS}"
    parser.add_argument("--all", action="store_true", help=every)
    add_accept(parser)
    add_set(parser)
    parser.epilog = (
        "Each failure is judged by itself, with --pairs each two at once as well, for every list. "
        "The worst come first: those that make a stable list suspect, that leave routers without "
        "a route, that move routers to another egress. A link fails in both directions, and the "
        "distances are worked out again from the links that are left; those that are stated stay. "
        "A router that fails takes its sessions, links and listings with it: a list that had it "
        "alone is then one of nobody. A client that loses its last session with a reflector is "
        "judged as cut off: it ends without a route, unless it has its own or one by another "
        "session. Of a plan that states distances and no links, as in bytes, links are not "
        "judged. Of a list that is suspect, before or after, no routes are compared; told is its "
        "grade, whether it comes to rest. Two failures are shown where they do more than either "
        "alone. With --always it is told, of a plan that no egress list can make suspect, after "
        "which failures one can, or none is found and some may exist. "
        "Exit status: 0 no failure makes a stable list suspect, be lists suspect as the plan is "
        "or not; 1 some failure does, with --accept one after which a list is not known to come "
        "to rest whatever the order, and with --always some failure loses that no list can make "
        "the plan suspect; 2 error, also where the plan without what fails is refused, so that "
        "this failure is not judged."
    )


def run(options: Namespace) -> int:
    """Judges failures. Returns 1 if one makes a stable list suspect, and it does not come to rest
    or that is not accepted, 2 if one is not judged."""
    plan = read_plan(options)
    numbers = [plan.list_number(which) for which in dict.fromkeys(options.lists)]
    lists = sorted(set(numbers)) or range(len(plan.lists))
    failures = _failures(plan, options)
    sweep = Sweep(plan, lists, options.always)
    swept = _swept(sweep, failures, options.pairs)
    verdicts = [(each, rest_of(plan, each)) for each in map(plan.verdict, lists)]
    limits = list(_limits(plan, failures, options))
    losing = _losing(plan, swept) if options.always else None
    if options.json:
        _write_values(plan, verdicts, failures, swept, limits, losing)
    else:
        write_notes(plan.notes)
        for line in _lines(plan, verdicts, failures, swept, limits, options):
            print(line)
        for line in [] if losing is None else _losing_lines(losing, options.all):
            print(line)
    if swept.not_judged:
        return 2
    resting = bool(options.accept)
    lost = losing is not None and (losing.alone or losing.pairs)
    passed = all(each.passes(resting) for each in (*swept.judged, *swept.pairs))
    return 0 if passed and not lost else 1


def _failures(plan: Plan, options: Namespace) -> list[Failure]:
    """The failures that are asked for."""
    asked = [kind for kind in KINDS if getattr(options, f"{kind}s")]
    if asked == [LINK] and not failures_of(plan, LINK):
        where = "a plan has them in its text, in a sheet or in JSON, and never in bytes"
        raise RrpError(f"{plan.source} has no links to judge: {where}")
    return [each for kind in asked or KINDS for each in failures_of(plan, kind)]


def _swept(sweep: Sweep, failures: Sequence[Failure], pairs: bool) -> Swept:
    """Judges failures, with a bar while it does."""
    singles = [(each,) for each in failures]
    asked = [*singles, *(pairs_of(failures) if pairs else [])]
    work = with_progress(sweep.judge_all(asked), len(asked), _is_worst, "suspect", "failures")
    found = {each.failures: each for each in work}
    ordered = [found[each] for each in asked]
    judged = [each for each in ordered if isinstance(each, Judged)]
    both = [each for each in judged if len(each.failures) == 2]
    more = []
    for pair in both:
        alone = [found[each,] for each in pair.failures]
        if all(isinstance(each, Judged) for each in alone):
            more.append(beyond(pair, alone))
    return Swept(
        sorted((each for each in judged if len(each.failures) == 1), key=Judged.weight),
        sorted(both, key=Judged.weight),
        sorted(more, key=Judged.weight),
        [each for each in ordered if isinstance(each, NotJudged)],
    )


def _losing(plan: Plan, swept: Swept) -> Losing:
    """With which failures some list may make a plan suspect that none does as it is."""
    as_it_is = plan.every_list()
    kept = sum(not loses(each) for each in swept.judged)
    if as_it_is.answer != YES:
        return Losing(as_it_is, [], [], len(swept.judged), kept)
    alone = [each for each in swept.judged if loses(each)]
    losers = {each.failures[0] for each in alone}
    pairs = [each for each in swept.pairs if loses(each) and not losers & set(each.failures)]
    return Losing(as_it_is, alone, pairs, len(swept.judged), kept)


def _losing_lines(losing: Losing, every: bool) -> Iterator[str]:
    """The failures that lose it, with a list that then makes the plan suspect."""
    yield ""
    yield f"as it is, {always_words(losing.as_it_is)}"
    failures = count_words(losing.judged, "failure")
    if losing.as_it_is.answer != YES:
        yield f"under {losing.kept} of {failures} no egress list can"
        return
    yield f"{len(losing.alone)} of {failures} {'loses' if len(losing.alone) == 1 else 'lose'} that"
    told = [*losing.alone, *losing.pairs]
    shown = told if every else told[:_MOST_ROWS]
    if shown:
        yield from row_lines([(f"  {each.words}", _lost_words(each.every_list)) for each in shown])
    if losing.pairs:
        yield f"of these {count_words(len(losing.pairs), 'pair')} of which neither does so alone"
    if len(told) > len(shown):
        yield f".. and {len(told) - len(shown)} more: --all shows them"


def _lost_words(found: EveryList) -> str:
    """What is known of lists with a failure after which some may make the plan suspect."""
    if found.answer == NO:
        return f"suspect with the list {', '.join(found.routers)}"
    return "undecided: no list found that makes it suspect; some may exist"


def _lost_values(judged: Judged) -> dict[str, object]:
    """What fails, and a list that then makes the plan suspect, as plain values."""
    failures = [each.values() for each in judged.failures]
    return {"failures": failures, **always_values(judged.every_list)}


def _is_worst(found: Judged | NotJudged) -> bool:
    return isinstance(found, Judged) and found.kind == SUSPECT


def _limits(plan: Plan, failures: Sequence[Failure], options: Namespace) -> Iterator[str]:
    """What the answers do not say."""
    draft, kinds = plan.draft, {each.kind for each in failures}
    asked = options.links or not (options.sessions or options.routers)
    if asked and not draft.links:
        yield "links are not judged: the plan states distances and has no links"
    if ROUTER in kinds and not draft.links:
        stay = "distances between other routers stay as stated"
        yield f"where a router fails, {stay}: ways through it are not known"
    if draft.links and draft.distances and kinds & {LINK, ROUTER}:
        count = count_words(len(draft.distances), "distance")
        stay = "is stated and stays" if len(draft.distances) == 1 else "are stated and stay"
        yield f"{count} {stay} as stated, whatever link fails"


def _lines(
    plan: Plan,
    verdicts: Sequence[tuple[Verdict, Rest | None]],
    failures: Sequence[Failure],
    swept: Swept,
    limits: Iterable[str],
    options: Namespace,
) -> Iterator[str]:
    """What was judged, what not, a summary, and the worst first."""
    yield plan_line(plan)
    kinds = Counter(each.kind for each in failures)
    parts = [count_words(kinds[kind], kind) for kind in KINDS if kinds[kind]]
    lists = count_words(len(verdicts), "list")
    yield f"judged for {lists}, each failing by itself: {', '.join(parts) or 'nothing'}"
    yield from limits
    for each in swept.not_judged:
        yield f"not judged: {each.words}: {each.why}"
    yield from _as_it_is(verdicts, swept.judged)
    yield ""
    yield from _summary(swept.judged)
    yield from _rows(swept.judged, options.all)
    if options.pairs:
        yield ""
        yield f"judged two at once: {count_words(len(swept.pairs), 'pair')}"
        yield from _summary(swept.beyond, f" {_BEYOND}")
        yield from _rows(swept.beyond, options.all)
    told = [*swept.judged, *swept.beyond]
    yield from promise_lines(
        [*(rest for _, rest in verdicts), *(one.rest for each in told for one in each.outcomes)]
    )
    yield from _advice(plan, options.plan, swept)


def _as_it_is(
    verdicts: Sequence[tuple[Verdict, Rest | None]], judged: Sequence[Judged]
) -> Iterator[str]:
    """What there is to say of lists as the plan is: those that are suspect, and those that leave
    routers without a route."""
    for verdict, rest in verdicts:
        first, *more = verdict_lines(verdict)
        if not verdict.stable:
            outcomes = [each for one in judged for each in one.outcomes]
            still = [each.rest for each in outcomes if each.name == verdict.name and each.cycle]
            yield f"as it is, {verdict.name} is {first}"
            yield f"    {rest.words}"
            under = f"under {len(still)} of {count_words(len(judged), 'failure')}{_times(still)}"
            yield f"    it is suspect {under}; its routes are not compared with those as it is"
        elif verdict.without_route:
            yield f"as it is, {verdict.name} is stable: {'; '.join(more)}"


def _times(rests: Sequence[Rest]) -> str:
    """How often a list that is suspect under some failures does what, by its grade then."""
    counts = Counter(rest.number for rest in rests)
    parts = [f"{words[0]}: {counts[grade]}" for grade, words in GRADES.items() if counts[grade]]
    return f" ({', '.join(parts)})" if parts else ""


def _summary(judged: Sequence[Judged], suffix: str = "") -> Iterator[str]:
    """How many failures do what."""
    counts = Counter(each.kind for each in judged)
    width = widest(str(counts[kind]) for kind in CLASSES)
    for kind in CLASSES:
        words = _DOES[kind][counts[kind] != 1]
        end = suffix or (_KEEPS if kind == KEPT else "")
        yield f"{right(str(counts[kind]), width)} {words}{end}"


def _rows(judged: Sequence[Judged], every: bool) -> Iterator[str]:
    """The failures that do something, worst first."""
    told = [each for each in judged if each.kind != KEPT]
    shown = told if every else told[:_MOST_ROWS]
    if not shown:
        return
    rows = [("failure", "list", "what it does")]
    for each in shown:
        outcomes = sorted(each.outcomes, key=lambda one: CLASSES.index(one.kind))
        cells = [(one.name, _words(one)) for one in outcomes if one.kind != KEPT]
        firsts = [each.words, *[""] * (len(cells) - 1)]
        rows += [(first, *cell) for first, cell in zip(firsts, cells)]
    yield ""
    yield from row_lines(rows)
    if len(told) > len(shown):
        more = count_words(len(told) - len(shown), "failure")
        yield f".. and {more} more that do something: --all shows them"


def _words(outcome: Outcome) -> str:
    """What a failure does to a list, in a line."""
    if outcome.cycle:
        return f"suspect: {cycle_words(outcome.cycle)}; {outcome.rest.brief}"
    parts = [] if outcome.was_stable else ["then stable"]
    if outcome.lost:
        parts.append(f"without a route: {_names(outcome.lost)}")
    ways: dict[tuple[str, str], list[str]] = {}
    for move in outcome.moved:
        ways.setdefault((move.before, move.after), []).append(move.router)
    for (before, after), routers in ways.items():
        parts.append(f"{before} -> {after}: {_names(routers)}")
    return "; ".join(parts)


def _names(routers: Sequence[str]) -> str:
    """Routers by name, the first few of many."""
    if len(routers) <= _MOST_NAMES:
        return ", ".join(routers)
    shown = ", ".join(routers[: _MOST_NAMES - 1])
    return f"{shown} and {len(routers) - _MOST_NAMES + 1} more"


def _advice(plan: Plan, path: str, swept: Swept) -> Iterator[str]:
    """How to see a failure in full: the worst one, or the worst that is one statement, if any."""
    told = [each.failures[0] for each in swept.judged if each.kind != KEPT]
    short = [each for each in told if len(statements_of(plan, each)) == 1]
    for failure in (*short, *told)[:1]:
        command = set_command(path, [*plan.changes, *statements_of(plan, failure)])
        yield f"to see {failure.words} in full: {command}"


def _write_values(
    plan: Plan,
    verdicts: Sequence[tuple[Verdict, Rest | None]],
    failures: Sequence[Failure],
    swept: Swept,
    limits: list[str],
    losing: Losing | None,
) -> None:
    kinds = Counter(each.kind for each in failures)
    judged = {f"{kind}s": kinds[kind] for kind in KINDS}
    write_json(
        {
            **plan_values(plan),
            "judged": {**judged, "pairs": len(swept.pairs)},
            "limits": limits,
            "not_judged": [each.values() for each in swept.not_judged],
            "as_it_is": [list_values(*each) for each in verdicts],
            "counts": _counts(swept.judged),
            "failures": [each.values() for each in swept.judged],
            "pair_counts": _counts(swept.pairs),
            "beyond_counts": _counts(swept.beyond),
            "beyond": [each.values() for each in swept.beyond if each.kind != KEPT],
            **({} if losing is None else {"always": losing.values()}),
            "notes": plan.notes,
        }
    )


def _counts(judged: Sequence[Judged]) -> dict[str, int]:
    counts = Counter(each.kind for each in judged)
    return {kind: counts[kind] for kind in CLASSES}
