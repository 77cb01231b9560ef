"""`rrp lab PLAN LIST`: a list as BGP daemons, written or booted and compared with the verdict."""

from __future__ import annotations

from argparse import ArgumentParser, ArgumentTypeError, Namespace
from collections.abc import Iterator, Sequence

from ..bars import Row, aligned, bar_lines
from ..columns import left, widest
from ..errors import RrpError
from ..failures import Failure
from ..inputs import add_plan, add_set, read_plan
from ..lab import signals
from ..lab.booting import GAP, READINGS
from ..lab.boots import IMPLEMENTATIONS, Stage, boot
from ..lab.comparing import AGREES, DIFFERS, MOVES, RESTS, SENDERS, OtherSender
from ..lab.failures import read_failure, without
from ..lab.folders import write_lab
from ..lab.script import SCRIPT
from ..output import (
    count_words,
    routers_do,
    source_values,
    verdict_lines,
    verdict_values,
    write_json,
    write_start,
)
from ..plan import Plan, Verdict
from ..rest import rest_of
from ..table_files import route_words, table_values

_EPILOG = (
    "With -o, the configurations of the routers and a script are written: ./lab up, show, down. "
    "With --run they are booted in network namespaces of their own, compared with the verdict once "
    "all sessions are established and the routers rest, and taken down. That needs root, BIRD 2 "
    "(Debian: bird2) or FRR (frr), and ip netns (iproute2). Distances stay as they are where "
    "something fails. A plan with the hop step is refused: neither has such a step. "
    "Exit status: 0 as the verdict promises, or written; 1 not; 2 error."
)


def arguments(parser: ArgumentParser) -> None:
    """Adds what `lab` takes."""
    add_plan(parser)
    parser.add_argument("list", metavar="LIST", help="a list, by name or number")
    parser.add_argument("-o", dest="output", metavar="DIR", help="write the lab to a new directory")
    parser.add_argument("--run", action="store_true", help="boot it, and compare with the verdict")
    parser.add_argument(
        "--with",
        dest="daemons",
        metavar="DAEMONS",
        choices=list(IMPLEMENTATIONS),
        default="bird",
        help="bird, BIRD 2; or frr, FRR (bird)",
    )
    parser.add_argument(
        "--fail",
        action="append",
        default=[],
        metavar="WHAT",
        help="while it runs, let 'session A B' or 'router A' fail; may be repeated",
    )
    parser.add_argument(
        "--again",
        metavar="N",
        type=_count,
        help="boot it N times, the daemons in different orders, and count what is seen",
    )
    add_set(parser, "write or boot the plan with a change")
    parser.epilog = _EPILOG


def _count(text: str) -> int:
    if not (text.isascii() and text.isdigit() and len(text) <= 4 and int(text)):
        raise ArgumentTypeError(f"{text!r} is no number from 1 to 9999")
    return int(text)


def run(options: Namespace) -> int:
    """Writes the lab, or boots it. Returns 1 if what is seen is not as the verdict promises."""
    if not (options.run or options.output):
        raise RrpError("name a directory to write the lab to with -o, or boot it with --run")
    if not options.run and (options.fail or options.again):
        raise RrpError("--fail and --again are for a lab that is booted: add --run")
    if options.output and options.again:
        raise RrpError("--again boots more than one lab: leave -o out")
    plan = read_plan(options)
    IMPLEMENTATIONS[options.daemons].refuse(plan)
    verdict = plan.verdict(options.list)
    return (_boot if options.run else _write)(plan, verdict, options)


def _write(plan: Plan, verdict: Verdict, options: Namespace) -> int:
    daemons = IMPLEMENTATIONS[options.daemons]
    files = write_lab(daemons, plan, verdict.name, options.output)
    if options.json:
        values = {"list": verdict.name, "directory": options.output}
        write_json({**source_values(plan), **values, "files": files, "notes": plan.notes})
        return 0
    write_start(plan)
    routers = count_words(len(plan.routers), "router")
    print(f"{options.output}: the list {verdict.name} as {routers} of {daemons.name}, and a script")
    print(f"as root: {options.output}/{SCRIPT} up; {options.output}/{SCRIPT} show; and then down")
    return 0


def _boot(plan: Plan, verdict: Verdict, options: Namespace) -> int:
    failures, daemons = _failures(plan, options.fail), IMPLEMENTATIONS[options.daemons]
    version = daemons.version()
    seeds = range(1, options.again + 1) if options.again else [None]
    asked = plan, verdict.name, failures
    with signals.raised():
        boots = [boot(*asked, seed, options.output, daemons) for seed in seeds]
    stages = list(zip(*boots))
    if options.json:
        write_json(_values(plan, verdict, version, boots))
    else:
        write_start(plan)
        for line in _lines(version, stages, len(boots)):
            print(line)
    return 0 if all(each.finding.as_promised for stages in boots for each in stages) else 1


def _failures(plan: Plan, texts: Sequence[str]) -> list[Failure]:
    """What is to fail, one after the other: each must be there when its turn comes."""
    failures = []
    for text in texts:
        failures.append(read_failure(plan, text))
        plan = without(plan, failures[-1])
    return failures


def _lines(version: str, stages: Sequence[Sequence[Stage]], boots: int) -> Iterator[str]:
    """What is seen, stage by stage, each in one boot or in several."""
    for each in stages:
        failure, plan, verdict = each[0][:3]
        then = "" if failure is None else "then "
        if failure is not None:
            yield from ("", f"{failure.words} fails")
        first, *more = verdict_lines(verdict, rest_of(plan, verdict))
        yield from [f"{verdict.name} is {then}{first}", *more]
        if failure is None:
            yield _boot_words(plan, version, boots)
        yield ""
        yield from _stage_lines(each[0]) if boots == 1 else _histogram(each)


def _boot_words(plan: Plan, version: str, boots: int) -> str:
    times = f"{count_words(boots, 'time')}, in different orders, " if boots > 1 else ""
    routers = count_words(len(plan.routers), "router")
    sessions = count_words(len(plan.sessions), "session")
    return f"booted {times}as {routers} of {version}, with {sessions}"


def _stage_lines(stage: Stage) -> Iterator[str]:
    """What is seen in one boot: what the routers hold beside what is due, and what that says."""
    if stage.table is not None:
        yield from _table_lines(stage)
    yield from _finding_lines(stage)


def _table_lines(stage: Stage) -> Iterator[str]:
    due, found = stage.finding.due, stage.finding.comparison
    routers = list(stage.table)
    columns = [
        ["router", *routers],
        ["booted", *(route_words(stage.table[router]) for router in routers)],
    ]
    if due is not None:
        head = "verdict" if stage.verdict.stable else f"table {stage.finding.number}"
        columns.append([head, *(route_words(due[router]) for router in routers)])
        marks = {each.router: "by CLUSTER_LIST" for each in found.senders}
        marks.update(dict.fromkeys(found.differing, "differs"))
        columns.append(["", *(marks.get(router, "") for router in routers)])
    widths = [widest(column) for column in columns]
    for row in zip(*columns):
        yield "  ".join(map(left, row, widths)).rstrip()
    yield ""


def _finding_lines(stage: Stage) -> Iterator[str]:
    found = stage.finding
    if found.kind == MOVES:
        yield f"moves: {_READ}, and updates came all the time"
        yield (
            "the verdict promises that the routers settle: this is not as promised"
            if stage.verdict.stable
            else "that is as the verdict says: settling is not promised"
        )
    elif found.kind == RESTS:
        yield _rest_words(stage)
    elif found.kind == DIFFERS and stage.verdict.stable:
        who = ", ".join(found.comparison.differing)
        yield f"differs: {routers_do(found.comparison.differing, 'hold')} another route: {who}"
    elif found.kind == DIFFERS:
        yield "differs: the routers rest in a table that the library does not list"
    else:
        yield _AGREES[found.kind]
    for each in found.comparison.senders:
        yield _sender_words(each)


_READ = f"read {READINGS} times, {GAP:g} s apart"
_AGREES = {
    AGREES: "agrees: every router holds what the verdict says",
    SENDERS: "agrees but for senders: every router holds the egress that the verdict says",
}


def _rest_words(stage: Stage) -> str:
    if stage.finding.number is None:
        return "rests: its steady tables are not worked out, so that it is compared with none"
    senders = " but for senders" if stage.finding.comparison.senders else ""
    return f"rests in table {stage.finding.number}{senders}, which is listed by rrp steady"


def _sender_words(each: OtherSender) -> str:
    held, due = each.held, each.due
    return (
        f"  {each.router} has {held.egress} from {held.sender}, whose CLUSTER_LIST has length "
        f"{held.cluster_list}, and not from {due.sender}, whose has {due.cluster_list}"
    )


def _histogram(stages: Sequence[Stage]) -> Iterator[str]:
    """How often each thing is seen in several boots. The first that is not as promised is shown in
    full."""
    seen: dict[tuple[str, int], int] = {}
    for each in stages:
        key = (_kind_words(each), each.finding.number or 0)
        seen[key] = seen.get(key, 0) + 1
    keys = sorted(seen, key=lambda key: (key[1], key[0]))
    counts = aligned(seen[key] for key in keys)
    rows = [Row((key[0], count), seen[key]) for key, count in zip(keys, counts)]
    yield from bar_lines(("seen", "boots"), rows)
    wrong = next((each for each in stages if not each.finding.as_promised), None)
    if wrong is not None:
        yield from ("", "the first boot that is not as promised:")
        yield from _stage_lines(wrong)


def _kind_words(stage: Stage) -> str:
    found = stage.finding
    if found.kind == RESTS and found.number is not None:
        return f"rests in table {found.number}"
    if found.kind == DIFFERS and not stage.verdict.stable:
        return "rests in a table that is not listed"
    return found.kind


def _values(
    plan: Plan, verdict: Verdict, version: str, boots: Sequence[Sequence[Stage]]
) -> dict[str, object]:
    return {
        **source_values(plan),
        "list": verdict.name,
        "routers": verdict.egresses,
        "daemons": version,
        "boots": [[_stage_values(each) for each in stages] for stages in boots],
        "as_promised": all(each.finding.as_promised for stages in boots for each in stages),
        "notes": plan.notes,
    }


def _stage_values(stage: Stage) -> dict[str, object]:
    found = stage.finding
    return {
        "failed": None if stage.failure is None else stage.failure.words,
        "verdict": verdict_values(stage.verdict, rest_of(stage.plan, stage.verdict)),
        "outcome": found.kind,
        "as_promised": found.as_promised,
        "steady_number": found.number,
        "table": None if stage.table is None else table_values(stage.table),
        "due": None if found.due is None else table_values(found.due),
        "senders": [_sender_values(each) for each in found.comparison.senders],
        "differing": found.comparison.differing,
    }


def _sender_values(each: OtherSender) -> dict[str, object]:
    return {
        "router": each.router,
        "egress": each.held.egress,
        "from": each.held.sender,
        "cluster_list": each.held.cluster_list,
        "due_from": each.due.sender,
        "due_cluster_list": each.due.cluster_list,
    }
