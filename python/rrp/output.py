"""What the commands write alike."""

from __future__ import annotations

import sys
from argparse import Namespace
from collections.abc import Iterable, Mapping, Sequence
from shlex import join
from types import MappingProxyType

from .encoding import CLIENT, WIDE, has_step
from .errors import RrpError
from .plan import Plan, Verdict
from .rest import Rest, any_table, promise_lines

#: Who is in a list of nobody.
NOBODY_LISTED = "no router is listed"


def write_json(value: object) -> None:
    """Writes a value as JSON on standard output, in ASCII, which every output can take."""
    import json

    json.dump(value, sys.stdout, indent=2)
    sys.stdout.write("\n")


def bytes_for_output(options: Namespace) -> None:
    """Refuses to write the bytes of a plan on a terminal."""
    if options.output == "-" and sys.stdout.isatty() and not options.json:
        raise RrpError("a plan's bytes are not for a terminal: name a file with -o")


def write_notes(notes: Iterable[str]) -> None:
    """Writes remarks that are no part of the answer on standard error."""
    for text in notes:
        print(f"note: {text}", file=sys.stderr)


def sizes(plan: Plan) -> dict[str, int]:
    """How much a plan has of everything. Those with the hop step are among the reflectors."""
    clients = plan.model.roles.count(CLIENT)
    return {
        "routers": len(plan.routers),
        "reflectors": len(plan.routers) - clients,
        "hop_step_reflectors": sum(map(has_step, plan.model.roles)),
        "clients": clients,
        "sessions": len(plan.model.sessions),
        "lists": len(plan.lists),
    }


def plan_values(plan: Plan) -> dict[str, object]:
    """Where a plan came from, its mark, its sizes and its changes, if any, as plain values."""
    source = source_values(plan)
    return {"plan": source.pop("plan"), "mark": plan.mark, "sizes": sizes(plan), **source}


def source_values(plan: Plan) -> dict[str, object]:
    """Where a plan came from and, if there are any, its changes, as plain values."""
    return {"plan": plan.source, **({"set": plan.changes} if plan.changes else {})}


def plan_line(plan: Plan) -> str:
    """A line on a plan: where it came from and its sizes; and its mark, if that is RRP2. Below it
    are the plan's changes, a line each."""
    mark = f", {plan.mark}" if plan.width == WIDE else ""
    return "\n".join([f"{sizes_line(plan)}{mark}", *with_lines(plan)])


def with_lines(plan: Plan) -> list[str]:
    """The changes by which a plan differs from the one that was read, a line each."""
    return [f"with {' '.join(text.split())}" for text in plan.changes]


def write_start(plan: Plan) -> None:
    """Writes what stands before an answer on one list: the notes, and with which changes the plan
    is judged."""
    write_notes(plan.notes)
    for line in with_lines(plan):
        print(line)


def sizes_line(plan: Plan) -> str:
    """A line on the sizes of a plan, without its mark."""
    counts = {name: count_words(count, name[:-1]) for name, count in sizes(plan).items()}
    parts = f"{counts['routers']} ({counts['reflectors']}{_step_words(plan)}, {counts['clients']})"
    return f"{plan.source}: {parts}, {counts['sessions']}, {counts['lists']}"


def _step_words(plan: Plan) -> str:
    """How many of the reflectors have the hop step, nothing if none has."""
    reflectors, stepping = (sizes(plan)[name] for name in ("reflectors", "hop_step_reflectors"))
    if stepping == 0:
        return ""
    if stepping < reflectors:
        return f", {stepping} of them with the hop step"
    return ", with the hop step" if reflectors == 1 else ", all with the hop step"


def count_words(count: int, noun: str) -> str:
    """A count with its noun: 1 list, 2 lists."""
    return f"{count} {noun}" if count == 1 else f"{count} {noun}s"


def verdict_words(verdict: Verdict) -> str:
    """A verdict in a few words."""
    if verdict.stable:
        return f"stable: highest rank {verdict.highest}, settles within {verdict.rounds} rounds"
    return f"suspect: {cycle_words(verdict.cycle)}"


def verdict_lines(verdict: Verdict, rest: Rest | None = None) -> list[str]:
    """A verdict in a few words and, in lines of their own, whether and where a suspect list comes
    to rest, if that is given, and who ends without a route."""
    where = [] if rest is None else [rest.words]
    return [verdict_words(verdict), *where, *without_route_lines(verdict)]


def rest_lines(
    path: str, rests: Mapping[str, Rest | None], changes: Iterable[str] = ()
) -> list[str]:
    """What is said once of suspect lists, by name: what their grades do not promise, and how to see
    the tables of the first list that has one to rest in, with the plan's changes."""
    if not any_table(rests.values()):
        return []
    name, rest = next((name, rest) for name, rest in rests.items() if any_table([rest]))
    what = "table" if len(rest.numbers) == 1 else "tables"
    command = list_command("steady", path, name, changes)
    return [*promise_lines(rests.values()), f"to see the {what} of {name}: {command}"]


def list_command(command: str, path: str, name: str, changes: Iterable[str] = ()) -> str:
    """A command on a list of a plan, with changes of it, as a shell takes it."""
    return join(["rrp", command, path, *set_words(changes), *["--"] * name.startswith("-"), name])


def set_words(changes: Iterable[str]) -> list[str]:
    """Changes of a plan, as words of a command."""
    return [word for each in changes for word in ("--set", each)]


def set_command(path: str, statements: Iterable[str]) -> str:
    """The command that judges changes of a plan for all lists, as a shell takes it."""
    return join(["rrp", "check", path, *set_words(statements)])


def without_route_lines(verdict: Verdict) -> list[str]:
    """A line on the routers of a stable list that end without a route, if there are any. Where
    nobody is in the list, that is said in place of all names."""
    if not verdict.without_route:
        return []
    if verdict.nobody:
        return [nobody_words(verdict), f"{NOBODY_LISTED}, so every router ends without a route"]
    who = ", ".join(verdict.without_route)
    return [f"{routers_do(verdict.without_route, 'end')} without a route: {who}"]


def nobody_words(verdict: Verdict) -> str:
    """What becomes of the routes of a list of nobody."""
    return f"nobody: all routes are flushed within {verdict.rounds} rounds"


def routers_do(routers: Sequence[str], verb: str) -> str:
    """How many routers do something: 1 router ends, 2 routers end."""
    return f"1 router {verb}s" if len(routers) == 1 else f"{len(routers)} routers {verb}"


def cycle_words(cycle: Sequence[str]) -> str:
    """A cycle: each router relies on the next, and the last one on the first."""
    return " -> ".join([*cycle, *cycle[:1]])


def write_lists(
    plan: Plan,
    verdicts: Iterable[Verdict],
    rests: Mapping[str, Rest | None],
    more: Mapping[str, object] = MappingProxyType({}),
) -> None:
    """Writes as JSON what a plan is and its lists, with where suspect ones may rest, by name, and
    what more there is to say of the plan."""
    lists = [list_values(each, rests[each.name]) for each in verdicts]
    write_json({**plan_values(plan), "lists": lists, **more, "notes": plan.notes})


def list_values(verdict: Verdict, rest: Rest | None) -> dict[str, object]:
    """A list, its routers, its verdict and where it may rest if it is suspect, as plain values."""
    return {"list": verdict.name, "routers": verdict.egresses, **verdict_values(verdict, rest)}


def verdict_values(verdict: Verdict, rest: Rest | None = None) -> dict[str, object]:
    """A verdict and, if that is given, where a suspect list may rest, as plain values."""
    if verdict.stable:
        ranks = {"highest_rank": verdict.highest, "rounds": verdict.rounds}
        return {"stable": True, **ranks, "without_route": verdict.without_route}
    where = {} if rest is None else rest.values()
    return {"stable": False, "cycle": verdict.cycle, "groups": verdict.groups, **where}
