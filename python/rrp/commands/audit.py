"""`rrp audit DIR`: says of each plan of a library whether the verdict filed beside it is its
own."""

from __future__ import annotations

from argparse import ArgumentParser, Namespace
from collections import Counter

from ..auditing import CHANGED, FALSE, KINDS, LINES, RIGHT, STRAY, UNFILED
from ..auditing import UNREADABLE, Finding, find, judge_all
from ..filing import SUFFIX
from ..output import write_json
from ..plan_folders import NAMES, no_plan
from ..progress import with_progress
from ..rest import grade_values, grade_words
from ..verdict_files import digest_of, lines_of


def arguments(parser: ArgumentParser) -> None:
    """Adds what `audit` takes."""
    parser.add_argument("directory", metavar="DIR", help="has plans, also in directories below it")
    lines = "take a verdict of lines alone for right: those of the verdict program, or an older rrp"
    parser.add_argument("--lines", action="store_true", help=lines)
    parser.epilog = (
        f"A plan is a file whose name ends in {NAMES}, or that has a verdict beside it: a file of "
        f"its name with {SUFFIX} added, as rrp file writes it. A verdict is right; changed, if the "
        "plan is another than the one filed, or its SHA-256 was altered, and every verdict, rank "
        "and route is the same; of "
        "lines alone, if these are right and nothing more is filed; or false. Exit status: 0 all "
        "are right, be lists stable or suspect; 1 a verdict is not, a plan has none, or a verdict "
        "has no plan; 2 a file or a directory cannot be read, or there is no plan."
    )


def run(options: Namespace) -> int:
    """Judges all plans, and says what is not right and how much is."""
    found = find(options.directory)
    if not found.plans and not found.findings:
        raise no_plan(options.directory)
    judged = with_progress(judge_all(found.plans), len(found.plans), _is_wrong, "not right")
    findings = sorted([*found.findings, *judged], key=lambda finding: finding.path)
    sound = {RIGHT, LINES} if options.lines else {RIGHT}
    told = [finding for finding in findings if finding.kind not in sound]
    if options.json:
        values = {"directory": options.directory, **_counts(found.count(), findings)}
        write_json({**values, "findings": [_values(finding) for finding in told]})
    else:
        for finding in told:
            print(f"{finding.kind}: {finding.path}: " + "\n    ".join(finding.details))
        print(_summary(_counts(found.count(), findings), _grades(findings)))
    unreadable = any(finding.kind == UNREADABLE for finding in told)
    return 2 if unreadable else 1 if told else 0


def _counts(plans: int, findings: list[Finding]) -> dict[str, int]:
    """How many plans there are, how many findings of each kind, how many lists are stable and how
    many suspect, of which grades, and how many plans are refused."""
    kinds = Counter(finding.kind for finding in findings)
    return {
        "plans": plans,
        **{kind: kinds[kind] for kind in KINDS},
        "stable_lists": sum(finding.stable for finding in findings),
        "suspect_lists": sum(finding.suspect for finding in findings),
        **grade_values(_grades(findings)),
        "refused_plans": sum(finding.refused for finding in findings),
    }


def _grades(findings: list[Finding]) -> Counter[int | None]:
    """How many suspect lists have which grade."""
    return Counter(grade for finding in findings for grade in finding.grades)


def _summary(counts: dict[str, int], grades: Counter[int | None]) -> str:
    """A line that counts what was found: in any case what is right and what is false, and the lists
    that are stable and suspect."""
    words = {
        RIGHT: "right",
        FALSE: "false",
        CHANGED: "changed",
        LINES: "of lines alone",
        UNFILED: "without a verdict",
        UNREADABLE: "unreadable",
        STRAY: "verdict without a plan" if counts[STRAY] == 1 else "verdicts without a plan",
    }
    said = [kind for kind in words if counts[kind] or kind in (RIGHT, FALSE)]
    parts = ", ".join(f"{counts[kind]:,} {words[kind]}" for kind in said)
    lists = f"{counts['stable_lists']:,} stable, {counts['suspect_lists']:,} suspect"
    lists += f" ({grade_words(grades)})" if grades else ""
    refused = counts["refused_plans"]
    last = f"; {refused:,} {'plan is' if refused == 1 else 'plans are'} refused" if refused else ""
    plans = "1 plan" if counts["plans"] == 1 else f"{counts['plans']:,} plans"
    return f"{plans}: {parts}; lists judged: {lists}{last}"


def _values(finding: Finding) -> dict[str, object]:
    values = {"path": finding.path, "kind": finding.kind, "details": finding.details}
    if finding.kind == CHANGED:
        digests = digest_of(finding.filed), digest_of(finding.due)
        values["sha256"] = dict(zip(("filed", "is"), digests))
    if finding.kind == FALSE:
        values["differences"] = finding.differences
        values["filed"] = lines_of(finding.filed)
        values["is"] = None if finding.due is None else lines_of(finding.due)
    return values


def _is_wrong(finding: Finding) -> bool:
    return finding.kind != RIGHT
