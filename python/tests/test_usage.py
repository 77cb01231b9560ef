"""Wrong words on the command line are told with what to do."""

from __future__ import annotations

import json
import re
import unittest

from rrp import __version__
from rrp.command import COMMANDS

from .support import EXAMPLES, PYTHON, read, rrp

NET = f"{EXAMPLES}/net.rrp"

_ALL = f"the commands are {', '.join(COMMANDS)}; rrp --help says what each does"
_LINK = ["link", "lon-rr", "par-a", "12"]

#: Words, what is said of them, and what is advised.
WRONG = (
    ([], "rrp: no command is given", _ALL),
    (["chek"], "rrp: there is no command chek", "did you mean check?"),
    (["chek", "--help"], "rrp: there is no command chek", "did you mean check?"),
    (["xyz", NET], "rrp: there is no command xyz", _ALL),
    (["check"], "rrp check: PLAN is missing", "name a file that has a plan"),
    (["convert", "-o", "x"], "rrp convert: PLAN is missing", "name a file that has a plan"),
    (["figures", "--csv"], "rrp figures: PLAN is missing", "name a file that has a plan"),
    (["figures", NET, "--cvs"], "rrp figures: there is no option --cvs", "did you mean --csv?"),
    (["pack", NET, "--wider"], "rrp pack: there is no option --wider", "did you mean --wide?"),
    (["run", NET], "rrp run: LIST is missing", "rrp show PLAN names the lists of a plan"),
    (
        ["why", NET, "0"],
        "rrp why: ROUTER and OTHER are missing",
        "name two routers: the one that relies, and the other",
    ),
    (
        ["audit"],
        "rrp audit: DIR is missing",
        "name a directory that has plans and their verdicts",
    ),
    (["check", NET, "--sett", "x"], "rrp check: there is no option --sett", "did you mean --set?"),
    (
        ["run", NET, "0", "--zz"],
        "rrp run: there is no option --zz",
        "rrp run --help says what it takes",
    ),
    (
        ["check", NET, "--set"],
        "rrp check: --set has no value after it",
        "put the statement in quotes, as: --set 'link lon-rr par-a 12'",
    ),
    (
        ["check", NET, "--set", *_LINK],
        "rrp check: lon-rr par-a 12 is too much",
        "put what belongs to --set in quotes, as: --set 'link lon-rr par-a 12'",
    ),
    (
        ["run", NET, "0", "--order", "0", "1"],
        "rrp run: 1 is too much",
        "put what belongs to --order in quotes, as: --order '0 1'",
    ),
    (
        ["sweep", NET, "--set", *_LINK, "--links"],
        "rrp sweep: lon-rr par-a 12 is too much",
        "put what belongs to --set in quotes, as: --set 'link lon-rr par-a 12'",
    ),
    (
        ["diff"],
        "rrp diff: A is missing",
        "name two plans, or one and a change of it with --set",
    ),
    (
        ["diff", NET, NET, NET],
        f"rrp diff: {NET} is too much",
        "rrp diff --help says what it takes",
    ),
    (
        ["sweep", NET, "--link", "--pair", "--rooters", "0"],
        "rrp sweep: there is no option --rooters",
        "did you mean --routers?",
    ),
    (
        ["run", NET, "0", "--rounds", "-1"],
        "rrp run: --rounds: '-1' is no number from 0 to 999999999",
        "rrp run --help says what it takes",
    ),
)


class Usage(unittest.TestCase):
    """Each of them ends with 2."""

    def test_advice(self) -> None:
        for words, message, advice in WRONG:
            answer = rrp(*words)
            self.assertEqual((answer.status, answer.output), (2, ""), words)
            self.assertTrue(answer.errors.startswith("usage: rrp "), answer.errors)
            self.assertTrue(answer.errors.endswith(f"\n{message}\n    {advice}\n"), answer.errors)

    def test_json(self) -> None:
        for words, message, advice in WRONG:
            if "--help" not in words and words[-1:] != ["--set"]:
                answer = rrp(*words, "--json")
                self.assertEqual((answer.status, answer.errors), (2, ""), words)
                (error,) = json.loads(answer.output)["errors"]
                self.assertEqual(error, {"message": message.split(": ", 1)[1], "advice": advice})

    def test_an_option_before_the_command(self) -> None:
        answer = rrp("--json", "check", NET)
        (error,) = json.loads(answer.output)["errors"]
        self.assertEqual((answer.status, error["message"]), (2, "--json is before the command"))
        self.assertEqual(error["advice"], "put --json after the command, as: rrp check .. --json")
        answer = rrp("--lines", "audit", ".")
        advice = "put --lines after the command, as: rrp audit .. --lines"
        said = f"rrp audit: --lines is before the command\n    {advice}\n"
        self.assertEqual((answer.status, answer.errors.split("\n", 1)[1]), (2, said))
        self.assertIn("did you mean --json?", rrp("--jsn", "check", NET).errors)

    def test_json_by_a_shortened_option(self) -> None:
        answer = rrp("check", "missing", "--js")
        self.assertEqual((answer.status, answer.errors), (2, ""))
        self.assertIn("missing cannot be read", json.loads(answer.output)["errors"][0]["message"])

    def test_long_words_are_cut(self) -> None:
        errors = rrp("show", NET, "0", "x" * 65).errors
        self.assertIn(f"rrp show: {'x' * 62}.. is too much\n", errors)

    def test_version(self) -> None:
        self.assertEqual(rrp("--version"), (0, f"rrp {__version__}\n", ""))
        stated = re.findall(r'^version = "(.*)"$', read(f"{PYTHON}/pyproject.toml"), re.M)
        self.assertEqual(stated, [__version__])


if __name__ == "__main__":
    unittest.main()
