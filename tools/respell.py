#!/usr/bin/env python3
"""Spells the repository's own definitions and lemmas as today's Rattle spells words: in snake case.

usage: python3 tools/respell.py        (at the top of the repository, once, right after port.py)

Turns each word of specs/, proofs/ and clauses that is in camel case and begins with a small letter: `routerCount` is `router_count`.
A name of several words with dashes, as a lemma's, keeps its dashes, and each of its words turns.
A lemma that would then have a definition's name, in LEMMAS, gets its dashes back, which port.py took.
In a must-fail edit the lines of a .antt file and of clauses turn too, and in a page each code span.
"""

import os
import re

# A word of antt or of a clause, with no dot at its ends.
WORD = re.compile(r"[A-Za-zα-ωℓκμ_₀-₉'0-9-]+")
SMALL = re.compile(r"[a-zα-ωℓκμ]")
# Lemmas whose dashes port.py took, each of which would fall together with a definition or a field in some file.
LEMMAS = set(
    "as_long at_turn comes_back is_loop is_stuck left_over listed_below no_other none_above none_left one_more one_number one_parent"
    " one_table passed_on same_bytes width_is".split()
)
# A word that a library brought under another name, and values that began with a capital. M1 to M9 stay: they are cases of a document.
NAMES = {
    "getD": "get_or",
    "M3Plan": "m3_plan",
    "M3WithRoles": "m3_with_roles",
    "M3WithNobody": "m3_with_nobody",
    "M3WithoutStep": "m3_without_step",
    "M3StepAt0": "m3_step_at0",
    "M3StepAt1": "m3_step_at1",
    "M3AllHaveStep": "m3_all_have_step",
    "M3AllHaveStepFor0": "m3_all_have_step_for0",
    "M3AllHaveStepFor3": "m3_all_have_step_for3",
    "RuleAt": "rule_at",
}


def snake(part):
    """One word between dashes in snake case."""
    if part in NAMES:
        return NAMES[part]
    if not SMALL.match(part) or not re.search("[A-Z]", part):
        return part
    part = re.sub(r"([a-z0-9'₀-₉])([A-Z])", r"\1_\2", part)
    part = re.sub(r"([A-Z])([A-Z][a-z])", r"\1_\2", part)
    return part.lower()


def word(text):
    """A whole name in today's spelling."""
    return "-".join(snake(part) for part in text.split("-"))


def words(text):
    """A text of antt or of a clause in today's spelling; a byte of code, as b'R', stays."""
    return WORD.sub(lambda m: m[0] if re.fullmatch("b'.'", m[0]) else word(m[0]), text)


def bare_lemmas(text):
    """The lemmas of LEMMAS with their dashes, where they stand by themselves and not in a path."""

    def turned(m):
        name = m[0]
        before, after = text[: m.start()][-1:], text[m.end() :][:1]
        return name.replace("_", "-") if name in LEMMAS and before != "." and after != "." else name

    return WORD.sub(turned, text)


def antt(text):
    return words(bare_lemmas(text))


def spans(text):
    """A page: its code spans of one word or more, but no path of a file and no shell command."""
    return re.sub(r"(?<!`)`([^`\n]+)`(?!`)", lambda m: "`" + words(m[1]) + "`", text)


def edit(text):
    """A must-fail edit: each `old:` and `new:` line, whose words in camel case are antt's alone."""
    return "".join(words(line) if re.match("(old|new):", line) else line for line in text.splitlines(True))


def turn(path, by):
    with open(path, encoding="utf-8") as f:
        old = f.read()
    new = by(old)
    if new != old:
        with open(path, "w", encoding="utf-8") as f:
            f.write(new)


def main():
    ends = {".antt": antt, ".rt": words, ".edit": edit}
    for top, by in (("crates", ends), ("docs", {".md": spans}), ("README.md", {".md": spans})):
        if os.path.isfile(top):
            turn(top, by[os.path.splitext(top)[1]])
        for folder, inner, files in os.walk(top):
            inner[:] = sorted(d for d in inner if d != "out")
            for name in sorted(files):
                end = os.path.splitext(name)[1]
                if end in by:
                    turn(os.path.join(folder, name), by[end])


if __name__ == "__main__":
    main()
