#!/usr/bin/env python3
"""Makes tests/trace.py fail in each way that it must, on a small repository; the last line counts the cases."""
import sys
import tempfile
from pathlib import Path

sys.dont_write_bytecode = True
import trace

FILES = {
    'crates/rules/specs/Rule.antt': '''
-- the number that follows; `wished : ℕ` stands in this comment alone
unfoldable pub next : ℕ → ℕ
next x = x + 1

pub record Follows (x y : ℕ) : Type 0 where
  pub same : y ≡ next x

hidden : ℕ
hidden = 0
''',
    'crates/rules/proofs/Rule.antt': '''
-- `wished-law : ℕ` stands in this comment alone
module _ (x : ℕ) where
  pub next-more : x < next x
  next-more = inner
    where
      inner : x < next x
      inner = omega arith

abbrev twice : ℕ → ℕ
twice x = next (next x)
''',
    'crates/rules/specs/Examples.antt': '''
pub record Shown : Type 0 where
  pub nextOf5 : next 5 ≡ 6
  pub twice : next (next 5) ≡ 7

pub record Unshown : Type 0 where
  pub nextOf6 : next 6 ≡ 8
  pub twice : next (next 6) ≡ 8

pub record RuleExamples : Type 0 where
  pub nextOf7 : next 7 ≡ 8

abbrev pub nextOf8 : Example
nextOf8 = example 8 9

abbrev pub seven : ℕ
seven = next 6

abbrev pub eight : ℕ
eight = next 7

abbrev pub all : List Example
all =
    seven ∷ nextOf8 ∷ []

abbrev pub AllHold : Type 0
AllHold = Hold all
''',
    'crates/rules/proofs/Examples.antt': '''
next-of-3 : next 3 ≡ 4
next-of-3 = refl

shown : Shown
shown = record { nextOf5 = refl; twice = refl }

rule-examples : RuleExamples
rule-examples = record { nextOf7 = refl }

pub all-hold : AllHold
unfolding next all
all-hold = refl
''',
    'crates/rules/must-fail/next_adds_two.edit': '',
    'crates/code/src/step.rt': '''
// fn wished() ensures { stands in this comment alone }
pub fn step(x: u8) -> u8
    requires { x < 9 }
    ensures next { Follows x result }
{
    x + 1
}

fn bare(x: u8) -> u8 {
    if x < 9 { x } else { 9 }
}

impl Counter {
    pub fn up(self) -> Self
        ensures { result.n ≡ next self.n }
    {
        self
    }
}
''',
    'crates/code/must-fail/step_of_two.edit': '',
    'crates/shown/stdout': '4\n',
    'tests/shown/three.expected': '4\n',
    '.ci/run': 'python3 tests/busy.py\npython3 tests/gone.py\n',
    'tests/busy.py': '',
    'tests/idle.py': '',
}

OUTPUTS = '`shown/stdout`<br>`tests/shown/three.expected`<br>`tests/busy.py`'
TRACE = [
    ['sentence', 'definition', 'contract or theorem', 'pinning example', 'must-fail edit'],
    ['---', '---', '---', '---', '---'],
    ['one more', '`rules/specs/Rule: next`', '`code/src/step: step, Counter::up`',
     '`rules/proofs/Examples: next-of-3`<br>`rules/specs/Examples: nextOf5, nextOf7, nextOf8, seven`',
     '`code/must-fail: step_of_two`'],
    ['follows', '`rules/specs/Rule: Follows, Follows.same`', '`rules/proofs/Rule: next-more`',
     OUTPUTS,
     '`rules/must-fail: next_adds_two`'],
]
PINS = TRACE[2][3]
TABLE = ''.join('| ' + ' | '.join(row) + ' |\n' for row in TRACE)

# (what is wrong, what is replaced in the table, by what, what is said of it)
CASES = [
    ('a definition that is not there', 'Rule: next`', 'Rule: next, after`',
     'rules/specs/Rule: after is not declared there'),
    ('a definition in a comment alone', 'Rule: next`', 'Rule: next, wished`',
     'rules/specs/Rule: wished is not declared there'),
    ('a definition that is not public', 'Rule: next`', 'Rule: next, hidden`',
     'rules/specs/Rule: hidden is not public'),
    ('a field without its record', 'Rule: next`', 'Rule: next, same`',
     'rules/specs/Rule: same is not declared there'),
    ('a file that is not there', 'specs/Rule: next', 'specs/Rules: next',
     'rules/specs/Rules: next is in no file of that name'),
    ('a lemma among the definitions', '`rules/specs/Rule: next`', '`rules/proofs/Rule: next-more`',
     'has no place in the column "definition"'),
    ('a definition among the theorems', '`rules/proofs/Rule: next-more`', '`rules/specs/Rule: next`',
     'has no place in the column "contract or theorem"'),
    ('an abbreviation among the theorems', 'Rule: next-more', 'Rule: twice',
     'rules/proofs/Rule: twice is a definition, not a lemma'),
    ('a lemma in a comment alone', 'Rule: next-more', 'Rule: wished-law',
     'rules/proofs/Rule: wished-law is not declared there'),
    ('a name local to a proof', 'Rule: next-more', 'Rule: inner',
     'rules/proofs/Rule: inner is not declared there'),
    ('a function without an ensures', 'step: step,', 'step: bare,',
     'code/src/step: bare is a function without an ensures'),
    ('a function in a comment alone', 'step: step,', 'step: wished,',
     'code/src/step: wished is not declared there'),
    ('a method without its type', 'Counter::up', 'up',
     'code/src/step: up is not declared there'),
    ('a function among the examples', '`shown/stdout`', '`code/src/step: step`',
     'has no place in the column "pinning example"'),
    ('an example that is not there', 'next-of-3', 'next-of-4',
     'rules/proofs/Examples: next-of-4 is not declared there'),
    ('a field that no theorem works out', 'nextOf5', 'nextOf6',
     'rules/specs/Examples: nextOf6 is worked out by no theorem'),
    ('a field that two records have', 'nextOf5', 'twice',
     'rules/specs/Examples: twice is not declared there'),
    ('an example in no list', ', seven', ', eight',
     'rules/specs/Examples: eight is worked out by no theorem'),
    ('an output that is not there', '`shown/stdout`', '`code/stdout`',
     'code/stdout is no output of a program'),
    ('an expected output that is not there', 'three.expected', 'four.expected',
     'tests/shown/four.expected is no output of a program'),
    ('a file that is no output', 'tests/shown/three.expected', 'docs/trace/page.md',
     'docs/trace/page.md is no output of a program and no test'),
    ('a test that the gate does not run', 'tests/shown/three.expected', 'tests/idle.py',
     'tests/idle.py is no output of a program and no test'),
    ('a test that is not there', 'tests/shown/three.expected', 'tests/gone.py',
     'tests/gone.py is no output of a program and no test'),
    ('an edit of another crate', 'code/must-fail: step_of_two', 'rules/must-fail: step_of_two',
     'rules/must-fail: step_of_two is no edit of that crate'),
    ('an edit named nowhere', '`code/must-fail: step_of_two`', '',
     'code/must-fail: step_of_two is named in no row'),
    ('an edit among the theorems', '`rules/proofs/Rule: next-more`', '`rules/must-fail: next_adds_two`',
     'has no place in the column "contract or theorem"'),
    ('a definition named nowhere', 'Follows, Follows.same', 'Follows.same',
     'rules/specs/Rule: Follows is named in no row'),
    ('a field of a record of examples named nowhere', ', nextOf7', '',
     'rules/specs/Examples: nextOf7 is named in no row'),
    ('an example of a list named nowhere', ', nextOf8', '',
     'rules/specs/Examples: nextOf8 is named in no row'),
    ('a row that shows nothing', f'`rules/proofs/Rule: next-more` | {OUTPUTS}', '|',
     'the row has no contract, theorem or example'),
    ('a definition that nothing pins', PINS, '',
     'the row has definitions, and no theorem or example'),
    ('a row with a cell too few', '`code/must-fail: step_of_two` |', '',
     'the row has 4 cells, not 5'),
    ('words in place of an entry', '`shown/stdout`', 'every call',
     'has text beside its entries'),
    ('a column of another name', 'pinning example', 'remark',
     'no column is called "remark"'),
]

# (what is wrong, the folder of the rules' Examples.antt, what is replaced there, by what, what is said of it)
FILE_CASES = [
    ('a theorem over an empty list', 'specs', 'all =\n    seven ∷ nextOf8 ∷ []', 'all = []',
     'rules/specs/Examples: all is an empty list of examples'),
    ('an example that the empty list had', 'specs', 'seven ∷ nextOf8 ∷ []', '[]',
     'rules/specs/Examples: nextOf8 is worked out by no theorem'),
    ('a theorem over another list', 'specs', 'Hold all', 'Hold []',
     'rules/specs/Examples: nextOf8 is worked out by no theorem'),
    ('a list that no theorem is about', 'proofs', 'pub all-hold : AllHold', 'pub all-hold : Unit',
     'rules/specs/Examples: seven is worked out by no theorem'),
    ('a record that no theorem is about', 'proofs', 'rule-examples : RuleExamples', 'rule-examples : Unit',
     'rules/specs/Examples: nextOf7 is worked out by no theorem'),
]


def problems(table, more={}):
    """What tests/trace.py says of the small repository with this table and these files besides."""
    with tempfile.TemporaryDirectory() as root:
        for name, text in {**FILES, **more, 'docs/trace/page.md': table}.items():
            path = Path(root) / name
            path.parent.mkdir(parents=True, exist_ok=True)
            path.write_text(text, encoding='utf8')
        return trace.check(root)[1]


def main():
    failed = []
    said = problems(TABLE)
    if said:
        failed.append(f'a repository with nothing wrong is refused: {said}')
    said = problems(TABLE.replace('sentence', 'inner definition').replace(PINS, ''))
    if any('no theorem or example' in problem for problem in said):
        failed.append(f'an inner definition without a pin is refused: {said}')
    said = problems(TABLE, {'crates/rules/must-fail/step_of_two.edit': ''})
    if 'rules/must-fail: step_of_two is also the name of an edit of code' not in said:
        failed.append(f'two edits of one name: {said}')
    for wrong, old, new, expected in CASES:
        said = problems(TABLE.replace(old, new, 1))
        if not any(expected in problem for problem in said):
            failed.append(f'{wrong}: {said}')
    for wrong, folder, old, new, expected in FILE_CASES:
        name = f'crates/rules/{folder}/Examples.antt'
        said = problems(TABLE, {name: FILES[name].replace(old, new, 1)})
        if not any(expected in problem for problem in said):
            failed.append(f'{wrong}: {said}')
    for failure in failed:
        print(failure)
    print(f'trace_test: {len(CASES) + len(FILE_CASES) + 3 - len(failed)} passed, {len(failed)} failed')
    sys.exit(1 if failed else 0)


if __name__ == '__main__':
    main()
