#!/usr/bin/env python3
"""Makes tests/preconditions.py fail in each way that it must, on a small repository; the last line counts the cases."""
import sys
import tempfile
from pathlib import Path

sys.dont_write_bytecode = True
import preconditions

FILES = {
    'checker/src/lib.rt': '''
// Every call. None has a `requires`.
pub use query::{Answer, check};
pub use tables as routing;
pub use tables::rounds::count;
pub mod extra;
''',
    'checker/src/extra.rt': 'pub fn limit() -> u8 { 64 }\n',
    'query/src/lib.rt': '''
pub enum Answer { Yes, No }

impl Answer {
    pub fn is_yes(self) -> bool { true }

    fn kept(self) -> bool
        requires { IsTrue self.kept }
    { true }
}

pub fn check(plan: &[u8]) -> u8
    ensures { result ≡ 0 }
{ helped(b'{', b"{") }

fn helped(open: u8, close: &[u8]) -> u8
    requires { open < 9 }
{ 0 }

pub fn not_passed_on(x: u8) -> u8
    requires { x < 9 }
{ x }
''',
    'tables/src/lib.rt': '''
pub mod rounds;
mod inner;
pub use inner::settle;

pub fn act(x: u8) -> u8 { x }

// A `requires` in this comment is none: pub fn wished() requires {}
pub fn run(x: u8) -> u8 { x }
''',
    'tables/src/rounds.rt': 'pub fn count(x: u8) -> u8 { x }\n',
    'tables/src/inner.rt': '''
pub fn settle(x: u8) -> u8 { x }

pub fn unseen(x: u8) -> u8
    requires { x < 9 }
{ x }
''',
    'rrp/src/lib.rt': '''
#[unsafe(no_mangle)]
pub extern "C" fn rrp_check(plan: &[u8]) -> u8 { checker::check(plan) }

#[unsafe(no_mangle)] pub extern "C" fn rrp_act(x: u8) -> u8 { x }

pub(crate) fn own(x: u8) -> u8
    requires { x < 9 }
{ x }
''',
}
REACHED = ['checker::Answer::is_yes', 'checker::check', 'checker::count', 'checker::extra::limit',
           'checker::routing::act', 'checker::routing::rounds::count', 'checker::routing::run',
           'checker::routing::settle', 'rrp::rrp_act', 'rrp::rrp_check']
REQUIRES = '\n    requires { IsTrue true }\n{'

# (what is wrong, the file, what is replaced in it, by what, what is said of it)
CASES = [
    ('a requires of a function passed on', 'query/src/lib.rt', '\n{ helped(', REQUIRES + ' helped(',
     'checker::check has a requires (crates/query/src/lib.rt)'),
    ('a requires before the ensures', 'query/src/lib.rt', '\n    ensures', '\n    requires {IsTrue true}\n    ensures',
     'checker::check has a requires (crates/query/src/lib.rt)'),
    ('a requires of the first function of a module passed on', 'tables/src/lib.rt', 'act(x: u8) -> u8 {',
     'act(x: u8) -> u8' + REQUIRES, 'checker::routing::act has a requires (crates/tables/src/lib.rt)'),
    ('a requires of the second', 'tables/src/lib.rt', 'run(x: u8) -> u8 {', 'run(x: u8) -> u8' + REQUIRES,
     'checker::routing::run has a requires (crates/tables/src/lib.rt)'),
    ('a requires in a module of a module passed on', 'tables/src/rounds.rt', 'u8 {', 'u8' + REQUIRES,
     'checker::routing::rounds::count has a requires (crates/tables/src/rounds.rt)'),
    ('a requires of what such a module passes on', 'tables/src/inner.rt', 'u8 { x', 'u8' + REQUIRES + ' x',
     'checker::routing::settle has a requires (crates/tables/src/inner.rt)'),
    ('a requires of a method of a type passed on', 'query/src/lib.rt', 'bool { true }', 'bool' + REQUIRES + ' true }',
     'checker::Answer::is_yes has a requires (crates/query/src/lib.rt)'),
    ('a requires in a module of the crate', 'checker/src/extra.rt', 'u8 {', 'u8' + REQUIRES,
     'checker::extra::limit has a requires (crates/checker/src/extra.rt)'),
    ('a requires of a call for C', 'rrp/src/lib.rt', '&[u8]) -> u8 {', '&[u8]) -> u8' + REQUIRES,
     'rrp::rrp_check has a requires (crates/rrp/src/lib.rt)'),
    ('a requires of a function on the line of its attribute', 'rrp/src/lib.rt', '(x: u8) -> u8 {',
     '(x: u8) -> u8' + REQUIRES, 'rrp::rrp_act has a requires (crates/rrp/src/lib.rt)'),
    ('a function that is not there', 'query/src/lib.rt', 'pub fn check(', 'pub fn checks(',
     'checker::check is not found'),
    ('a function that is not public', 'query/src/lib.rt', 'pub fn check(', 'fn check(', 'checker::check is not found'),
    ('a type that is not there', 'query/src/lib.rt', 'enum Answer', 'enum Answers', 'checker::Answer is not found'),
    ('a crate that is not there', 'checker/src/lib.rt', 'tables as', 'routes as', 'checker::routing is not found'),
    ('a module that is not there', 'checker/src/lib.rt', 'mod extra', 'mod more', 'checker::more is not found'),
    ('a module on the way that is not there', 'checker/src/lib.rt', 'tables::rounds', 'tables::turns',
     'checker::count is not found'),
    ('a name of a list that is not there', 'checker/src/lib.rt', '{Answer, check}', '{Answer, check, lists}',
     'checker::lists is not found'),
    ('a list in a list, which is not read', 'checker/src/lib.rt', '{Answer, check}', '{Answer, calls::{check}}',
     'pub use query::{Answer, calls::{check}} is not found'),
    ('all names, which are not read', 'checker/src/lib.rt', 'query::{Answer, check}', 'query::*',
     'pub use query::* is not found'),
    ('a function too few', 'rrp/src/lib.rt', '#[unsafe(no_mangle)] pub', '#[unsafe(no_mangle)]', 'only 9 public functions are found'),
]


def checked(changes={}):
    """What tests/preconditions.py says of the small repository with other texts for some files."""
    with tempfile.TemporaryDirectory() as root:
        for name, text in {**FILES, **changes}.items():
            path = Path(root) / 'crates' / name
            path.parent.mkdir(parents=True, exist_ok=True)
            path.write_text(text, encoding='utf8')
        return preconditions.check(root)


def main():
    failed = []
    if checked() != (REACHED, []):
        failed.append(f'a repository with nothing wrong: {checked()}')
    said = checked({'checker/src/lib.rt': '', 'rrp/src/lib.rt': ''})
    if said != ([], ['only 0 public functions are found']):
        failed.append(f'no function at all: {said}')
    for wrong, file, old, new, expected in CASES:
        said = checked({file: FILES[file].replace(old, new, 1)})[1]
        if expected not in said or old not in FILES[file]:
            failed.append(f'{wrong}: {said}')
    for failure in failed:
        print(failure)
    print(f'preconditions_test: {len(CASES) + 2 - len(failed)} passed, {len(failed)} failed')
    sys.exit(1 if failed else 0)


if __name__ == '__main__':
    main()
