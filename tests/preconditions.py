#!/usr/bin/env python3
"""Finds the public functions with a `requires` that a caller reaches through the crates `checker` and `rrp`.

The calls take any bytes and numbers, so none may have a precondition. Reached is what is public in src/lib.rt of the
two crates: functions, methods, modules with all that is public in them, and what a `pub use` passes on, alone or in a
list, which is a function, a type with its methods, a module or a crate. Prints how many functions these are; if they are
few, some are not found.
"""
import re
import sys
from pathlib import Path

CRATES = ('checker', 'rrp')
FEWEST = 10
COMMENT_OR_STRING = re.compile(r"""//[^\n]*|/\*.*?\*/|"(?:\\.|[^"\\])*"|'(?:\\.|[^'\\])'""", re.DOTALL)
FUNCTION = re.compile(r'(?P<marks>[^;{}]*?)\bfn\s+(?P<name>\w+)')
PUBLIC = re.compile(r'\bpub\b(?!\s*\()')
TYPE = re.compile(r'\bpub\s+(?:struct|enum|type|const)\s+(\w+)')
MODULE = re.compile(r'\bpub\s+mod\s+(\w+)\s*;')
USE = re.compile(r'\bpub\s+use\s+([^;]*);')
PATH = re.compile(r'(\w+(?:::\w+)*)(?:\s+as\s+(\w+))?')
LIST = re.compile(r'\s*((?:\w+::)+)\{([^{}]*)\}\s*')


class NotFound(Exception):
    """What is passed on and cannot be found, or not be read."""


def functions(text):
    """The public functions of a source: name, whether it is a method, and whether it has a `requires`."""
    found = list(FUNCTION.finditer(text))
    ends = [after.start() for after in found[1:]] + [len(text)]
    for function, end in zip(found, ends):
        if PUBLIC.search(function['marks']):
            before, contract = text[:function.start()], text[function.end():end]
            yield function['name'], before.count('{') > before.count('}'), bool(re.search(r'\brequires\b', contract))


def module_file(file, name):
    """The file of a module of a file."""
    folder = file.parent if file.name == 'lib.rt' else file.parent / file.stem
    return folder / f'{name}.rt'


def listed(use):
    """The paths that a `pub use` names: of a list each, else the one."""
    read = LIST.fullmatch(use)
    return [read[1] + name.strip() for name in read[2].split(',') if name.strip()] if read else [use]


def passed_on(crates, file, use):
    """What a path of a `pub use` in a file passes on: the name it gets, its file, and its name there, none for a crate."""
    read = PATH.fullmatch(use.strip())
    if not read:
        raise NotFound(f'pub use {use}')
    names = read[1].split('::')
    known_as = read[2] or names[-1]
    if not module_file(file, names[0]).is_file():
        file, names = crates / names[0] / 'src' / 'lib.rt', names[1:]
    for name in names[:-1]:
        file = module_file(file, name)
    return known_as, file, names[-1] if names else None


def reached(crates, path, file, name=None):
    """The functions that a name of a file stands for, or all that are public there: path, file, has a `requires`."""
    if not file.is_file():
        raise NotFound(path)
    text = COMMENT_OR_STRING.sub('', file.read_text())
    types, modules = TYPE.findall(text), MODULE.findall(text)
    uses = [passed_on(crates, file, path) for use in USE.findall(text) for path in listed(use)]
    free = {function for function, is_method, _ in functions(text) if not is_method}
    if name and name not in (*types, *modules, *free, *(known_as for known_as, _, _ in uses)):
        raise NotFound(path)
    for function, is_method, requires in functions(text):
        if not name or (name in types if is_method else name == function):
            yield path if name == function else f'{path}::{function}', file, requires
    for module in modules:
        if name in (None, module):
            yield from reached(crates, path if name else f'{path}::{module}', module_file(file, module))
    for known_as, place, inner in uses:
        if name in (None, known_as):
            yield from reached(crates, path if name else f'{path}::{known_as}', place, inner)


def check(root):
    """The functions that a caller reaches in a repository, and what is wrong with it."""
    crates, found, problems = Path(root) / 'crates', {}, []
    for crate in CRATES:
        try:
            for path, file, requires in reached(crates, crate, crates / crate / 'src' / 'lib.rt'):
                found[path] = file
                if requires:
                    problems.append(f'{path} has a requires ({file.relative_to(root)})')
        except NotFound as what:
            problems.append(f'{what} is not found')
    if len(found) < FEWEST:
        problems.append(f'only {len(found)} public functions are found')
    return sorted(found), problems


def main():
    found, problems = check(Path(__file__).resolve().parent.parent)
    for problem in problems:
        print(problem)
    print(f'preconditions: {len(found)} public functions, {len(problems)} problems')
    sys.exit(1 if problems else 0)


if __name__ == '__main__':
    main()
