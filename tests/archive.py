#!/usr/bin/env python3
"""Makes the library for C over the libraries that `rt ci` has just proved and left in crates/*/out.

usage: python3 tests/archive.py        (right after `rt ci`, at the top of the repository)
`rt lib` makes the same archive, crates/rrp/out/librrp.a, but proves each library for itself, which takes long where no
check on this machine kept it. Fails where a library was built by another command or has changed since it was built, and
then `rt lib` is the way.
"""
import importlib.machinery
import importlib.util
import os
import shutil
import subprocess
import sys

sys.dont_write_bytecode = True
NAME = 'rrp'


def kit_library():
    """The module of the kit that says what a crate's check is given."""
    path = os.path.join(os.path.dirname(os.path.realpath(shutil.which('rt'))), 'rtlib.py')
    loader = importlib.machinery.SourceFileLoader('rtlib', path)
    made = importlib.util.module_from_spec(importlib.util.spec_from_loader('rtlib', loader))
    sys.modules['rtlib'] = made
    loader.exec_module(made)
    return made


def newest(folder):
    """When a file of a crate that is proved or built from last changed."""
    return max((os.path.getmtime(os.path.join(at, name)) for part in ('src', 'specs', 'proofs')
                for at, _, names in os.walk(f'{folder}/{part}') for name in names), default=0)


def main():
    rtlib = kit_library()
    crate = next(crate for crate in rtlib.crates_below(os.getcwd()) if crate.name == NAME)
    for library in crate.below():
        built = f'{library.rlib}/format'
        if (not os.path.isfile(built) or os.path.getmtime(built) < newest(library.folder)
                or os.path.isfile(f'{library.folder}/out/rlib/stamp')):
            sys.exit(f'archive: crates/{library.name} is not as rt ci leaves it')
    words = crate.words(['--jobs', '2'], keeps=False)
    os.makedirs(f'{crate.folder}/out', exist_ok=True)
    made = subprocess.run([rtlib.RATTLE, 'build', *words, '--toolchain', f'{rtlib.KIT}/toolchain', '--backend', 'llvm',
                           '-o', f'out/lib{NAME}.a'], cwd=crate.folder)
    sys.exit(made.returncode)


if __name__ == '__main__':
    main()
