#!/usr/bin/env python3
"""Prints how many bytes of the library a linked program holds, by what they are, and fails if it holds too much.

usage: library_size.py MAP HEADER       (a linker's map of a program that makes every call of the header)
Fails if a call of the header is not in the program, if its read-only data is above READ_ONLY_MOST bytes, or if it has
writable data at all.
"""
import re
import sys
from pathlib import Path

READ_ONLY_MOST = 256
LIBRARY = 'librrp.a('
KINDS = {'code': ('.text',), 'read-only data': ('.rodata', '.eh_frame', '.gcc_except_table'), 'data': ('.data', '.tdata'),
         'bss': ('.bss', '.tbss', 'COMMON')}
# a section of the map: its name, maybe on a line of its own, then address, size and file
SECTION = re.compile(r'^ (\S+)\s+0x[0-9a-f]+\s+0x([0-9a-f]+) (\S.*)$', re.MULTILINE)


def linked_sections(text):
    """The library's sections that the program holds: name and size. Those that the linker left out come before this."""
    kept = text[text.index('Linker script and memory map'):]
    return [(name, int(size, 16)) for name, size, file in SECTION.findall(kept) if LIBRARY in file]


def sizes(sections):
    """The bytes of each kind; a section of no kind is an error."""
    total = dict.fromkeys(KINDS, 0)
    for name, size in sections:
        kind = next((kind for kind, starts in KINDS.items() if name.startswith(starts)), None)
        if kind is None and size and not name.startswith(('.comment', '.note', '.debug')):
            raise SystemExit(f'library size: section {name} of {size} bytes is of no known kind')
        if kind:
            total[kind] += size
    return total


def main():
    sections = linked_sections(Path(sys.argv[1]).read_text())
    calls = set(re.findall(r'\b(rrp_\w+)\(', Path(sys.argv[2]).read_text()))
    missing = sorted(call for call in calls if f'.text.{call}' not in dict(sections))
    total = sizes(sections)
    print(f'library size: {len(calls)} calls: ' + ', '.join(f'{kind} {size}' for kind, size in total.items()) + ' bytes')
    wrong = [f'{call} is not in the program' for call in missing or ([] if calls else ['no call'])]
    if total['read-only data'] > READ_ONLY_MOST:
        wrong.append(f'read-only data is above {READ_ONLY_MOST} bytes')
    if total['data'] or total['bss']:
        wrong.append('there is writable data')
    for problem in wrong:
        print(f'library size: {problem}')
    sys.exit(1 if wrong else 0)


if __name__ == '__main__':
    main()
