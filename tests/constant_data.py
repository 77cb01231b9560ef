#!/usr/bin/env python3
"""Finds the constant arrays of more than 16 elements in the sources of the product's crates, and prints them.

Constant data is the value of each `const` and `static`, whose type says how many elements it has; each array that is
written out element by element; each string; and each repeat, `[x; n]`, but for one right after `=`, which is memory to
work in. Arrays and strings in an array count with it. What cannot be read as 16 elements or fewer is found too: another
type than numbers and arrays of them, another length than a plain number, and in an array a repeat or a constant that is
no number. The product's crates are all of crates.txt but the programs that only test it.
"""
import math
import re
import sys
from pathlib import Path

MOST = 16
UNREAD = 10 ** 9
TEST_PROGRAMS = {'cases'}
TOKEN = re.compile(r'''(?P<comment> //[^\n]* | /\*.*?\*/ ) | (?P<raw> [bc]?r(?P<hashes> \#*)".*?"(?P=hashes) )
                       | (?P<string> [bc]?"(?: \\. | [^"\\] )*" ) | (?P<char> b?'(?: \\[^']+ | [^'\\] )' )
                       | (?P<word> '?[^\W\d]\w* ) | (?P<mark> [=!<>]= | => | [0-9]\w* | \S )''',
                   re.VERBOSE | re.DOTALL)
CONTINUED = re.compile(r'\\\n\s*')
ESCAPE = re.compile(r'\\(x[0-9a-fA-F]{2}|.)', re.DOTALL)
# a number or an array of numbers, or a reference to one
TYPE = re.compile(r"(?:&(?:'static)?)?\[*(?:bool|[ui](?:8|16|32|64|128|size))((?:;[0-9]+\])*)")
CLOSING = {'[': ']', '(': ')', '{': '}'}


def tokens_of(text):
    """The tokens of a source without its comments, each with its line."""
    found, line, at = [], 1, 0
    for token in TOKEN.finditer(text):
        line += text.count('\n', at, token.start())
        at = token.start()
        if token.lastgroup != 'comment':
            found.append((token.lastgroup, token.group(), line))
    return found


def joined(tokens):
    return ''.join(text for _, text, _ in tokens)


def group_end(tokens, start):
    """The place after the bracket that closes the one at `start`, or after a token that is no bracket."""
    depth = 0
    for place in range(start, len(tokens)):
        depth += (tokens[place][1] in CLOSING) - (tokens[place][1] in CLOSING.values())
        if depth <= 0:
            return place + 1
    return len(tokens)


def split(tokens, mark):
    """The parts of tokens between the marks that stand in no bracket; an empty last part is left out."""
    parts, part, place = [], [], 0
    while place < len(tokens):
        end = group_end(tokens, place)
        if tokens[place][1] == mark:
            parts, part = parts + [part], []
        else:
            part = part + tokens[place:end]
        place = end
    return parts + [part] if part else parts


def string_size(text):
    """The bytes of a string."""
    prefix, content = text.rsplit('"', 1)[0].split('"', 1)
    return len((content if 'r' in prefix else ESCAPE.sub('.', CONTINUED.sub('', content))).encode())


def constants(tokens):
    """Each `const` and `static`: its line, its name, and its elements by its type."""
    for place, (_, text, line) in enumerate(tokens):
        if text in ('const', 'static'):
            name = place + (2 if joined(tokens[place + 1:place + 2]) == 'mut' else 1)
            end = name + 2
            while end < len(tokens) and tokens[end][1] not in ('=', ';', ',', '>'):
                end = group_end(tokens, end)
            declared = re.fullmatch(r'(\w+):(.*)', joined(tokens[name:end]), re.DOTALL)
            read = TYPE.fullmatch(declared[2]) if declared else None
            count = math.prod(map(int, re.findall('[0-9]+', read[1]))) if read else UNREAD
            yield line, declared[1] if declared else None, count


def elements(tokens, numbers):
    """At most so many elements are among the tokens of an array; `numbers` are the constants that are numbers."""
    count = 1
    for place, (kind, text, _) in enumerate(tokens):
        if text == ';' or kind == 'word' and text.isupper() and text not in numbers:
            return UNREAD
        last = joined(tokens[place + 1:place + 2]) in ('', *CLOSING.values())
        count += string_size(text) if kind in ('string', 'raw') else text == ',' and not last
    return count


def array_size(tokens, place, numbers):
    """The elements of the array whose bracket is at a place; 0 for a type, memory to work in, an index and the like."""
    inside = tokens[place + 1:group_end(tokens, place) - 1]
    repeat = split(inside, ';')
    if len(repeat) != 2:
        return elements(inside, numbers) if len(split(inside, ',')) > 1 else 0
    while place > 0 and tokens[place][1] == '[':
        place -= 1
    if tokens[place][1] == '=' or TYPE.fullmatch(joined(repeat[0])):
        return 0
    times = joined(repeat[1])
    return elements(repeat[0], numbers) * (int(times) if times.isdecimal() else UNREAD)


def long_arrays(sources):
    """The constant arrays with more than MOST elements in sources, path → text: (path, line, what)."""
    read = {path: tokens_of(text) for path, text in sources.items()}
    declared = [(name, count) for tokens in read.values() for _, name, count in constants(tokens)]
    numbers = {name for name, _ in declared} - {name for name, count in declared if count > 1}
    found = {}
    for path, tokens in read.items():
        counts = [(line, count) for line, _, count in constants(tokens)]
        for place, (kind, text, line) in enumerate(tokens):
            if kind in ('string', 'raw'):
                counts.append((line, string_size(text)))
            elif text == '[':
                counts.append((line, array_size(tokens, place, numbers)))
        for line, count in counts:
            if count > MOST:
                found[path, line] = f'{count} elements' if count < UNREAD else 'a size that is not read'
    return [(path, line, what) for (path, line), what in found.items()]


def product_sources(root):
    """The sources of the product's crates under the root of a repository."""
    lines = (line.split('#')[0] for line in (root / 'crates.txt').read_text().splitlines())
    # a static library has that word after its name
    crates = {line.split(':')[0].split()[0] for line in lines if ':' in line} - TEST_PROGRAMS
    paths = (path for crate in sorted(crates) for path in sorted((root / 'crates' / crate / 'src').glob('**/*.rt')))
    return {str(path.relative_to(root)): path.read_text() for path in paths}


def main():
    sources = product_sources(Path(__file__).resolve().parent.parent)
    found = long_arrays(sources)
    for path, line, what in found:
        print(f'{path}:{line}: constant data of {what}')
    print(f'constant data: {len(sources)} sources, {len(found)} arrays of more than {MOST} elements')
    sys.exit(1 if found or not sources else 0)


if __name__ == '__main__':
    main()
