#!/usr/bin/env python3
"""Holds the pages of docs/trace to the repository, column by column, and prints what does not fit.

An entry is `CRATE/FOLDER/FILE: NAME, NAME`, and of edits `CRATE/must-fail: NAME, NAME`. By column it must name
- definition: what that file of specs/ declares with `pub`, or a field of a record there, RECORD.FIELD;
- contract or theorem: a function of that file of src/ with an `ensures`, TYPE::NAME for a method, or a lemma of
  that file of proofs/;
- pinning example: what that file of specs/ or proofs/ declares, or a field of one of its records, FIELD; if of specs/
  what a theorem in the file of that name in proofs/ is about: its statement names it, or a definition of that file of
  specs/ that does, a list say; or an output that the gate compares, CRATE/stdout or tests/FOLDER/NAME.expected; or a
  test that the gate runs, tests/NAME.py;
- must-fail edit: an edit of that crate.
A word in a comment declares nothing, nor does a name local to a proof. Each row has a contract, a theorem or an
example, and where it has definitions a theorem or an example, but for inner definitions. No two edits have one name.
No list of examples is empty.
Each edit is named in some row, and so is each definition of specs/, but for those that the examples are made of, and
each example: a field of a record called ..Examples, or what has type Example.
"""
import re
import sys
from functools import cache
from pathlib import Path

# the folders of a crate that each column may name
COLUMNS = {
    'definition': ('specs',),
    'contract or theorem': ('src', 'proofs'),
    'pinning example': ('specs', 'proofs'),
    'must-fail edit': ('must-fail',),
}
# the first column of the rows that need neither theorem nor example
INNER = 'inner definition'
EXAMPLE_FILES = re.compile(r'(Examples|Plans)$')
EXAMPLE = re.compile(r'^(?:abbrev|unfoldable) pub (\S+) : Example$', re.MULTILINE)
EMPTY = re.compile(r'^(?:(?:abbrev|unfoldable|pub) )*(\S+) : List Example\n\1 =\s*\[\]\s*$', re.MULTILINE)
DECLARATION = re.compile(r'''\s* (?P<marks> ((pub|abbrev|unfoldable)\s+)* ) (?P<kind> (record|data)\s+ )?
                             (?P<name> [^\s(){}]+ ) \s* (?P<rest> .* )''', re.VERBOSE)


def antt_declarations(text):
    """What an antt file declares: name → (kind, public).

    The kinds are record, data, definition (abbrev or unfoldable), lemma and, as RECORD.FIELD, field. Only what stands
    at the top level or in a `module` counts.
    """
    found = {}
    blocks = []  # the open blocks, innermost last: (indent, kind, name)
    for line in text.split('\n'):
        if not line.strip():
            continue
        indent = len(line) - len(line.lstrip())
        while blocks and indent <= blocks[-1][0]:
            blocks.pop()
        if line.lstrip().startswith('module '):
            blocks.append((indent, 'module', ''))
            continue
        match = DECLARATION.match(line)
        if match and (match['kind'] or match['rest'].startswith(':')):
            kind = (match['kind'] or '').strip()
            marks = match['marks'].split()
            inside = [block for block in blocks if block[1] != 'module']
            if not inside:
                plain = 'definition' if 'abbrev' in marks or 'unfoldable' in marks else 'lemma'
                found[match['name']] = (kind or plain, 'pub' in marks)
            elif [block[1] for block in inside] == ['record']:
                found[inside[0][2] + '.' + match['name']] = ('field', 'pub' in marks)
            if kind:
                blocks.append((indent, kind, match['name']))
                continue
        if line.split()[-1] == 'where':
            blocks.append((indent, 'local', ''))
    return found


def antt_blocks(text):
    """The lines of each declaration of an antt file, its clauses or its fields among them: name → text."""
    found = {}
    owner = None
    for line in text.split('\n'):
        match = DECLARATION.match(line)
        inside = owner is not None and line[:1].isspace()
        if line.strip() and match and not inside and (match['kind'] or match['rest'].startswith(':')):
            owner = match['name']
            found[owner] = ''
        elif line.strip() and not inside and line.lstrip().startswith(('use ', 'module ')):
            owner = None
        if owner is not None:
            found[owner] += line + '\n'
    return found


def statement(name, block):
    """What a lemma states: the lines up to its proof."""
    lines = block.rstrip().split('\n')
    end = [at for at, line in enumerate(lines) if at and line.split()[:1] in ([name], ['unfolding'])]
    return '\n'.join(lines[:end[0]] if end else lines)


def closing(text, at):
    """The place after the bracket that closes the one at `at`."""
    depth = 0
    for place in range(at, len(text)):
        if text[place] in '({[':
            depth += 1
        elif text[place] in ')}]':
            depth -= 1
            if depth == 0:
                return place + 1
    return len(text)


def rattle_contracts(text):
    """The functions of a Rattle file: name, or TYPE::NAME, → whether its contract has an `ensures`."""
    types = []  # (from, to, type) of each impl
    for match in re.finditer(r'\bimpl\s+(\w+)\s*\{', text):
        types.append((match.start(), closing(text, match.end() - 1), match[1]))
    found = {}
    for match in re.finditer(r'\bfn\s+(\w+)[^(]*\(', text):
        at = closing(text, match.end() - 1)
        ensures = False
        # clauses, each a word, perhaps a name, and a block; the first block with no such word is the body
        while clause := re.compile(r'(?:(requires|ensures)\*?(?:\s+\w+)?)?\s*\{').search(text, at):
            if clause[1] is None:
                break
            ensures = ensures or clause[1] == 'ensures'
            at = closing(text, clause.end() - 1)
        owner = [kind + '::' for start, end, kind in types if start < match.start() < end]
        found[''.join(owner) + match[1]] = ensures
    return found


def words(text):
    return re.findall(r'[^\s(){},;]+', text)


class Repository:
    def __init__(self, root):
        self.root = Path(root)
        self.crates = self.root / 'crates'

    @cache
    def text(self, crate, folder, file):
        """A file of specs/, src/ or proofs/ without its comments, or None if it is not there."""
        path = self.crates / crate / folder / (file + ('.rt' if folder == 'src' else '.antt'))
        comment = r'//.*' if folder == 'src' else r'(?<!\S)--.*'
        return re.sub(comment, '', path.read_text(encoding='utf8')) if path.is_file() else None

    @cache
    def declared(self, crate, folder, file):
        """What that file declares, or None if it is not there."""
        text = self.text(crate, folder, file)
        if text is None:
            return None
        return rattle_contracts(text) if folder == 'src' else antt_declarations(text)

    @cache
    def stated(self, crate, file):
        """The names of specs/FILE that the theorems of proofs/FILE are about, by way of its definitions too."""
        specs, proofs = self.text(crate, 'specs', file), self.text(crate, 'proofs', file)
        blocks = antt_blocks(specs or '')
        named = {word for name, block in antt_blocks(proofs or '').items() for word in words(statement(name, block))}
        found, left = set(), named & set(blocks)
        while left:
            found |= left
            left = {word for name in left for word in words(blocks[name])} & set(blocks) - found
        return found

    def worked_out(self, crate, file, name):
        """Whether a theorem works out an example of specs/FILE, or a field of a record of examples there."""
        return name.split('.')[0] in self.stated(crate, file)

    def empty_lists(self):
        """CRATE/specs/FILE: NAME of each list of examples without one."""
        for crate, file in self.specs():
            for name in EMPTY.findall(self.text(crate, 'specs', file)):
                yield f'{crate}/specs/{file}: {name}'

    def has_output(self, name):
        """Whether there is such an expected output, CRATE/stdout or tests/FOLDER/NAME.expected, or such a test."""
        if re.fullmatch(r'tests/\w+\.py', name):
            gate = [self.root / '.ci/run', *sorted((self.root / 'tests').glob('run-*.sh'))]
            runs = any(f'python3 {name}' in path.read_text(encoding='utf8') for path in gate if path.is_file())
            return runs and (self.root / name).is_file()
        if re.fullmatch(r'tests/\w+/[^/]+\.expected', name):
            return (self.root / name).is_file()
        return re.fullmatch(r'\w+/stdout', name) is not None and (self.crates / name).is_file()

    def edits(self):
        return sorted(self.crates.glob('*/must-fail/*.edit'))

    def specs(self):
        """(crate, file) of each file of specs/."""
        for path in sorted(self.crates.glob('*/specs/**/*.antt')):
            crate = path.relative_to(self.crates).parts[0]
            yield crate, str(path.relative_to(self.crates / crate / 'specs').with_suffix(''))

    def definitions(self):
        """CRATE/specs/FILE: NAME of each definition that a reader must believe."""
        for crate, file in self.specs():
            if not EXAMPLE_FILES.search(file):
                for name, (kind, public) in self.declared(crate, 'specs', file).items():
                    if public and kind != 'field':
                        yield f'{crate}/specs/{file}: {name}'

    def examples(self):
        """CRATE/specs/FILE: NAME of each example."""
        for crate, file in self.specs():
            if EXAMPLE_FILES.search(file):
                names = EXAMPLE.findall(self.text(crate, 'specs', file))
                for name, (kind, public) in self.declared(crate, 'specs', file).items():
                    record, _, field = name.partition('.')
                    if kind == 'field' and record.endswith('Examples'):
                        names.append(field)
                for name in names:
                    yield f'{crate}/specs/{file}: {name}'


def wrong(repository, column, place, name):
    """Why `place: name` may not stand in the column, or None."""
    crate, folder, file = (place.split('/', 2) + ['', ''])[:3]
    if folder not in COLUMNS[column] or (file == '') != (folder == 'must-fail'):
        return f'has no place in the column "{column}"'
    if folder == 'must-fail':
        return None if (repository.crates / crate / folder / (name + '.edit')).is_file() else 'is no edit of that crate'
    declared = repository.declared(crate, folder, file)
    if declared is None:
        return 'is in no file of that name'
    if column == 'pinning example' and name not in declared:
        fields = [field for field in declared if field.endswith('.' + name)]
        name = fields[0] if len(fields) == 1 else name
    if name not in declared:
        return 'is not declared there'
    if folder == 'src':
        return None if declared[name] else 'is a function without an ensures'
    kind, public = declared[name]
    if column == 'definition' and not public:
        return 'is not public'
    if column == 'contract or theorem' and kind != 'lemma':
        return f'is a {kind}, not a lemma'
    if column == 'pinning example' and folder == 'specs' and not repository.worked_out(crate, file, name):
        return 'is worked out by no theorem'
    return None


def rows(text):
    """(line number, titles of the columns, cells) of each row of the tables."""
    titles = None
    for number, line in enumerate(text.split('\n'), 1):
        if not line.startswith('|'):
            titles = None
            continue
        cells = [cell.strip() for cell in line.strip().strip('|').split('|')]
        if titles is None:
            titles = cells
        elif not set(line) <= set('|-: '):
            yield number, titles, cells


def check_cell(repository, column, cell, named):
    """What is wrong in a cell, whose names are added to `named`."""
    if column not in COLUMNS:
        return [f'no column is called "{column}"']
    problems = []
    if re.sub(r'`[^`]*`|<br>|,|\s', '', cell):
        problems.append(f'the column "{column}" has text beside its entries')
    for entry in re.findall(r'`([^`]*)`', cell):
        if column == 'pinning example' and ':' not in entry:
            named.append((column, entry))
            if not repository.has_output(entry):
                problems.append(f'{entry} is no output of a program and no test')
            continue
        place, _, names = entry.partition(':')
        for name in re.split(r',\s*', names.strip()):
            named.append((column, f'{place}: {name}'))
            if problem := wrong(repository, column, place, name):
                problems.append(f'{place}: {name} {problem}')
    return problems


def unpinned(row):
    """Whether a row has definitions and nothing but contracts beside them."""
    pins = [name for column, name in row if column == 'pinning example']
    theorems = [name for column, name in row if column == 'contract or theorem' and '/proofs/' in name]
    return any(column == 'definition' for column, name in row) and not pins and not theorems


def check(root):
    """(column, name) of each name in the pages of docs/trace, and what is wrong, one line each."""
    repository = Repository(root)
    problems = []
    named = []
    for page in sorted(Path(root).glob('docs/trace/*.md')):
        for number, titles, cells in rows(page.read_text(encoding='utf8')):
            row = []
            wrongs = [] if len(cells) == len(titles) else [f'the row has {len(cells)} cells, not {len(titles)}']
            for column, cell in zip(titles[1:], cells[1:]):
                wrongs += check_cell(repository, column, cell, row)
            if not any(column in ('contract or theorem', 'pinning example') for column, name in row):
                wrongs.append('the row has no contract, theorem or example')
            elif titles[0] != INNER and unpinned(row):
                wrongs.append('the row has definitions, and no theorem or example')
            problems += [f'docs/trace/{page.name}:{number}: {problem}' for problem in wrongs]
            named += row
    crates = {}
    for edit in repository.edits():
        crate = edit.parent.parent.name
        if edit.stem in crates:
            problems.append(f'{crate}/must-fail: {edit.stem} is also the name of an edit of {crates[edit.stem]}')
        crates[edit.stem] = crate
        if ('must-fail edit', f'{crate}/must-fail: {edit.stem}') not in named:
            problems.append(f'{crate}/must-fail: {edit.stem} is named in no row')
    problems += [f'{name} is an empty list of examples' for name in repository.empty_lists()]
    for definition in repository.definitions():
        if ('definition', definition) not in named:
            problems.append(f'{definition} is named in no row')
    for example in repository.examples():
        if ('pinning example', example) not in named:
            problems.append(f'{example} is named in no row')
    return named, problems


def main():
    named, problems = check(Path(__file__).resolve().parent.parent)
    for problem in problems:
        print(problem)
    print(f'trace: {len(named)} names, {len(problems)} wrong')
    sys.exit(1 if problems else 0)


if __name__ == '__main__':
    main()
