#!/usr/bin/env python3
"""Plants arrays in a source and sees which of them tests/constant_data.py finds; the last line counts the cases."""
import sys
import tempfile
from pathlib import Path

sys.dont_write_bytecode = True
import constant_data


def listed(count):
    return ', '.join(str(i) for i in range(count))


def by_lines(count):
    lines = ''.join(f'        {i}, // a role\n' for i in range(count))
    return f'fn f() -> u8 {{\n    let roles = [\n{lines}    ];\n    roles[0]\n}}\n'


# a source, and whether an array in it is too long
CASES = {
    'a const of 17': (f'const ROLES: [u8; 17] = [{listed(17)}];', True),
    'a const of 16': (f'const ROLES: [u8; 16] = [{listed(16)}];', False),
    'a const of 16 with a comma after the last': (f'const ROLES: [u8; 16] = [{listed(16)},];', False),
    'a repeat of 17 in a const': ('const ROLES: [u8; 17] = [1; 17];', True),
    'a repeat of 16 in a const': ('const ROLES: [u8; 16] = [1; 16];', False),
    'a repeat as often as a const says': ('const COUNT: usize = 17;\npub const ROLES: [u8; COUNT] = [1; COUNT];', True),
    'a repeat by a product': ('const ROLES: [u8; 18] = [1u8; 2 * 9];', True),
    'a repeat by a length that is not known': ('const ROLES: [u8; elsewhere::COUNT] = [1; elsewhere::COUNT];', True),
    'a repeat by a cast': ('const N: u8 = 2;\nconst A: [u8; N as usize * 9] = [1; N as usize * 9];', True),
    'a repeat by a product and a quotient': ('const A: [u8; 3 * 17 / 3] = [1; 3 * 17 / 3];', True),
    'a repeat of 17 in a static': ('static ROLES: [u8; 17] = [1; 17];', True),
    'a repeat of 17 in a static to be changed': ('static mut ROLES: [u8; 17] = [1; 17];', True),
    'a repeat of 16 in a static': ('static ROLES: [u8; 16] = [1; 16];', False),
    'a repeat of 17 in a block of a const': ('fn f() { g(const { [1; 17] }); }', True),
    'a const that a function makes': ('const ROLES: [u8; 17] = made();', True),
    'a const of another type': ('type Roles = [u8; 17];\nconst ROLES: Roles = [1; 17];', True),
    'a const of a slice': ('const ROLES: &[u8] = &[1; 17];', True),
    'a const of a reference to 16': ("const ROLES: &'static [u8; 16] = &[1; 16];", False),
    'a constant that is a number': ('const MOST: usize = 65;\nfn f() { g([MOST, MOST]); }', False),
    'a length that is a parameter': ("fn f<'a, const N: usize>(rows: &'a [u64; N], more: &[u64; 64]) {}", False),
    'five times four in a const': ('const PAIRS: [[u8; 4]; 5] = [[1, 2, 3, 4]; 5];', True),
    'four times four in a const': ('const PAIRS: [[u8; 4]; 4] = [[1; 4]; 4];', False),
    'a named array twice': ('const A: [u8; 9] = [1; 9];\nconst B: [[u8; 9]; 2] = [A, A];', True),
    'a named array four times': ('const A: [u8; 16] = [1; 16];\nconst B: [[u8; 16]; 4] = [A; 4];', True),
    'a named array once': ('const A: [u8; 16] = [1; 16];\nfn f() { g(A, A, A[0]); }', False),
    'a named array twice in a call': ('const A: [u8; 9] = [1; 9];\nfn f() { g(&[A, A]); }', True),
    'an array by another name': ('const A: [u8; 9] = [1; 9];\nuse m::A as B;\nfn f() { g(&[B, B]); }', True),
    'two lengths of one name': ('const N: usize = 17;\nconst A: [u8; N] = [1; N];\nmod m { const N: u8 = 4; }', True),
    'a length in brackets': ('const A: [u8; 17] = [1; (16 + 1)];', True),
    'a length by a difference': ('const A: [u8; 16] = [1; 40 - 24];', False),
    'a length by a shift': ('const A: [u8; 32] = [1; 1 << 5];', True),
    'a length of another type': ('const N: u8 = 17;\nconst A: [u8; 17] = [1; N as usize];', True),
    'a raw byte string of 17': ('const A: [u8; 17] = *br"seventeen letters";', True),
    'a raw byte string of 16': ('const A: [u8; 16] = *br#"sixteen "letters"#;', False),
    'a byte string of 20 over two lines': ('const A: [u8; 20] = *b"abcdefghij\\\n     klmnopqrst";', True),
    'a byte string of 16 over two lines': ('const A: [u8; 16] = *b"abcdefgh\\\n         ijklmnop";', False),
    'an array of 17 in a block comment': (f'/* [{listed(17)}]\n */ fn f() {{}}', False),
    'an array in a struct of a const': (f'const TABLE: Table = Table {{ roles: [{listed(17)}] }};', True),
    'a literal of 17 over several lines': (by_lines(17), True),
    'a literal of 16 over several lines': (by_lines(16), False),
    'a literal of 17 in a call': (f'fn f() {{ g(&[{listed(17)}]); }}', True),
    'a literal in a literal': (f'fn f() {{ g([[{listed(9)}], [{listed(8)}]]); }}', True),
    'a byte string of 17': ('fn f() { g(b"seventeen letters"); }', True),
    'a byte string of 16': ('fn f() { g(b"sixteen letters\\n"); }', False),
    'a byte string that ends in a mark': ('fn f() { g(b"seventeen marks##"); }', True),
    'a text of 17': ('fn f() { g("seventeen letters"); }', True),
    'two byte strings of 9': ('fn f() { g([b"nine byte", b"nine more"]); }', True),
    'two byte strings of 7': ('fn f() { g([b"routers", b"suspect"]); }', False),
    'a byte string of 17 in a const': ('const WORD: &[u8; 17] = b"seventeen letters";', True),
    'a reference to a repeat of 17': ('fn f() { g(&[1; 17]); }', True),
    'a reference to a repeat of 16': ('fn f() { g(&[1; 16]); }', False),
    'a repeat of 17 in a struct': ('fn f() { g(&Table { roles: [1; 17] }); }', True),
    'a repeat of 17 compared with': ('fn f(roles: &[u8; 17]) -> bool { *roles == [1; 17] }', True),
    'repeats in a literal': ('fn f() { g(&[[1; 9], [2; 9]]); }', True),
    'a bracket in a letter': (f"fn f() {{ g(b'[', ']', [{listed(17)}]); }}", True),
    'a comment in a byte string': ('fn f() { g(b"//", &[1; 17]); }', True),
    'memory of rows to work in': ('fn f() { let mut rows = [[0u64; 64]; 64]; }', False),
    'memory to work in': ('fn f() { let mut rows = [0u64; 64]; g(&mut rows[2..], [1, 2]); }', False),
    'an array of 17 in a comment': (f'// [{listed(17)}]\nfn f() {{}}', False),
    'seventeen arguments in an index': (f'fn f() {{ s[g({listed(17)})] = 0; }}', False),
}


def repository_cases():
    """A product crate's array is found in a repository, that of a test program is not."""
    long = CASES['a const of 17'][0]
    with tempfile.TemporaryDirectory() as folder:
        root = Path(folder)
        (root / 'crates.txt').write_text('# crates\nroles: base\nfor_c staticlib: roles\ncases: roles\n')
        for crate, text in (('roles', 'fn f() {}'), ('for_c', 'fn f() {}'), ('cases', long)):
            (root / 'crates' / crate / 'src').mkdir(parents=True)
            (root / 'crates' / crate / 'src' / 'lib.rt').write_text(text)
        yield 'a test program', constant_data.long_arrays(constant_data.product_sources(root)) == []
        (root / 'crates/roles/src/deep').mkdir()
        (root / 'crates/roles/src/deep/table.rt').write_text(f'\n{long}\n')
        found = constant_data.long_arrays(constant_data.product_sources(root))
        place = ('crates/roles/src/deep/table.rt', 2)
        yield 'a file of a module, with its line', [item[:2] for item in found] == [place]
        (root / 'crates/roles/src/deep/table.rt').write_text('')
        (root / 'crates/for_c/src/lib.rt').write_text(long)
        found = constant_data.long_arrays(constant_data.product_sources(root))
        yield 'a static library', [item[:2] for item in found] == [('crates/for_c/src/lib.rt', 1)]


def main():
    finds = {name: bool(constant_data.long_arrays({'lib.rt': text})) for name, (text, _) in CASES.items()}
    results = [(name, finds[name] == due) for name, (_, due) in CASES.items()]
    results += repository_cases()
    wrong = [name for name, right in results if not right]
    for name in wrong:
        print(f'constant data test: {name}: WRONG')
    print(f'constant data test: {len(results) - len(wrong)} passed, {len(wrong)} failed')
    sys.exit(1 if wrong else 0)


if __name__ == '__main__':
    main()
