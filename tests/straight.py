#!/usr/bin/env python3
"""straight.py: scripts are read straight from their text. In the source of every crate that reads (reader and all that it stands on, and replay)
there is no byte array but the fixed words, each of which stands in a quoted text of the definitions; nor an array of wider numbers that could
stand for one, but the program table; nor a byte slice that is written to, but the list of turns and the output that replay fills.

The test is tried on lines that it must find, and on lines that it must pass. The last line is 'N passed, M failed'."""
import glob
import os
import re
import sys

ROOT = os.path.dirname(os.path.dirname(os.path.abspath(__file__)))
DEFINITIONS = ['Templates', 'Input']
# What a run takes and what boxrun prints: lists of bytes, and no text that is read.
ALLOWED = {'replay': [r'let mut turns = \[0u8; 32768\];', r'\b(turns|output): &mut \[u8\]']}

TABLE = '0u16; 8192'
BYTES = r'b"(?:[^"\\]|\\.)*"'
WORD = r'(?:pub )?const \w+: \[u8; \d+\] = \*%s;' % BYTES
FOUND = [
    'let mut line = [0u8; 64];',
    'let mut line = [0; 64];',
    'let mut line = [0u64; 8];',
    "let line = [b' '; 80];",
    'let line = [ 0u8 ; 64 ];',
    'let line: [u8; 64] = front(s);',
    'let mut line = [first; 64];',
    "let word = [b'i', b's', b'o'];",
    'let word = [first, second];',
    'struct Line { bytes: [u8; 32], end: usize }',
    'struct Line { bytes: [\n    u8;\n    32\n] }',
    'fn copy_line(s: &[u8], line: &mut [u8]) {}',
    'fn front(s: &[u8]) -> [u8; 8] {',
    'type Line = [u8; 64];',
    'type Byte = u8;',
    'let word = b"(lot ";',
    'const WORD: [u8; 4] = *b"isot";',
    'const WORD: [u8; 3] = [0u8; 3];',
    'let word = *b"iso";',
    'fn front(s: &[u8]) -> Line\n    ensures { result ≡ front {s} }\n{\n    let line = [0u8; 64];',
    '#[derive(Clone, Copy)]\nstruct Line([u8; 64]);',
]
PASSED = [
    'let a = s[at + 1];',
    'let part = &s[at..end];',
    'fn line_at(s: &[u8], at: usize) -> Line {',
    'let mut words = [0u16; 8192];',
    'let marks = [false; 256];',
    'fn put(t: &mut [u16], n: usize) {',
    'const HOLDS: [[bool; 2]; 2] = [\n    [true, false],\n    [true, true],\n];',
    'pub const ISO: [u8; 3] = *b"iso";',
    'let opened = begins_at(s, at, b"(let (");',
    '// a line is no [u8; 64]',
    "if s[i] == b'\\n' {",
    '    ensures { result ≡ slice_index_or s.now (at + 1) [] }',
    '    requires short { length s.now ≡ 0 → (xs : List ℕ) → IfOk {E = ℕ} result (λ x. x ≡ [first]) }\n    ensures { true }',
    '#![tactic(auto)]\n\n#[derive(Clone, Copy)]\npub struct Line {',
    '#![tactic(auto, unfolding(crate::specs::Words::plain, rules::specs::Lists::all))]',
]


def read(path):
    with open(os.path.join(ROOT, path), encoding='utf-8') as file:
        return file.read()


def below():
    """What each crate names, by crates.txt."""
    return dict(re.findall(r'^(\w+)(?: staticlib)?:([^#\n]*)', read('crates.txt'), re.M))


def stands_on(crate):
    """A crate and all that it stands on, by crates.txt."""
    named = below()
    crates = [crate]
    for one in crates:
        crates += [dep for dep in named.get(one, '').split() if dep not in crates]
    return crates


def without_clauses(source):
    """The source without the clauses of its contracts."""
    left, at = '', 0
    for clause in re.finditer(r'^[^\S\n]*(?:requires|ensures)\b[^{\n]*\{', source, re.M):
        if clause.start() >= at:
            left, at, depth = left + source[at:clause.start()], clause.end(), 1
            while depth and at < len(source):
                depth += {'{': 1, '}': -1}.get(source[at], 0)
                at += 1
    return left + source[at:]


def code(source):
    """The source without its remarks, attributes and contracts."""
    return without_clauses(re.sub(r'//[^\n]*|^ghost use [^\n]*|#!?\[\w+\((?:[\w:, ]|\([\w:, ]*\))*\)\]', '', source, flags=re.M))


def quoted(text):
    return text.replace('\\n', '\n').replace('\\"', '"').replace('\\\\', '\\')


def is_word(string, texts):
    """Whether a byte string stands in one of the quoted texts."""
    return any(quoted(string[2:-1]) in text for text in texts)


def elements(inside):
    """The elements of an array that is written out, as far as it holds no array itself."""
    return [part.strip() for part in inside.split(',') if part.strip()]


def faults(source, texts, allowed=()):
    """What stands in a source beside the fixed words."""
    left = code(source)
    for pattern in allowed:
        left = re.sub(pattern, '', left)
    # a fixed word by its name, then those that are lent where they are compared
    strings = re.findall(BYTES, left)
    found = [string for string in strings if not is_word(string, texts)]
    left = re.sub(WORD, '', left)
    found += re.findall(r'\*' + BYTES, left)
    left = re.sub(BYTES, '', left)
    found += re.findall(r'&\s*(?:\'\w+\s+)?mut\s*\[\s*u8\s*\]', left)
    found += re.findall(r'\btype\s+\w+\s*=[^;]*\bu8\b', left)
    # an array, by its type or its values: not an index, which stands behind a name or a bracket
    for inside in re.findall(r'(?<![\w\])])\s*\[([^\[\]]*)\]', left):
        element, semicolon, _ = inside.partition(';')
        shown = [element.strip()] if semicolon else elements(inside)
        slices = not semicolon and len(shown) == 1 and re.fullmatch(r'u8|u16|usize|bool', shown[0])
        truths = all(re.fullmatch(r'bool|true|false', one) for one in shown)
        if not slices and not truths and inside != TABLE:
            found.append('[%s]' % ' '.join(inside.split()))
    return found


def main():
    specs = [read('crates/rules/specs/%s.antt' % name) for name in DEFINITIONS]
    texts = [quoted(text) for spec in specs for text in re.findall(r'"((?:[^"\\]|\\.)*)"', spec)]
    passed, failed = 0, []
    for line in FOUND:
        if faults(line, texts):
            passed += 1
        else:
            failed.append('not found: %s' % line)
    for line in PASSED:
        here = faults(line, texts)
        passed += not here
        failed += ['found in %s: %s' % (line, fault) for fault in here]
    words = 0
    for crate in stands_on('reader') + ['replay']:
        for path in sorted(glob.glob(os.path.join(ROOT, 'crates', crate, 'src', '**', '*.rt'), recursive=True)):
            source = read(path)
            here = faults(source, texts, ALLOWED.get(crate, ()))
            words += len(re.findall(BYTES, code(source)))
            passed += not here
            failed += ['%s: %s' % (os.path.relpath(path, ROOT), fault) for fault in here]
    if words == 0:
        failed.append('no fixed word was met')
    print('\n'.join(failed + ['fixed words met: %d' % words, '%d passed, %d failed' % (passed, len(failed))]))
    return 1 if failed else 0


if __name__ == '__main__':
    sys.exit(main())
