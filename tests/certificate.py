#!/usr/bin/env python3
"""certificate.py: every name that docs/CERTIFICATE.md cites stands in the tree, every public function has a row there with two edits or more,
and every edit is cited.

A name stands in backticks, as one of
    S/FILE: name, ..     S/CRATE/FILE: ..   definitions of crates/CRATE/specs/FILE.antt (without CRATE: of rules)
    P/FILE: name, ..     P/CRATE/FILE: ..   theorems and laws of crates/CRATE/proofs/FILE.antt
    M/CRATE: name, ..                       must-fail edits of a crate, crates/CRATE/must-fail/NAME.edit
    E/CRATE: name, ..                       the same beside the gate, crates/CRATE/tried/NAME.edit
    T/FILE: name, ..                        tests of the second interpreter, tests/second/tests/FILE.rs
    C: name, ..                             parts of the C test, tests/host/host_test.c and every_call.h
    G: name, ..                             parts of the gate, scripts/test
    CRATE::name, CRATE::MODULE::name        functions, types and constants: of the crate's root or passed on there; of src/MODULE.rt
    CRATE::Type::name                       methods of a type, or of a trait that it has, and variants of an enum
    a/path, README.md                       files and folders of the repository
(S, P and T without names cite the file). Whatever else stands in backticks is a failure. The last line is 'N passed, M failed'."""
import glob
import os
import re
import sys

ROOT = os.path.dirname(os.path.dirname(os.path.abspath(__file__)))
CERTIFICATE = 'docs/CERTIFICATE.md'
EDITS = {'M': 'must-fail', 'E': 'tried'}
KEYWORDS = {'pub', 'unfoldable', 'abbrev', 'record', 'data', 'module'}
ITEM = r'^(?:pub )?(?:extern "C" )?(?:fn|enum|struct|const|mod) %s\b'
IMPL = r'^impl(?:<[^{]*?>)? (?:[^{]* for )?(\w+)(?:<[^{]*)? \{\n(.*?)^\}'


def read(path):
    """The text of a file of the repository; nothing where it is not there."""
    path = os.path.join(ROOT, path)
    return open(path, encoding='utf-8').read() if os.path.isfile(path) else ''


def declared(path):
    """The names that a file of definitions or proofs declares: those before the first colon of a line."""
    names = set()
    for line in read(path).splitlines():
        head, colon, _ = line.partition(' :')
        if colon and not line.lstrip().startswith('--'):
            names |= set(head.partition('(')[0].partition('{')[0].split()) - KEYWORDS
    return names


def in_file(path, pattern):
    return lambda name: re.search(pattern % re.escape(name), read(path), re.M) is not None


def root_of(crate):
    """The crate's root: that of a library, or of a program."""
    library = 'crates/%s/src/lib.rt' % crate
    return library if read(library) else 'crates/%s/src/main.rt' % crate


def passed_on(library):
    """The module and the name of each item that a crate's root passes on."""
    for module, names in re.findall(r'^pub use (\w+)::(\w+|\{[^}]*\});', library, re.M):
        for name in re.findall(r'\w+', names):
            yield module, name


def sources_of(crate):
    """The sources of a crate, each with its module's name."""
    for path in sorted(glob.glob(os.path.join(ROOT, 'crates', crate, 'src', '**', '*.rt'), recursive=True)):
        yield os.path.splitext(os.path.basename(path))[0], read(os.path.relpath(path, ROOT))


def methods(source, types=None):
    """The type and the name of each method that a source gives to one: its own that are pub, and those of its traits; if types are given, where the
    head of the impl names one of them."""
    for block in re.finditer(IMPL, source, re.M | re.S):
        head = block[0].partition('{')[0]
        if types is not None and not types.intersection(re.findall(r'\w+', head)):
            continue
        of_trait = ' for ' in head
        for name in re.findall(r'^    %sfn (\w+)' % ('' if of_trait else 'pub '), block[2], re.M):
            yield block[1], name


def variants(source):
    """The enum and the name of each variant."""
    for block in re.finditer(r'^(?:pub )?enum (\w+) \{\n(.*?)^\}', source, re.M | re.S):
        for name in re.findall(r'^    (\w+)', block[2], re.M):
            yield block[1], name


def stands(cited):
    """What a piece in backticks cites, each with whether it stands; nothing where the piece fits no convention."""
    place, colon, names = cited.partition(': ')
    names = names.split(', ') if colon else []
    kind, _, rest = place.partition('/')
    if kind in ('S', 'P') and re.fullmatch(r'(\w+/)?\w+', rest):
        crate, _, file = ('rules/' + rest).rpartition('/')
        path = 'crates/%s/%s/%s.antt' % (crate.split('/')[-1], {'S': 'specs', 'P': 'proofs'}[kind], file)
        there = declared(path)
        return [(place, bool(read(path)))] + [(n, n in there) for n in names]
    if kind == 'T' and re.fullmatch(r'\w+', rest):
        path = 'tests/second/tests/%s.rs' % rest
        return [(place, bool(read(path)))] + [(n, in_file(path, r'^fn %s\(')(n)) for n in names]
    if kind in EDITS and names:
        return [(n, bool(read('crates/%s/%s/%s.edit' % (rest, EDITS[kind], n)))) for n in names]
    if place == 'C' and names:
        files = ('tests/host/host_test.c', 'tests/host/every_call.h')
        return [(n, any(in_file(file, r'^static \w+ \*?%s\(')(n) for file in files)) for n in names]
    if place == 'G' and names:
        return [(n, in_file('scripts/test', r'^ *part %s ')(n)) for n in names]
    if re.fullmatch(r'\w+(::\w+){1,2}', cited):
        crate, *module, name = cited.split('::')
        if module and module[0][0].isupper():
            members = [one for _, source in sources_of(crate) for one in [*methods(source), *variants(source)]]
            return [(cited, (module[0], name) in members)]
        path = 'crates/%s/src/%s.rt' % (crate, module[0]) if module else root_of(crate)
        passed = not module and name in [other for _, other in passed_on(read(path))]
        return [(cited, passed or in_file(path, ITEM)(name))]
    if re.fullmatch(r'[\w.-]+(/[\w.-]+)+|[\w-]+\.\w+', cited):
        return [(cited, os.path.exists(os.path.join(ROOT, cited)))]
    return []


def public_functions():
    """Each function that a crate's lib.rt declares pub or passes on, and each method of such a type, or of a trait over one."""
    for crate in re.findall(r'^(\w+)(?: staticlib)?:', read('crates.txt'), re.M):
        library = read('crates/%s/src/lib.rt' % crate)
        for name in re.findall(r'^pub (?:extern "C" )?fn (\w+)', library, re.M):
            yield '%s::%s' % (crate, name)
        for module, name in passed_on(library):
            if in_file('crates/%s/src/%s.rt' % (crate, module), r'^pub fn %s\b')(name):
                yield '%s::%s' % (crate, name)
        types = set(re.findall(r'^pub (?:enum|struct) (\w+)', library, re.M)) | {name for _, name in passed_on(library)}
        for _, source in sources_of(crate):
            for method in sorted(set(methods(source, types))):
                if library:
                    yield '%s::%s::%s' % ((crate,) + method)


def edits_in(text):
    """The files of the edits that a text cites."""
    for kind, crate, names in re.findall(r'`([ME])/(\w+): ([^`]*)`', text):
        for name in names.replace('\n', ' ').split(', '):
            yield 'crates/%s/%s/%s.edit' % (crate, EDITS[kind], name)


def edits():
    """The files of all edits."""
    for folder in EDITS.values():
        for path in sorted(glob.glob(os.path.join(ROOT, 'crates', '*', folder, '*'))):
            yield os.path.relpath(path, ROOT)


def main():
    text = read(CERTIFICATE)
    passed, faults = 0, []
    for piece in re.finditer(r'`([^`]*)`', text):
        cited = ' '.join(piece[1].split())
        where = '%s:%d: `%s`' % (CERTIFICATE, text.count('\n', 0, piece.start()) + 1, cited)
        found = stands(cited)
        passed += sum(holds for _, holds in found)
        faults += ['%s: %s is not there' % (where, name) for name, holds in found if not holds]
        faults += [] if found else ['%s fits no convention' % where]
    rows = dict(re.findall(r'^\| `([^`]*)`(.*)', text.partition('\n## Public functions\n')[2], re.M))
    for function in public_functions():
        if len(set(edits_in(rows.get(function, '')))) >= 2:
            passed += 1
        else:
            faults.append('%s: %s has no row with two edits under "Public functions"' % (CERTIFICATE, function))
    cited = set(edits_in(text))
    for edit in edits():
        if edit in cited:
            passed += 1
        else:
            faults.append('%s: %s is not cited' % (CERTIFICATE, edit))
    print('\n'.join(faults + ['%d passed, %d failed' % (passed, len(faults))]))
    return 1 if faults or not passed else 0


if __name__ == '__main__':
    sys.exit(main())
