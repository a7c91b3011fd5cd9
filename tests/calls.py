#!/usr/bin/env python3
"""calls.py [declare | rows | rust]: the list of calls, include/calls.txt, which says what its columns are.

Without a word: the declarations of include/box.h and the functions of crates/host are those of the list, and the comment before a declaration
explains what the call takes, in its order; the header's numbers and their words are those of README's table; and the minor number of its version
counts the requests that docs/CHANGES.md has. The last line is 'N passed, M failed'. With one, it prints
    declare   the declarations, for include/box.h
    rows      the list for C, from which tests/host checks every call
    rust      the calls in Rust, on slices, for tests/linked"""
import os
import re
import sys
from collections import namedtuple

ROOT = os.path.dirname(os.path.dirname(os.path.abspath(__file__)))
LIST = 'include/calls.txt'
HEADER = 'include/box.h'
HOST = 'crates/host/src/lib.rt'
NUMBERS = 'README.md'
LANDED = 'docs/CHANGES.md'
ROW = re.compile(r'(?P<name>box_\w+)  +(?P<answers>\w+)  +(?P<checks>-|\w+(?: \w+)*)  +(?P<takes>\S.*)')
TAKEN = re.compile(r'(?P<name>\w+): (?:(?P<slice>read|write)(?: \.\.(?P<most>\d+)| (?P<least>\d+)\.\.)?|(?P<number>number|gets))')
TYPES = {'refusal': ('uint16_t', 'u16'), 'end': ('uint16_t', 'u16'), 'length': ('size_t', 'usize'), 'version': ('uint32_t', 'u32')}
REFUSES = ('refusal', 'end')

Call = namedtuple('Call', 'name answers checks takes')
Taken = namedtuple('Taken', 'name kind least most')  # kind: read, write, number or gets


def read(path):
    with open(os.path.join(ROOT, path), encoding='utf-8') as f:
        return f.read()


def taken(text, where):
    found = TAKEN.fullmatch(text)
    if not found:
        sys.exit('%s: %s: `%s` is nothing that a call takes' % (LIST, where, text))
    number = lambda group: int(found[group]) if found[group] else None
    return Taken(found['name'], found['slice'] or found['number'], number('least'), number('most'))


def call(row):
    found = ROW.fullmatch(row)
    if not found or found['answers'] not in TYPES:
        sys.exit('%s: no row of a call: %s' % (LIST, row))
    takes = [taken(text, found['name']) for text in found['takes'].split(', ') if text != '-']
    call = Call(found['name'], found['answers'], found['checks'].replace('-', '').split(), takes)
    gets = [t.name for t in takes if t.kind == 'gets']
    if sorted(call.checks) != sorted(t.name for t in takes if t.least or t.most):
        sys.exit('%s: %s checks other slices than those that must have a length' % (LIST, call.name))
    if call.answers == 'end' and 'number' not in gets or call.answers not in REFUSES and call.checks:
        sys.exit('%s: %s has nothing that says which refusal it is' % (LIST, call.name))
    if len(set(t.name for t in takes)) < len(takes):
        sys.exit('%s: %s takes two of one name' % (LIST, call.name))
    return call


def listed():
    """The rows of the list; a line that begins with a space goes on with the one before it."""
    lines = re.sub(r'^#.*\n', '', read(LIST), flags=re.M)
    calls = [call(row) for row in re.sub(r'\n +', ' ', lines).splitlines() if row]
    if not calls or len(set(c.name for c in calls)) < len(calls):
        sys.exit('%s has no call, or one twice' % LIST)
    return calls


# ---- C

IN_C = {'read': 'const uint8_t *%s, size_t %s_len', 'write': 'uint8_t *%s, size_t %s_len', 'number': 'size_t %s', 'gets': 'size_t *%s'}


def in_c(t):
    return IN_C[t.kind] % ((t.name,) * IN_C[t.kind].count('%s'))


def declaration(call):
    return '%s %s(%s);' % (TYPES[call.answers][0], call.name, ', '.join(in_c(t) for t in call.takes) or 'void')


def declared(call):
    """The declaration, a slice to a line where it is long."""
    text = declaration(call)
    if len(text) <= 100:
        return text
    margin = ' ' * (text.index('(') + 1)
    return re.sub(r'(_len,|size_t \w+,) (?=[\w ]*uint8_t|size_t)', lambda found: found[1] + '\n' + margin, text)


def places(call, kinds):
    """The place of each name among those of its kinds."""
    return {t.name: n for n, t in enumerate(t for t in call.takes if t.kind in kinds)}


def passed_on(call):
    """What the C test passes to the call: slices, numbers, and where numbers are written."""
    slices, numbers, gets = places(call, ('read', 'write')), places(call, ('number',)), places(call, ('gets',))
    for t in call.takes:
        if t.name in slices:
            yield 'slices[%d].bytes, slices[%d].length' % (slices[t.name], slices[t.name])
        elif t.name in numbers:
            yield 'numbers[%d]' % numbers[t.name]
        else:
            yield '&gets[%d]' % gets[t.name]


ROW_IN_C = '''    {
        .name = "%s", .make = make_%s, .answers = %s,
        .slices = {%s}, .slice_count = %d,
        .numbers = {%s}, .number_count = %d,
        .gets = {%s}, .get_count = %d,
    },
'''


def row_in_c(call):
    def slice_row(t):
        turn = call.checks.index(t.name) if t.name in call.checks else 0
        return '{"%s", %d, %d, %s, %d}' % (t.name, t.kind == 'write', t.least or 0, t.most or 'SIZE_MAX', turn)

    def names(kind):
        return ['"%s"' % t.name for t in call.takes if t.kind == kind] or ['NULL']

    slices = [slice_row(t) for t in call.takes if t.kind in ('read', 'write')]
    count = lambda kind: sum(t.kind == kind for t in call.takes)
    return ROW_IN_C % (call.name, call.name, 'ANSWERS_' + call.answers.upper(), ', '.join(slices or ['{NULL, 0, 0, 0, 0}']), len(slices),
                       ', '.join(names('number')), count('number'), ', '.join(names('gets')), count('gets'))


def rows(calls):
    text = '/* The calls of %s, by tests/calls.py. */\n' % LIST
    for call in calls:
        text += '\nstatic size_t make_%s(const struct part *slices, const size_t *numbers, size_t *gets)\n{\n' % call.name
        text += '    (void)slices, (void)numbers, (void)gets;\n    return %s(%s);\n}\n' % (call.name, ', '.join(passed_on(call)))
    return text + '\nstatic const struct call calls[] = {\n%s};' % ''.join(map(row_in_c, calls))


# ---- Rust

C_IN_RUST = {'read': '%s: *const u8, %s_len: usize', 'write': '%s: *mut u8, %s_len: usize', 'number': '%s: usize', 'gets': '%s: *mut usize'}
IN_RUST = {'read': '%s: &[u8]', 'write': '%s: &mut [u8]', 'number': '%s: usize'}
LENT = {'read': '%s.as_ptr(), %s.len()', 'write': '%s.as_mut_ptr(), %s.len()', 'number': '%s', 'gets': '%s'}
WRAPPER = '''
/// `%s`: its answer, and the numbers that it writes: %s.
pub fn %s(%s) -> (%s, [usize; %d]) {
    let mut gets = [usize::MAX; %d];
    let [%s] = &mut gets;
    // All that is lent lives through the call, and the library writes to what is lent for writing alone.
    let answer = unsafe { c::%s(%s) };
    (answer, gets)
}
'''


def spelled(forms, takes):
    return ', '.join(forms[t.kind] % ((t.name,) * forms[t.kind].count('%s')) for t in takes)


def rust(calls):
    text = 'mod c {\n    extern "C" {\n'
    for call in calls:
        text += '        pub fn %s(%s) -> %s;\n' % (call.name, spelled(C_IN_RUST, call.takes), TYPES[call.answers][1])
    text += '    }\n}\n'
    for call in calls:
        gets = [t.name for t in call.takes if t.kind == 'gets']
        given = [t for t in call.takes if t.kind != 'gets']
        text += WRAPPER % (call.name, ', '.join(gets) or 'none', call.name[len('box_'):], spelled(IN_RUST, given), TYPES[call.answers][1], len(gets),
                           len(gets), ', '.join(gets), call.name, spelled(LENT, call.takes))
    return text.rstrip('\n')


# ---- What must be as the list says

IN_RATTLE = {'read': '%s: &[u8]', 'write': '%s: &mut [u8]', 'number': '%s: usize', 'gets': '%s: &mut usize'}


def signature(call):
    return 'fn %s(%s) -> %s' % (call.name, spelled(IN_RATTLE, call.takes), TYPES[call.answers][1])


def one_line(text):
    """The same with single spaces, and none inside its brackets or before them."""
    return re.sub(r',? ?\)', ')', re.sub(r'\( ', '(', ' '.join(text.split())))


def declarations():
    """Each declaration of the header by its name, and the names that the comment before it explains."""
    pieces = re.finditer(r'(?:/\*((?:(?!\*/).)*)\*/\s*)?^(\w+ \*?(\w+)\([^;{]*\);)', read(HEADER), re.M | re.S)
    for found in pieces:
        explained = re.findall(r'^ \*   ((?:\w+, )*\w+)  ', found[1] or '', re.M)
        yield found[3], one_line(found[2]), [name for names in explained for name in names.split(', ')]


def functions():
    """Each function of the host by its name: all that it exports."""
    for found in re.finditer(r'^pub extern "C" (fn (\w+)\([^)]*\) -> \w+)', read(HOST), re.M):
        yield found[2], one_line(found[1])


def compared(where, calls, there, expected):
    """The faults of what stands somewhere, by its names, against what is expected of each call."""
    for name in sorted(set(there) - set(c.name for c in calls)):
        yield '%s: %s is not in %s' % (where, name, LIST)
    for call in calls:
        if call.name not in there:
            yield '%s: %s is not there' % (where, call.name)
        elif there[call.name] != expected(call):
            yield '%s: %s is\n    %s\nand not\n    %s' % (where, call.name, there[call.name], expected(call))


def numbered():
    """The numbers of README's table by rising number, each with its word."""
    table = read(NUMBERS).partition('\n## Numbers\n')[2].partition('\n## ')[0]
    return sorted((int(number), word) for number, word in re.findall(r'^\| (\d+) \| ([a-z ]+) \|', table, re.M))


def misnamed(numbers):
    """The faults of the header's numbers and of box_word: a define of each number, and a case of each that gives its word; no other case."""
    named = lambda word: 'BOX_' + word.upper().replace(' ', '_')
    defined = dict(re.findall(r'^#define (\w+) (\d+)\b', read(HEADER), re.M))
    cases = re.findall(r'^    case (\w+): return "([^"]*)";', read(HEADER), re.M)
    for number, word in numbers:
        if defined.get(named(word)) != str(number):
            yield '%s: %s is %s, and in %s %d' % (HEADER, named(word), defined.get(named(word), 'not there'), NUMBERS, number)
    told = [(named(word), word) for _, word in numbers]
    if not numbers or cases != told:
        odd = sorted(set(cases) ^ set(told)) or 'their order'
        yield '%s: box_word has not the words of %s: %s' % (HEADER, NUMBERS, odd)


def misversioned():
    """The fault of the minor number, where it does not count the requests that have landed."""
    minor = re.findall(r'^#define BOX_VERSION_MINOR (\d+)$', read(HEADER), re.M)
    landed = len(re.findall(r'^## L\d+\. ', read(LANDED), re.M))
    if minor != [str(landed)]:
        yield '%s: BOX_VERSION_MINOR is %s, and %d requests stand in %s' % (HEADER, ', '.join(minor) or 'not there', landed, LANDED)


def main():
    calls = listed()
    printed = {'declare': lambda: '\n\n'.join(map(declared, calls)), 'rows': lambda: rows(calls), 'rust': lambda: rust(calls)}
    if len(sys.argv) == 2 and sys.argv[1] in printed:
        print(printed[sys.argv[1]]())
        return 0
    if len(sys.argv) > 1:
        sys.exit(__doc__)
    texts = {name: text for name, text, _ in declarations()}
    comments = {name: explained for name, _, explained in declarations()}
    faults = list(compared(HEADER, calls, texts, declaration))
    faults += compared('the comments of ' + HEADER, calls, comments, lambda call: [t.name for t in call.takes])
    faults += compared(HOST, calls, dict(functions()), signature)
    numbers = numbered()
    faults += list(misnamed(numbers)) + list(misversioned())
    held = 3 * len(calls) + len(numbers) + 2
    print('\n'.join(faults + ['%d passed, %d failed' % (max(held - len(faults), 0), len(faults))]))
    return 1 if faults else 0


if __name__ == '__main__':
    sys.exit(main())
