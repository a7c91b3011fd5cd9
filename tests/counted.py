#!/usr/bin/env python3
"""counted.py: no holder is counted afresh. In the source of the entry that tells a holder count and of all that it stands on, but for what reads the
script before the first turn, there is no loop, no call of the library that goes over a slice, nor a function that calls itself, but those of the
two tables below: so that no turn, no run's end and no answer goes over the objects, the frames or the slots. Of the second table no turn and no
run calls anything.

The test is tried on sources that it must find, and on sources that it must pass. The last line is 'N passed, M failed'."""
import glob
import os
import re
import sys

from straight import below, read, stands_on, without_clauses

ROOT = os.path.dirname(os.path.dirname(os.path.abspath(__file__)))
ENTRY = 'holders'
READING = ['grammar', 'reader']

# What may go round, by its function: the head of its loop, the call that goes over a slice, or that it calls itself; and what it goes over.
ITSELF = 'calls itself'
ALLOWED = [
    ('table::release_slots', 'for i in 0..n', 'the slots of the one frame that ends'),
    ('table::clear_frame', 's[h.frame..h.frame + 19].fill', 'the words of the one frame that ends'),
    ('table::copy_table', 't[..8192].copy_from_slice', 'the words of a run that was made, handed out'),
    ('walk::walk', 'for j in 0..4', 'the fields of one object that a copy meets'),
    ('walk::walk', ITSELF, 'the objects that a copy meets, each once'),
    ('checks::item_check', 'before.iter', 'the items of a new before this one'),
    ('checks::items_check', 'for i in 0..4', 'the items of a new'),
    ('checks::any_foreign', 'values.iter', 'the values of a new'),
    ('checks::any_above', 'values.iter', 'the values of a new'),
    ('checks::hold_check', 'values.iter', 'the values of a new'),
    ('turn::new_line', 'for i in 0..4', 'the items of a new'),
    ('turn::hold_all', 'for v in values', 'the fields of one copy'),
    ('turn::any_foreign_met', 'order.iter', 'the objects that a copy has met'),
    ('turn::add_all', 'for i in 0..order.len()', 'the objects that a copy has met'),
    ('run::all_finished', '(0..16).all', 'at the end, the threads: whether one has a frame'),
    ('run::all_wait', '(0..table::thread_count(s) as usize).all', 'at the end, the threads: whether each would wait'),
    ('run::play_from', 'for i in from..turns.len()', 'the turns'),
    ('run::play', 'loop', 'the stretches of turns between copies'),
]
# What stands beside these and is for others: the writer, and the stripped script.
ELSEWHERE = [
    ('table::same_table', '&t[..8192] ==', 'the words of two tables'),
    ('table::strip_program', 'for n in 0..672', 'the lines of a script'),
    ('table::erase_state', 'for o in 0..256', 'the objects, each made unsafe'),
]

# Each with the crate that it would stand in.
FOUND = [
    ('turn', 'fn count(s: &[u16]) {\n    let mut o = 0;\n    while o < 256 {\n        o += 1;\n    }\n}'),
    ('turn', 'pub fn count(s: &[u16]) {\n    for t in 0..16 {\n    }\n}'),
    ('checks', "fn count() {\n    'all: loop {\n        break 'all;\n    }\n}"),
    ('holders', 'pub fn holders(s: &[u16], o: usize) -> u16 { let mut i = 0; while i < 16 { i += 1; } i }'),
    ('turn', 'fn count(s: &[u16], o: usize) -> u16 {\n    if o == 256 {\n        return 0;\n    }\n    count(s, o + 1)\n}'),
    ('turn', 'fn count(o: usize) -> u16 {\n    crate::counts::count(o + 1)\n}'),
    ('turn', 'fn count(o: usize) -> u16 {\n    more(o)\n}\nfn more(o: usize) -> u16 {\n    count(o + 1)\n}'),
    ('table', 'impl Here {\n    fn count(self, o: usize) -> u16 {\n        self.count(o + 1)\n    }\n}'),
    ('table', 'fn clear_frame(s: &mut [u16]) {\n    let mut i = 0;\n    while i < 8192 {\n        i += 1;\n    }\n}'),
    ('table', 'pub fn next_frame(s: &mut [u16]) {\n    let mut i = 0;\n    while i < 19 {\n        i += 1;\n    }\n}'),
    ('checks', 'fn clear_frame(s: &mut [u16]) {\n    let mut i = 0;\n    while i < 19 {\n        i += 1;\n    }\n}'),
    ('run', 'fn play() {\n    loop {\n    }\n    loop {\n    }\n}'),
    ('run', 'fn end(s: &mut [u16]) {\n    table::erase_state(s);\n}'),
    ('turn', 'use table::same_table;\nfn same(s: &[u16]) -> bool {\n    same_table(s, s)\n}'),
    ('turn', 'use table::erase_state as fresh;\nfn count(s: &mut [u16]) {\n    fresh(s);\n}'),
    ('table', 'fn fresh(s: &mut [u16]) {\n    stripped::erase_state(s);\n}'),
    ('turn', 'use table::{clear_slot, same_table};\nfn same(s: &[u16]) -> bool {\n    same_table(s, s)\n}'),
    ('turn', 'use table::{\n    clear_slot,\n    erase_state as fresh,\n};\nfn count(s: &mut [u16]) {\n    fresh(s);\n}'),
    ('turn', 'fn count(s: &[u16])\n    ensures { result ≡ {s} }\n{\n    loop {\n    }\n}'),
    ('turn', 'fn count(s: &[u16]) -> usize {\n    s.iter().filter(|w| **w == 1).count()\n}'),
    ('turn', 'fn met(marks: &[bool; 256]) -> bool {\n    marks[1..].contains(&true)\n}'),
    ('table', 'fn clear_frame(s: &mut [u16]) {\n    s[at..at + 8192].fill(0);\n}'),
    ('turn', 'fn same(s: &[u16], t: &[u16]) -> bool {\n    &s[..8192] != t\n}'),
    ('run', 'fn end(s: &[u16]) -> bool {\n    (0..table::object_count(s)).all(|o| table::holder_count(s, o) == 0)\n}'),
]
PASSED = [
    ('turn', '// a while over all objects, or a loop\nfn put(s: &mut [u16]) {\n    table::put(s);\n}'),
    ('turn', 'fn put(s: &mut [u16])\n    requires { for while put (loop) }\n    ensures { put {s} (result) }\n{\n    s[0] = 1;\n}'),
    ('turn', 'fn put(s: &mut [u16])\n    requires short { for\n        while put (loop) }\n    ensures sees { put (result) }\n{\n    s[0] = 1;\n}'),
    ('run', 'use turn::{perform, turn};\nfn run(s: &mut [u16]) {\n    perform(s);\n}'),
    ('turn', 'fn whiles(format: u16) -> u16 {\n    let looped = format;\n    looped\n}'),
    ('turn', 'fn first() -> u16 {\n    second()\n}\nfn second() -> u16 {\n    1\n}'),
    ('turn', 'fn take_slot(s: &mut [u16]) {\n    table::take_slot(s);\n}'),
    ('run', 'use turn::perform;\nfn turn(s: &mut [u16]) {\n    perform(s);\n}'),
    ('rules', 'const WORD: [u8; 7] = *b"while (";'),
    ('run', 'fn all_finished(s: &[u16]) -> bool {\n    (0..16).all(|t| table::frame_count(s, t) == 0)\n}'),
    ('walk', 'pub fn walk(s: &[u16], v: Value) {\n    for j in 0..4 {\n        walk(s, v);\n    }\n}'),
    ('table', 'pub fn erase_state(s: &mut [u16]) {\n    for o in 0..256 {\n        erase_object(s, o);\n    }\n}'),
    ('table', 'fn clear_frame(s: &mut [u16]) {\n    s[h.frame..h.frame + 19].fill(0);\n}'),
    ('rules', 'fn number(self) -> u16 {\n    self as u16\n}\n\nimpl From<u16> for Form {\n    fn from(n: u16) -> Form {\n        Form::Kind\n    }\n}'),
]


BELOW = below()


# The library's methods that go over a slice, each with what stands before it, slices compared, and what is asked over a range of numbers.
OVER = (r'[\w.]+(?:\[[^\]]*\])?\.(?:iter|iter_mut|into_iter|chunks|windows|split|fill|copy_from_slice|clone_from_slice|copy_within|contains'
        r'|starts_with|ends_with|reverse|rotate_left|rotate_right|sort|sort_unstable|binary_search|swap_with_slice|concat)(?=\()|&\w+\[[^\]]*\.\.[^\]]*\] [!=]='
        r'|\((?:[^()]|\([^()]*\))*\.\.(?:[^()]|\([^()]*\))*\)\.\w+')


def code(source):
    """The source without its remarks, contracts, texts and heads of impl blocks."""
    return re.sub(r'^impl\b[^{]*', '', without_clauses(re.sub(r'//[^\n]*|^ghost use [^\n]*|b"(?:[^"\\]|\\.)*"', '', source, flags=re.S | re.M)), flags=re.M)


def imported(source):
    """The crate and the name behind each name that a source takes from another crate."""
    used = re.findall(r'^(?:pub )?use (\w+)::(?:\w+::)*(\w+(?: as \w+)?|\{[^}]*\});', source, re.M)
    names = [(crate, name, other) for crate, names in used for name, other in re.findall(r'(\w+)(?: as (\w+))?', names)]
    return {other or name: (crate, name) for crate, name, other in names if crate in BELOW}


def functions(source):
    """Each function by its name, with all from its name to the next function's."""
    pieces = re.split(r'^\s*(?:pub )?(?:extern "C" )?fn (\w+)', source, flags=re.M)
    return list(zip(pieces[1::2], pieces[2::2]))


def called(crate, body, names):
    """What may be called: the crate and the name of whatever stands before a bracket."""
    for path, name in re.findall(r'((?:\w+::)*)(\w+)\s*\(', body):
        first = path.partition('::')[0]
        yield (first, name) if first in BELOW else names.get(name, (crate, name)) if not path else (crate, name)


def rounds(crate, sources):
    """What goes round in a crate: each loop, each call that goes over a slice, and each function that calls itself, also by way of others; and what each function calls."""
    found, calls = [], {}
    for source in map(code, sources):
        names = imported(source)
        for name, body in functions(source):
            found += [('%s::%s' % (crate, name), ' '.join(head.split())) for head in re.findall(r'\b((?:while|for|loop)\b[^{]*)\{', body) + re.findall(OVER, body)]
            calls.setdefault((crate, name), set()).update(called(crate, body, names))
    for function, reached in calls.items():
        met = list(reached)
        for one in met:
            met += [other for other in calls.get(one, ()) if other not in met]
        found += [('::'.join(function), ITSELF)] if function in met else []
    return found, calls


def faults(crate, sources):
    """What goes round and is not allowed to, or more often than it is; and each call of what is for others."""
    found, calls = rounds(crate, sources)
    left = [row[:2] for row in ALLOWED + ELSEWHERE]
    for one in found:
        if one in left:
            left.remove(one)
        else:
            yield '%s: %s' % one
    aside = {row[0] for row in ELSEWHERE}
    for function, reached in calls.items():
        for other in sorted({'::'.join(one) for one in reached} & aside - {'::'.join(function)}):
            yield '%s: calls %s' % ('::'.join(function), other)


def sources_of(crate):
    return [read(path) for path in sorted(glob.glob(os.path.join(ROOT, 'crates', crate, 'src', '**', '*.rt'), recursive=True))]


def main():
    failed = ['not found in %s: %s' % sample for sample in FOUND if not list(faults(sample[0], sample[1:]))]
    failed += ['found in %s: %s' % sample for sample in PASSED if list(faults(sample[0], sample[1:]))]
    passed, met = len(FOUND) + len(PASSED) - len(failed), []
    for crate in [crate for crate in stands_on(ENTRY) if crate not in READING]:
        sources = sources_of(crate)
        here = list(faults(crate, sources)) if sources else ['crates/%s: no source was met' % crate]
        met += rounds(crate, sources)[0]
        passed += not here
        failed += here
    for function, head, _ in ALLOWED + ELSEWHERE:
        if (function, head) in met:
            passed += 1
        else:
            failed.append('%s: %s is allowed, and not there' % (function, head))
    print('\n'.join(failed + ['what goes round: %d' % len(met), '%d passed, %d failed' % (passed, len(failed))]))
    return 1 if failed else 0


if __name__ == '__main__':
    sys.exit(main())
