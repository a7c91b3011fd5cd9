#!/usr/bin/env python3
"""definitions.py SEED ..: the definitions against the second interpreter. For each seed, random inputs of boxrun are given to the
second interpreter, and the prover computes what `boxrun` of crates/rules/specs prints for them: both must be the same bytes. Of those that
make objects it computes the `drawing` too, which must be the second interpreter's.
The cases are written into a crate over a copy of rules, outside the repository. Last line: 'N passed, M failed'."""
import os
import re
import shutil
import subprocess
import sys
import tempfile

ROOT = os.path.dirname(os.path.dirname(os.path.abspath(__file__)))
SECOND = os.path.join(ROOT, 'tests/target/release/second')
INPUTS = 120           # inputs drawn for each seed
LONGEST = 900          # longer ones take the prover long
LONGEST_OUTPUT = 2000  # and so do longer outputs: copies make many objects from a short input
LEAST = 20             # fewer inputs compare too little
LEAST_COPIES = 5       # and so do fewer accepted ones with a copy in them
LEAST_EDGES = 10       # and fewer drawings with an edge

HEAD = '''-- What the definitions print for random inputs, computed.
use Prim.Native.Nat.{ℕ}
use mathlib.Core.Path.{◌≡◌, refl}
use mathlib.Core.List.{List}
use Rattle.rules.specs.Mosts.{mosts}
use Rattle.rules.specs.Text.{bytes, join}
use Rattle.rules.specs.Templates.{print}
use Rattle.rules.specs.Reading.{reading}
use Rattle.rules.specs.Calls.{long_text, long_turns}
use Rattle.rules.specs.Run.{refused}
use Rattle.rules.specs.Listing.{answer_line}
use Rattle.rules.specs.Drawing.{drawing, node_line, edge_line, edge_lines}
use Rattle.rules.specs.Input.{boxrun, Outcome, turns_away, ran, outcome, turns_of, last_line, lines_before}
use Rattle.agreement.proofs.Computing.{reads_texts, runs_programs, prints_runs}

abbrev drawn_of : Outcome → List ℕ
drawn_of (turns_away k n) = answer_line (refused k n)
drawn_of (ran a S) = drawing S
'''
CASE = '''
case-%d : boxrun mosts (bytes "%s") ≡ bytes "%s"
unfolding boxrun outcome turns_of last_line lines_before join reading long_text long_turns reads_texts runs_programs prints_runs
case-%d = refl
'''
DRAWN = '''
case-%d : drawn_of (outcome mosts (bytes "%s")) ≡ bytes "%s"
unfolding outcome turns_of last_line lines_before join reading long_text long_turns reads_texts runs_programs prints_runs print drawing node_line edge_line edge_lines
case-%d = refl
'''


def second(words, given=b''):
    return subprocess.run([SECOND] + words, input=given, stdout=subprocess.PIPE, check=True).stdout


def quotable(text):
    """A text that a quoted text of the prover can hold as it is, but for its LFs."""
    return len(text) <= LONGEST and all(b == 10 or 32 <= b < 127 and b not in b'"\\' for b in text)


def quoted(text):
    return text.decode().replace('"', '\\"').replace('\n', '\\n')


def has_copy(text, printed):
    """An input with a copy in it that is accepted."""
    return b'(copy ' in text and not printed.startswith(b'(refused')


def write(folder, name, text):
    path = os.path.join(folder, name)
    os.makedirs(os.path.dirname(path), exist_ok=True)
    with open(path, 'w') as f:
        f.write(text)


def main():
    inputs = [second(['one', seed, str(n)]) for seed in sys.argv[1:] for n in range(INPUTS)]
    pairs = [(i, second([], i)) for i in inputs if quotable(i)]
    pairs = [(i, o) for i, o in pairs if len(o) <= LONGEST_OUTPUT]
    drawn = [(i, second(['draw'], i)) for i, o in pairs if b'(object ' in o]
    drawn = [(i, o) for i, o in drawn if len(o) <= LONGEST_OUTPUT]
    if len(pairs) < LEAST or sum(has_copy(i, o) for i, o in pairs) < LEAST_COPIES or sum(b' -> ' in o for i, o in drawn) < LEAST_EDGES:
        sys.exit('definitions.py: too few inputs to compare')
    compared = [(CASE, i, o) for i, o in pairs] + [(DRAWN, i, o) for i, o in drawn]
    cases = [case % (n, quoted(i), quoted(o), n) for n, (case, i, o) in enumerate(compared)]
    with tempfile.TemporaryDirectory() as folder:
        shutil.copytree(os.path.join(ROOT, 'crates/rules'), os.path.join(folder, 'crates/rules'), ignore=shutil.ignore_patterns('must-fail', 'out'))
        write(folder, 'crates.txt', 'rules:\nagreement: rules\n')
        agreement = os.path.join(folder, 'crates/agreement')
        write(agreement, 'src/lib.rt', '// No code: cases alone.\n#![tactic(auto)]\n')
        write(agreement, 'proofs/Lib.antt', 'mod Computing\nmod Agreement\n')
        write(agreement, 'proofs/Agreement.antt', HEAD + ''.join(cases))
        shutil.copy(os.path.join(ROOT, 'crates/theorems/proofs/Computing.antt'), os.path.join(agreement, 'proofs'))
        check = subprocess.run(['rt', 'check'], cwd=agreement, stdout=subprocess.PIPE, stderr=subprocess.STDOUT, text=True)
    failed = sorted(set(int(n) for n in re.findall(r'error: `case-(\d+)`', check.stdout)))
    for n in failed:
        print('the definitions %s something else for\n' % ('draw' if compared[n][0] == DRAWN else 'print') + compared[n][1].decode())
    if check.returncode != 0 and not failed:
        print(check.stdout[-3000:])
        failed = [0]
    print('%d passed, %d failed' % (len(compared) - len(failed), len(failed)))
    sys.exit(1 if failed else 0)


main()
