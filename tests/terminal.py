#!/usr/bin/env python3
"""terminal.py: the programs at a terminal. An input is typed line by line and ended by ^D; what is then shown is what a pipe gets, with the same
status. The last line is 'N passed, M failed'."""
import os
import pty
import subprocess
import sys
import termios

ROOT = os.path.dirname(os.path.dirname(os.path.abspath(__file__)))
BOXRUN, BOX = os.path.join(ROOT, 'target', 'bin', 'boxrun'), os.path.join(ROOT, 'scripts', 'box')
ACCEPTED = '(thread)\n(let (spawn 0))\n(give (read 1))\n(turns 0 0 1 1)\n'
CUT = '(thread)\n(let (spawn 0))\n'
COMMANDS = [[BOXRUN]] + [[BOX, command] for command in ('check', 'run', 'save', 'strip', 'draw')] + [[BOX, 'reach', '-', '0']]


def piped(words, text):
    ended = subprocess.run(words, input=text.encode(), stdout=subprocess.PIPE, stderr=subprocess.STDOUT, timeout=60)
    return ended.stdout.decode(), ended.returncode


def typed(words, text):
    """The terminal shows nothing of what is typed, so that only what the program writes comes back."""
    ours, theirs = pty.openpty()
    settings = termios.tcgetattr(theirs)
    settings[1] &= ~termios.OPOST
    settings[3] &= ~termios.ECHO
    termios.tcsetattr(theirs, termios.TCSANOW, settings)
    started = subprocess.Popen(words, stdin=theirs, stdout=theirs, stderr=theirs)
    os.close(theirs)
    for line in text.splitlines(keepends=True):
        os.write(ours, line.encode())
    os.write(ours, b'\x04')
    shown = b''
    while True:
        try:
            part = os.read(ours, 4096)
        except OSError:  # the program has ended, and all that it wrote was read
            break
        if not part:
            break
        shown += part
    os.close(ours)
    return shown.decode(), started.wait(60)


def main():
    faults, passed = [], 0
    for words in COMMANDS:
        for text in (ACCEPTED, CUT, ''):
            wanted, got = piped(words, text), typed(words, text)
            if wanted == got and wanted[0]:
                passed += 1
            else:
                faults.append('%s on %r: %r, and by a pipe %r' % (words, text, got, wanted))
    print('\n'.join(faults + ['%d passed, %d failed' % (passed, len(faults))]))
    return 1 if faults else 0


if __name__ == '__main__':
    sys.exit(main())
