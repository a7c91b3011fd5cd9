#!/usr/bin/env python3
"""pages.py: what the pages show is so.

In docs/SCRIPTS.md a fenced block `box` is an input of boxrun, and the block `output` after it is, byte for byte, what target/bin/boxrun prints of
it. A block `output unsafe` after that is what it prints of the same input with every capability changed to unsafe. There is no other fenced
block, so that nothing looks like an input and is not run; commands for a shell are indented. In README.md an indented `$ boxrun < FILE` or
`$ box check FILE` has its output below it, and each `scripts/box ..` is well. The page's table of who may hold whom is tried pair by pair. The graph
of docs/DRAWING.md is what `box draw` prints of the example, and its picture has the same nodes and edges.

Besides: the numbers of that page, and of the index of docs/DECISIONS.md, are those of README.md with the same words; the index names every point,
and no other; the other pictures are what docs/pictures/draw.py draws, and the page shows each; every relative link of README.md and docs/*.md leads to
a file, and its anchor to a heading, that is there. Each check is tried on a page with a fault, which it must find. The last line is
'N passed, M failed'."""
import glob
import os
import re
import subprocess
import sys
import xml.dom.minidom
import xml.parsers.expat

sys.dont_write_bytecode = True
ROOT = os.path.dirname(os.path.dirname(os.path.abspath(__file__)))
sys.path.insert(0, os.path.join(ROOT, 'docs', 'pictures'))
import draw  # noqa: E402: the module stands beside its pictures

BOXRUN, BOX = os.path.join(ROOT, 'target', 'bin', 'boxrun'), os.path.join(ROOT, 'scripts', 'box')
SCRIPTS, DECISIONS, DRAWING, README = 'docs/SCRIPTS.md', 'docs/DECISIONS.md', 'docs/DRAWING.md', 'README.md'
DRAWN, PICTURE = 'examples/stale-write-back.box', 'docs/pictures/drawing.svg'
CAPABILITY = re.compile(r'\((new|cast|copy) (?:imm|iso|local|unsafe)\b')


def read(path):
    with open(os.path.join(ROOT, path), encoding='utf-8') as file:
        return file.read()


def section(page, heading):
    """What stands under a heading of the second level."""
    return re.split(r'^## ', page.partition('\n## %s\n' % heading)[2], flags=re.M)[0]


# Each check yields, for each thing that it looks at, the place and what is wrong with it: nothing where all is well.

def fenced(page):
    """The fenced blocks: the line of the fence, what stands behind the fence, the text within."""
    for block in re.finditer(r'^```(.*)\n((?:(?!```).*\n)*)```$', page, re.M):
        yield page.count('\n', 0, block.start()) + 1, block[1], block[2]


def printed(text):
    return subprocess.run([BOXRUN], input=text.encode(), stdout=subprocess.PIPE, check=True, timeout=60).stdout.decode()


def asked_of(command, path):
    return subprocess.run([BOX, command, os.path.join(ROOT, path)], stdout=subprocess.PIPE, timeout=60).stdout.decode()


def runs(page):
    given, left = None, False
    for line, info, text in fenced(page):
        where = '%s:%d' % (SCRIPTS, line)
        if info == 'box':
            yield where, 'the input before it has no output' if left else None
            given, left = text, True
        elif given is not None and info == ('output' if left else 'output unsafe'):
            got = printed(given if left else CAPABILITY.sub(r'(\1 unsafe', given))
            yield where, None if got == text else 'boxrun prints\n' + got
            left = False
        else:
            yield where, 'a block of another sort or out of its place: %r' % info
    yield SCRIPTS, 'the last input has no output' if left or given is None else None
    yield SCRIPTS, None if page.count('\n```') == 2 * len(list(fenced(page))) else 'a fence that is not closed'


def commands(page):
    found = list(re.finditer(r'^    \$ (boxrun <|box check) (\S+)\n((?:(?:    (?!\$).*)?\n)+)', page, re.M))
    for command in found:
        got = printed(read(command[2])) if command[1] == 'boxrun <' else asked_of('check', command[2])
        shown = re.sub('^    ', '', command[3], flags=re.M).rstrip('\n') + '\n'
        yield '%s: %s %s' % (README, command[1], command[2]), None if got == shown else 'it prints\n' + got
    yield README, None if len({command[1] for command in found}) == 2 else 'boxrun and box check are not both shown'


def asked(page):
    """The commands of README.md that ask box of an example: each is well, and prints something."""
    found = re.findall(r'^    (scripts/box [^#\n]*\S) +#', page, re.M)
    for command in found:
        ended = subprocess.run(command.split(), cwd=ROOT, stdout=subprocess.PIPE, timeout=60)
        yield '%s: %s' % (README, command), None if ended.returncode == 0 and ended.stdout else 'exits with %d' % ended.returncode
    yield README, None if len(found) == 7 else 'not every command of box is shown'


def drawing(page, picture):
    """The first indented block of the page, and the nodes and edges of its picture, which Graphviz has drawn."""
    graph = asked_of('draw', DRAWN)
    shown = re.search(r'(?:^    .*\n)+', page, re.M)
    yield DRAWING, None if shown and re.sub('^    ', '', shown[0], flags=re.M) == graph else 'box draw prints\n' + graph
    nodes = re.findall(r'^  (\d+) \[label="([^"]*)", shape=\w+, fillcolor=(\w+)\];$', graph, re.M)
    drawn = re.findall(r'class="node">\s*<title>(\d+)</title>\s*<\w+ fill="(\w+)"[^>]*>\s*<text[^>]*>([^<]*)</text>', picture)
    yield PICTURE, None if nodes and sorted(nodes) == sorted((name, label, fill) for name, fill, label in drawn) else 'has other nodes'
    edges = re.findall(r'^  (\d+) -> (\d+) \[label="([^"]*)"\];$', graph, re.M)
    drawn = re.findall(r'class="edge">\s*<title>(\d+)&#45;&gt;(\d+)</title>(?:(?!</g>).)*<text[^>]*>([^<]*)</text>', picture, re.S)
    yield PICTURE, None if edges and sorted(edges) == sorted(drawn) else 'has other edges'


HOLDING = """(kind (fields 0) (does))
(kind (fields 1) (does))
(thread)
(let (new %s 0))
(let (new %s 1 (take 1)))
(give (take 2))
(turns 0 0 0)
"""
MAY = {'yes': '(end finished 3)', 'no': '(stopped 14 0 0 1 1)'}


def holders(page):
    rows = re.findall(r'^\| (Holder|`\w+`) \| (\S+) \| (\S+) \| (\S+) \| (\S+) \|$', section(page, 'The four capabilities'), re.M)
    (_, *values), *rows = [[cell.strip('`') for cell in row] for row in rows]
    for holder, *cells in rows:
        for value, cell in zip(values, cells):
            answer = printed(HOLDING % (value, holder)).splitlines()[0]
            yield SCRIPTS, None if answer == MAY.get(cell) else '%s to hold %s: boxrun prints %s' % (holder, value, answer)
    named = {'imm', 'iso', 'local', 'unsafe'}
    yield SCRIPTS, None if {row[0] for row in rows} == set(values) == named else 'who may hold whom is not a table of four by four'


def words_in(table):
    return re.findall(r'^\| (\d+) \| ([a-z ]+) \|', table, re.M)


def numbers(page, where, heading):
    told = words_in(section(read(README), 'Numbers'))
    here = words_in(section(page, heading))
    for row in told:
        yield where, None if row in here else 'number %s, %s, is not there under "%s"' % (*row, heading)
    for row in here:
        yield where, None if row in told else 'number %s, %s, is not in README.md' % row
    yield where, None if told and len(here) == len(set(here)) else 'a number stands twice under "%s"' % heading


def index(page):
    named = {point for row in re.findall(r'^\|.*\| ([\d, ]+) \|$', section(page, 'Index'), re.M) for point in row.split(', ')}
    points = re.findall(r'^\| (\d+) \|', page.replace(section(page, 'Index'), ''), re.M)
    for point in points:
        yield DECISIONS, None if point in named else 'point %s is not in the index' % point
    for point in sorted(named, key=int):
        yield DECISIONS, None if points.count(point) == 1 else 'point %s of the index stands %d times' % (point, points.count(point))


def is_xml(text):
    try:
        return bool(xml.dom.minidom.parseString(text))
    except xml.parsers.expat.ExpatError:
        return False


def pictures(page):
    drawn = draw.drawn()
    there = {os.path.basename(path) for path in glob.glob(os.path.join(ROOT, 'docs', 'pictures', '*.svg'))} - {os.path.basename(PICTURE)}
    for name in sorted(set(drawn) | there):
        path = 'docs/pictures/' + name
        yield path, None if name in there and read(path) == drawn.get(name) else 'is not what docs/pictures/draw.py draws'
        yield path, None if '](pictures/%s)' % name in page else 'is not shown in ' + SCRIPTS
        yield path, None if is_xml(drawn.get(name, '')) else 'is not XML'


def anchors(page):
    """The anchors of the page's headings: small letters, hyphens for spaces, no other signs."""
    return [re.sub(r'[^\w -]', '', heading.lower()).replace(' ', '-') for heading in re.findall(r'^#+ (.*)', page, re.M)]


def links(path, page):
    for link in re.finditer(r'\]\(([^)\s]+)\)', page):
        file, _, anchor = link[1].partition('#')
        if '://' in link[1]:
            continue
        target = os.path.normpath(os.path.join(os.path.dirname(path), file)) if file else path
        there = os.path.exists(os.path.join(ROOT, target))
        if there and anchor:
            there = anchor in anchors(page if target == path else read(target))
        yield '%s:%d' % (path, page.count('\n', 0, link.start()) + 1), None if there else 'no such place: ' + link[1]


def finds(name, check):
    """A check of a page with a fault."""
    return 'tests/pages.py', None if any(fault for _, fault in check) else 'does not find ' + name


def tried():
    """Each check on a page with one fault."""
    page, decisions = read(SCRIPTS), read(DECISIONS)
    yield finds('a wrong byte of an output', runs(page.replace('(end open 0)', '(end open 1)', 1)))
    yield finds('a wrong byte of an unguarded output', runs(page.replace('(object 1 unsafe 1 0 (obj 3))', '(object 1 unsafe 1 0 (obj 0))', 1)))
    yield finds('a changed input', runs(page.replace('(turns 0 0)', '(turns 0)', 1)))
    yield finds('an input without its output', runs(page.replace('```output\n(end open 0)\n(thread 0 ready 0 0 absent)\n```\n', '', 1)))
    yield finds('a block of another sort', runs(page + '```sh\nboxrun\n```\n'))
    yield finds('a wrong byte below a command', commands(read(README).replace('(stopped 20 1 1 3 14)', '(stopped 20 1 1 3 15)')))
    yield finds('a command that is refused', asked(read(README).replace('box reach examples/case-a.box 1', 'box reach examples/case-a.box 2')))
    drawn, picture = read(DRAWING), read(PICTURE)
    yield finds('a wrong byte of a graph', drawing(drawn.replace('      2 -> 1 [label="0"];', '      2 -> 0 [label="0"];'), picture))
    yield finds('another picture', drawing(drawn, picture.replace('>2 local<', '>2 iso<')))
    yield finds('another fill', drawing(drawn, picture.replace('"khaki"', '"salmon"')))
    yield finds('an edge to another node', drawing(drawn, picture.replace('<title>2&#45;&gt;1</title>', '<title>2&#45;&gt;0</title>')))
    yield finds('an edge of another field', drawing(drawn, picture.replace('>1</text>', '>2</text>')))
    yield finds('a wrong holder', holders(page.replace('| `iso` | yes | yes | no | no |', '| `iso` | yes | no | no | no |')))
    yield finds('a number left out', numbers(page.replace('| 12 | no method |', '| no method |'), SCRIPTS, 'The numbers'))
    yield finds('another word', numbers(page.replace('| 19 | alias |', '| 19 | second |'), SCRIPTS, 'The numbers'))
    yield finds('a point left out', index(decisions.replace('159, 163 |', '159 |')))
    yield finds('a point that is not there', index(decisions.replace('| box | 124', '| box | 999, 124')))
    yield finds('a picture that is not shown', pictures(page.replace('](pictures/iso.svg)', '](pictures/imm.svg)')))
    yield finds('a link to nothing', links(SCRIPTS, page.replace('](../examples)', '](../example)')))
    yield finds('an anchor to nothing', links(SCRIPTS, page.replace('](#limits)', '](#limit)')))


def checks():
    page, decisions = read(SCRIPTS), read(DECISIONS)
    yield from runs(page)
    yield from commands(read(README))
    yield from asked(read(README))
    yield from drawing(read(DRAWING), read(PICTURE))
    yield from holders(page)
    yield from numbers(page, SCRIPTS, 'The numbers')
    yield from numbers(decisions, DECISIONS, 'Index')
    yield from index(decisions)
    yield from pictures(page)
    for path in [README] + sorted(os.path.relpath(path, ROOT) for path in glob.glob(os.path.join(ROOT, 'docs', '*.md'))):
        yield from links(path, read(path))
    yield from tried()


def main():
    results = list(checks()) if os.path.isfile(BOXRUN) else [(BOXRUN, 'is not there; make makes it')]
    faults = ['%s: %s' % (where, fault) for where, fault in results if fault]
    print('\n'.join(faults + ['%d passed, %d failed' % (len(results) - len(faults), len(faults))]))
    return 1 if faults else 0


if __name__ == '__main__':
    sys.exit(main())
