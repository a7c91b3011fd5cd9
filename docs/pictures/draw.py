#!/usr/bin/env python3
"""draw.py: draws the pictures of docs/SCRIPTS.md beside this file, one for each capability and one of the whole machine.

A capability is told by its outline and its word, not by colour: imm two thin lines, iso one thick line, local dashes, unsafe dots. An arrow is a
reference; one that ends in a cross is what a guard stops, with the number of the stop. tests/pages.py holds the files to what is drawn here."""
import math
import os
import re

HERE = os.path.dirname(os.path.abspath(__file__))
SANS = 'DejaVu Sans, Verdana, Arial, sans-serif'
MONO = 'DejaVu Sans Mono, Menlo, Consolas, monospace'
GREY = '#555555'


def text(x, y, words, anchor='start', size=14, weight='normal'):
    """One line of words; what stands in backticks is a word of a script."""
    words = words.replace('&', '&amp;').replace('<', '&lt;')
    words = re.sub(r'`([^`]*)`', r'<tspan font-family="%s">\1</tspan>' % MONO, words)
    return '<text x="%d" y="%d" text-anchor="%s" font-family="%s" font-size="%d" font-weight="%s">%s</text>' % (
        x, y, anchor, SANS, size, weight, words)


def frame(x, y, w, h, width=1, dashes='none', stroke='black', corner=0, fill='white'):
    return '<rect x="%d" y="%d" width="%d" height="%d" rx="%d" fill="%s" stroke="%s" stroke-width="%d" stroke-dasharray="%s"/>' % (
        x, y, w, h, corner, fill, stroke, width, dashes)


def line(points, width=2, dashes='none'):
    return '<polyline points="%s" fill="none" stroke="black" stroke-width="%d" stroke-dasharray="%s"/>' % (
        ' '.join('%d,%d' % p for p in points), width, dashes)


def arrow(*points, dashes='none'):
    """A reference, or the way of a value: it ends in a tip."""
    (x0, y0), (x1, y1) = points[-2:]
    far = math.hypot(x1 - x0, y1 - y0)
    dx, dy = (x1 - x0) / far, (y1 - y0) / far
    corners = [(x1, y1), (x1 - 11 * dx - 5 * dy, y1 - 11 * dy + 5 * dx), (x1 - 11 * dx + 5 * dy, y1 - 11 * dy - 5 * dx)]
    shaft = list(points[:-1]) + [(round(x1 - 9 * dx), round(y1 - 9 * dy))]
    return line(shaft, dashes=dashes) + '<polygon points="%s" fill="black"/>' % ' '.join('%.1f,%.1f' % p for p in corners)


def stopped(number, *points, beside=(12, -8)):
    """What a guard stops: it ends in a cross, with the number beside it."""
    x, y = points[-1]
    return (line(points, dashes='6 4') + line([(x - 7, y - 7), (x + 7, y + 7)], 3) + line([(x - 7, y + 7), (x + 7, y - 7)], 3)
            + text(x + beside[0], y + beside[1], str(number), size=16, weight='bold'))


def thread(x, y, w, h, name):
    return frame(x, y, w, h, stroke=GREY, corner=10) + text(x + 12, y + 22, name, weight='bold')


def slot(x, y, name, filled=True, width=120, mirrored=False):
    """A slot of a thread: a dot where it holds a reference, else the word absent; mirrored, the dot stands on the left."""
    dot = '<circle cx="%d" cy="%d" r="5" fill="black"/>' % (x + (14 if mirrored else width - 14), y + 14)
    holds = dot if filled else text(x + width - 8, y + 19, '`absent`', 'end', 12)
    return frame(x, y, width, 28) + text(x + (32 if mirrored else 8), y + 19, name, size=13) + holds


def thing(x, y, cap, name, w=130, h=64):
    """An object, in the outline of its capability."""
    outlines = {
        'imm': frame(x, y, w, h) + frame(x + 4, y + 4, w - 8, h - 8),
        'iso': frame(x, y, w, h, 5),
        'local': frame(x, y, w, h, 2, '10 5'),
        'unsafe': frame(x, y, w, h, 3, '2 5'),
    }
    return outlines[cap] + text(x + w // 2, y + h // 2 - 4, name, 'middle') + text(x + w // 2, y + h // 2 + 17, '`%s`' % cap, 'middle', 15, 'bold')


def picture(title, height, parts, words, width=680):
    """A whole picture: its title, its parts, and lines of words below them."""
    lines = [text(20, height - 22 * (len(words) - n) + 6, w) for n, w in enumerate(words)]
    body = [frame(0, 0, width, height, 0), text(20, 30, title, size=17, weight='bold')] + parts + lines
    return '<svg xmlns="http://www.w3.org/2000/svg" width="%d" height="%d" viewBox="0 0 %d %d" role="img">\n<title>%s</title>\n%s\n</svg>\n' % (
        width, height, width, height, title.replace('`', ''), '\n'.join(body))


def imm():
    return picture('`imm`: it never changes', 300, [
        thread(20, 50, 160, 90, 'thread 0'), slot(40, 86, 'slot 2'),
        thread(500, 50, 160, 90, 'thread 1'), slot(520, 86, 'slot 1', mirrored=True),
        thing(275, 68, 'imm', 'object 0'),
        arrow((146, 100), (275, 100)), text(195, 92, '`read`', size=13),
        arrow((534, 100), (405, 100)), text(440, 92, '`read`', size=13),
        stopped(14, (340, 186), (340, 142), beside=(14, 6)), text(340, 204, 'a `swap` of its field', 'middle', 13),
    ], ['Any thread may hold it, read it and send it, and keep it too.',
        'Nobody changes it: a `swap` into it stops with 14.',
        'It holds `imm` objects only, so nothing that it reaches changes either.'])


def iso():
    return picture('`iso`: one reference at a time', 330, [
        thread(20, 50, 160, 90, 'thread 0'), slot(40, 86, 'slot 2', filled=False),
        thread(500, 50, 160, 90, 'thread 1'), slot(520, 86, 'slot 1', mirrored=True),
        frame(275, 62, 130, 28, stroke=GREY, corner=14), text(340, 81, 'channel 1', 'middle', 13),
        arrow((180, 76), (275, 76), dashes='2 3'), text(197, 68, '`take`', size=13),
        arrow((405, 76), (500, 76), dashes='2 3'), text(430, 68, '`recv`', size=13),
        thing(275, 150, 'iso', 'object 0'),
        arrow((534, 100), (534, 182), (408, 182)),
        stopped(19, (100, 114), (100, 182), (250, 182), beside=(-32, -10)), text(112, 204, 'a second one, by `read`', size=13),
    ], ['`take` hands it on and leaves the slot absent, so that whoever has it has it alone.',
        'A `read` of it, or of a field that holds it, would make a second reference: 19.',
        'Whoever has it reads and swaps its fields, and calls its methods.',
        'It holds `imm` and `iso` objects.'])


def local():
    return picture('`local`: with the thread that made it', 330, [
        thread(20, 50, 330, 130, 'thread 0'), slot(40, 98, 'slot 2'), thing(205, 80, 'local', 'object 0'),
        arrow((146, 112), (205, 112)),
        thread(500, 66, 160, 90, 'thread 1'), slot(520, 98, 'slot 1', mirrored=True),
        stopped(20, (534, 112), (350, 112)), text(372, 132, '`field swap call`', size=12),
        stopped(14, (270, 144), (270, 206), (400, 206), beside=(14, 6)), text(284, 200, 'a `send` of it', size=13),
    ], ['Its own thread reads and changes it as it likes.',
        'Another thread may come to hold it, inside an `unsafe` object: if it uses it, 20.',
        'A `send` of it stops with 14.',
        'It holds `imm` and `iso` objects, and `local` ones of the same thread.'])


def unsafe():
    return picture('`unsafe`: a plain object', 260, [
        thread(20, 50, 160, 90, 'thread 0'), slot(40, 86, 'slot 2'),
        thread(500, 50, 160, 90, 'thread 1'), slot(520, 86, 'slot 1', mirrored=True),
        thing(275, 68, 'unsafe', 'object 0'),
        arrow((146, 100), (273, 100)), text(184, 92, '`field swap`', size=12),
        arrow((534, 100), (407, 100)), text(412, 92, '`field swap`', size=12),
        text(340, 164, 'no guard: the last write stands, be it a stale one', 'middle', 13),
    ], ['Any thread may hold, read, change and send it, at any turn.',
        'A script in which every capability is `unsafe` meets none of 14, 15, 19 and 20.',
        'It holds any object; another thread\'s `local` by a `swap` only, a `new` stops with 20.'])


def machine():
    """The state after eight of the twelve turns of the page's script."""
    turns = [frame(150 + 30 * n, 46, 30, 28, fill='#dddddd' if n < 8 else 'white') + text(165 + 30 * n, 65, str(t), 'middle')
             for n, t in enumerate([0, 0, 0, 0, 0, 0, 0, 0, 1, 0, 0, 1])]
    slots = [slot(40, 142 + 30 * n, 'slot %d' % n, filled, 130) for n, filled in enumerate([False, True, False, True, True, True])]
    return picture('A run: turns, threads with their slots, a channel, objects', 520, turns + [
        text(20, 65, 'line of turns', size=13),
        arrow((405, 98), (405, 76)), text(418, 96, 'next: thread 1 performs its line', size=13),
        thread(20, 90, 170, 240, 'thread 0'), text(32, 132, 'block 0, line 5', size=13)] + slots + [
        thread(20, 345, 170, 90, 'thread 1'), text(32, 387, 'block 2, line 0', size=13), slot(40, 396, 'slot 0', True, 130),
        frame(290, 362, 110, 30, stroke=GREY, corner=15), text(345, 382, 'channel 1', 'middle', 13),
        frame(470, 110, 190, 325, stroke=GREY, corner=10), text(482, 132, 'objects', weight='bold'),
        thing(500, 148, 'imm', 'object 0'), thing(500, 240, 'imm', 'object 2'), thing(500, 345, 'iso', 'object 1'),
        arrow((156, 186), (500, 172)), arrow((156, 246), (500, 262)), arrow((156, 276), (500, 192)),
        arrow((156, 306), (290, 370)), arrow((156, 410), (290, 384)), arrow((400, 377), (498, 377)),
        arrow((565, 343), (565, 304)), text(573, 329, 'field 0', size=13),
    ], ['At its turn a thread performs the next line of its block, and the line fills the next slot.',
        'A slot holds nothing (absent), an object or a channel. A field holds an object.',
        'Thread 0 has put object 1 in the channel. Until thread 1 receives it, thread 0 waits.'])


PICTURES = {'imm': imm, 'iso': iso, 'local': local, 'unsafe': unsafe, 'machine': machine}


def drawn():
    """The name and the text of each file."""
    return {name + '.svg': draw() for name, draw in PICTURES.items()}


if __name__ == '__main__':
    for name, svg in drawn().items():
        with open(os.path.join(HERE, name), 'w', encoding='utf-8', newline='\n') as file:
            file.write(svg)
