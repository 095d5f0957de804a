#!/usr/bin/env python3
"""Draws docs/layers.svg from crates.txt: a box for each crate, one for the programs of cases, in bands, and an arrow to each nearest crate that it
builds on. Where an arrow would run through a box, the name stands in words instead.
Assumes crates.txt, and that every crate has its line in PLACES below.

usage: docs/layers.py draw | check"""
import pathlib
import re
import sys

sys.dont_write_bytecode = True
import drawing
from drawing import BLUE, GREEN, GREY, SAND, STRIP

HERE = pathlib.Path(__file__).resolve().parent
LEGEND = ((BLUE, 'code with proved contracts'), (GREEN, 'no code: definitions and claims'), (SAND, 'programs that the gate runs'))
# the bands from the bottom, and what each is
BANDS = {
    'octets': 'on nothing else',
    'line': 'on bytes and refusals alone',
    'ends': 'both processors, and who reads their wire',
    'claims': 'what is proved over whole lists of calls',
    'programs': 'what is run or called',
}
# the crates of one box are named by the end of their names
TOGETHER = '_cases'
# of each crate its band, its row in the band from the bottom, its first and last column, its words
PLACES = {
    'octets': ('octets', 0, 1, 5, 'runs of bytes and little-endian numbers on lent slices'),
    'refusals': ('octets', 0, 0, 0, 'why a call says no'),
    'counters': ('octets', 0, 7, 7, 'the counter block'),
    'addresses': ('line', 0, 0, 0, 'the address plan'),
    'rot': ('line', 0, 1, 1, 'root-of-trust link'),
    'probes': ('line', 0, 6, 6, 'the probe list'),
    'line': ('line', 0, 2, 5, 'checksum, COBS frames, messages, the reader and the writer'),
    'plain': ('ends', 0, 2, 2, 'a second reader'),
    'requester': ('ends', 0, 4, 4, 'main processor'),
    'supervisor': ('ends', 0, 5, 5, 'state, local calls'),
    'saving': ('ends', 1, 5, 5, 'settings to an image'),
    'responder': ('ends', 1, 6, 6, 'requests, replies'),
    'tap': ('ends', 2, 7, 7, 'a tap on the wire'),
    'line_claims': ('claims', 0, 3, 3, 'what is read back'),
    'saving_claims': ('claims', 0, 5, 5, 'saved is restored'),
    'rot_claims': ('claims', 2, 1, 1, 'what is read back'),
    'plain_claims': ('claims', 1, 2, 2, 'both readers agree'),
    'requester_claims': ('claims', 1, 4, 4, 'numbers, answers'),
    'supervisor_claims': ('claims', 1, 6, 6, 'state and replies'),
    'both_claims': ('claims', 2, 5, 5, 'fresh answers'),
    'counters_claims': ('claims', 2, 6, 6, 'frames counted'),
    'tap_claims': ('claims', 2, 7, 7, 'never accused'),
    'claims': ('claims', 3, 0, 7, "each of the customer's demands and requests as one record"),
    'replay': ('programs', 0, 0, 0, 'answers a stream of requests'),
    'audit': ('programs', 0, 1, 1, 'lists the frames of a capture'),
    'oatcastle': ('programs', 0, 3, 3, 'the library for C and Rust'),
    '*_cases': ('programs', 0, 4, 4, 'run vectors and edges'),
    'text_lines': ('programs', 0, 5, 5, 'lines of text that drive cases'),
}
MARGIN, GUTTER, COLUMN_GAP, ROW_GAP, PAD, NAME, WORDS, STEP = 20, 96, 15, 34, 9, 13, 11, 15
LEFT = MARGIN + GUTTER


def depends():
    """Each box with the boxes that it builds on."""
    found = {}
    for name, others in re.findall(r'^(\w+)(?: [^:\n]*)?:(.*)$', (HERE.parent / 'crates.txt').read_text(), re.M):
        found.setdefault('*' + TOGETHER if name.endswith(TOGETHER) else name, set()).update(others.split())
    graph = {name: others & found.keys() for name, others in found.items()}
    for name in sorted(graph.keys() - PLACES.keys()):
        sys.exit(f'layers: {name} of crates.txt has no line in PLACES of docs/layers.py')
    for name in sorted(PLACES.keys() - graph.keys()):
        sys.exit(f'layers: {name} of PLACES is not in crates.txt')
    return graph


def reach(name, graph):
    return set().union(*({other} | reach(other, graph) for other in graph[name])) if graph[name] else set()


def nearest(graph):
    """Each box with those that no other between them builds on."""
    return {name: sorted(other for other in graph[name] if not any(other in reach(between, graph) for between in graph[name])) for name in graph}


def kind(name):
    folder = HERE.parent / 'crates' / name / 'src'
    if name == '*' + TOGETHER or (folder / 'main.rt').exists():
        return SAND
    return BLUE if any(re.search(r'^(pub(\(crate\))? )?(mod|fn|struct|const|enum) ', path.read_text(), re.M) for path in folder.glob('*.rt')) else GREEN


class Box:
    """A crate's place, and the lines in it."""

    def __init__(self, name, others):
        self.name = name
        self.band, self.row, self.first, self.last, self.words = PLACES[name]
        self.others, self.x, self.y, self.wide = others, 0, 0, 0

    def lines(self):
        told = drawing.wrapped(self.words, WORDS, self.wide - 2 * PAD + 1)
        if self.others:
            told += drawing.wrapped(f'on {", ".join(self.others)}', WORDS, self.wide - 2 * PAD)
        return told

    @property
    def high(self):
        return 26 + STEP * len(self.lines()) + 4

    @property
    def right(self):
        return self.x + self.wide

    @property
    def middle(self):
        return self.x + self.wide / 2

    @property
    def bottom(self):
        return self.y + self.high

    def needs(self):
        return 2 * PAD + max(drawing.wide(self.name, NAME, True), drawing.wide(self.words, WORDS))


def across(boxes):
    """Sets the places from left to right: columns as wide as their boxes need; a row of programs has columns of its own."""
    inner = [box for box in boxes if box.band != 'programs']
    columns = 1 + max(box.last for box in inner)
    widths = [max(box.needs() for box in inner if box.first == box.last == column) for column in range(columns)]
    left = [LEFT + sum(widths[:column]) + COLUMN_GAP * column for column in range(columns)]
    for box in inner:
        box.x, box.wide = left[box.first], left[box.last] + widths[box.last] - left[box.first]
    outer = sorted((box for box in boxes if box.band == 'programs'), key=lambda box: box.first)
    span = left[-1] + widths[-1] - LEFT
    each = (span - COLUMN_GAP * (len(outer) - 1)) / len(outer)
    for number, box in enumerate(outer):
        box.x, box.wide = LEFT + (each + COLUMN_GAP) * number, each
    return LEFT + span


def down(boxes, top):
    """Sets the places from the top to the bottom; gives the bands and where they end."""
    strips = []
    for band in reversed(BANDS):
        rows = sorted({box.row for box in boxes if box.band == band}, reverse=True)
        begin, top = top, top + 14
        for row in rows:
            members = [box for box in boxes if (box.band, box.row) == (band, row)]
            for box in members:
                box.y = top
            top += max(box.high for box in members) + (ROW_GAP if row != rows[-1] else 14)
        strips.append((band, begin, top - begin))
        top += 12
    return strips, top


def ports(boxes, edges):
    """The ends of each arrow: straight down where the boxes stand above each other, else from side to side, none on another's."""
    found, taken = {}, {}
    for name, box in boxes.items():
        targets = sorted((boxes[other] for other in edges[name]), key=lambda target: target.middle)
        for number, target in enumerate(targets):
            below = target.wide <= box.wide and box.x < target.middle < box.right
            found[name, target.name] = target.middle if below else box.middle + 26 * (number - (len(targets) - 1) / 2)
    # the farthest first, so that it ends outermost
    for (name, other), begin in sorted(found.items(), key=lambda item: -abs(item[1] - boxes[item[0][1]].middle)):
        target = boxes[other]
        end = min(max(begin, target.x + 14), target.right - 14)
        side = 1 if begin <= target.middle else -1
        used = taken.setdefault(other, [])
        while any(abs(end - place) < 14 for place in used):
            end += 14 * side
        used.append(end)
        if end != begin and abs(end - begin) < 30 and boxes[name].x + 10 < end < boxes[name].right - 10:
            begin = end
        found[name, other] = (begin, boxes[name].bottom), (end, target.y)
    return found


def turned(a, b, c):
    return (b[0] - a[0]) * (c[1] - a[1]) - (b[1] - a[1]) * (c[0] - a[0])


def cross(one, other):
    """Whether two arrows cross inside both."""
    (a, b), (c, d) = one, other
    return turned(a, b, c) * turned(a, b, d) < 0 and turned(c, d, a) * turned(c, d, b) < 0


def blocked(way, box):
    """Whether an arrow runs through a box."""
    x, y, right, bottom = box.x - 4, box.y - 4, box.right + 4, box.bottom + 4
    return any(cross(way, side) for side in (((x, y), (right, bottom)), ((x, bottom), (right, y))))


def layout():
    """The boxes, the bands, the arrows, and the picture's size. An arrow that a box blocks becomes words, which may move others."""
    graph = nearest(depends())
    edges = {name: list(others) for name, others in graph.items()}
    while True:
        boxes = {name: Box(name, [other for other in graph[name] if other not in edges[name]]) for name in graph}
        right = across(boxes.values())
        strips, bottom = down(boxes.values(), 58)
        ways = ports(boxes, edges)
        stopped = [edge for edge, way in ways.items() if way[1][1] <= way[0][1] or any(blocked(way, box) for name, box in boxes.items() if name not in edge)]
        if not stopped:
            return boxes, strips, ways, int(right + MARGIN), int(bottom)
        for name, other in stopped:
            edges[name].remove(other)


def crossings(ways):
    listed = list(ways.values())
    return sum(cross(one, other) for number, one in enumerate(listed) for other in listed[:number])


def drawn():
    boxes, strips, ways, width, bottom = layout()
    lines = drawing.head(width, bottom + 34, 'The crates and what each builds on',
                         'Five bands of crates, from octets at the bottom to the programs at the top. Each crate points at the nearest that it builds on.')
    lines.append(f'<defs>{drawing.tip()}</defs>')
    lines.append(drawing.text(MARGIN, 24, 'The crates, and what each builds on', 16))
    lines.append(drawing.text(MARGIN, 44, 'An arrow goes to the nearest crate that a crate builds on; those behind it are left out. Some are named in the box instead: "on ..".', 12, GREY))
    for band, y, high in strips:
        lines.append(f'<rect x="{MARGIN - 10}" y="{y:g}" width="{width - 2 * MARGIN + 20}" height="{high:g}" rx="8" fill="{STRIP}"/>')
        lines += [drawing.text(MARGIN, y + 32, band, 14, bold=True), drawing.note(MARGIN, y + 50, BANDS[band], GUTTER - 14, WORDS, step=STEP)[0]]
    for begin, end in ways.values():
        lines.append(drawing.arrow([tuple(round(n) for n in begin), tuple(round(n) for n in end)]))
    for name, box in sorted(boxes.items()):
        x, y = round(box.x), round(box.y)
        lines.append(drawing.box(x, y, round(box.wide), round(box.high), kind(name)))
        lines.append(drawing.text(x + PAD, y + 18, name, NAME, bold=True))
        lines += [drawing.text(x + PAD, y + 35 + STEP * n, words, WORDS, GREY) for n, words in enumerate(box.lines())]
    x = MARGIN
    for fill, words in LEGEND:
        lines.append(f'<rect x="{x:g}" y="{bottom + 6}" width="18" height="14" fill="{fill}" stroke="{drawing.LINE}"/>')
        lines.append(drawing.text(x + 26, bottom + 18, words, 12))
        x += round(56 + drawing.wide(words, 12))
    return '\n'.join(lines + ['</svg>']) + '\n'


def main():
    picture = HERE / 'layers.svg'
    if sys.argv[1:] == ['draw']:
        picture.write_text(drawn())
    elif sys.argv[1:] != ['check']:
        sys.exit(__doc__)
    elif picture.read_text() != drawn():
        sys.exit('layers: docs/layers.svg is not what docs/layers.py draws of crates.txt')
    else:
        boxes, _, ways, _, _ = layout()
        print(f'layers: {len(boxes)} boxes, {len(ways)} arrows, crossings: {crossings(ways)}; as drawn')


if __name__ == '__main__':
    main()
