#!/usr/bin/env python3
"""What the checksum misses of changes at two places: the table and the counts of docs/CHECKSUM.md, and its picture docs/checksum.svg.
Assumes that the document has the two lines between which the table and the counts stand.

usage: tests/checksum_misses.py write | check

write: puts both in place
check: compares them with what is worked out

All is counted by checksums, worked out by the model of tests/line_cases.py. For each distance from 1 to 255 and each first change modulo
255, that of zeros is compared with that of the zeros so changed. The second place has the opposite change. For the choices of bytes, all
65,536 pairs of bytes stand at the two places, zeros between."""
import collections
import functools
import math
import pathlib
import sys

sys.dont_write_bytecode = True
from common import serve
from line_cases import fletcher

DOCS = pathlib.Path(__file__).resolve().parent.parent / 'docs'
sys.path.insert(0, str(DOCS))
import drawing  # noqa: E402
from drawing import GREY, ORANGE, PALE, RED, STEEL, TEAL  # noqa: E402

BEGIN, END = '<!-- tests/checksum_misses.py begins -->\n', '<!-- tests/checksum_misses.py ends -->\n'
BODY = 4121


def is_missed(k, change):
    return fletcher([change] + [0] * (k - 1) + [-change % 255]) == fletcher([0] * (k + 1))


@functools.cache
def classes():
    """For each common factor with 255, the distances 1 to 255 that have it and the first changes 1 to 254 that are missed there."""
    found = {}
    for k in range(1, 256):
        found.setdefault(math.gcd(k, 255), []).append((k, [c for c in range(1, 255) if is_missed(k, c)]))
    assert all(missed == list(range(255 // factor, 255, 255 // factor)) for factor, members in found.items() for _, missed in members)
    return [(factor, [k for k, _ in members], members[0][1]) for factor, members in sorted(found.items())]


def choices(k):
    """How many choices of two old and two new bytes k apart, different at both places, leave the checksum as it is."""
    groups = {}
    for first in range(256):
        for second in range(256):
            groups.setdefault(fletcher([first] + [0] * (k - 1) + [second]), []).append((first, second))
    squares = lambda values: sum(n * n for n in collections.Counter(values).values())
    return sum(len(group) ** 2 - squares(a for a, _ in group) - squares(b for _, b in group) + len(group) for group in groups.values())


def place_pairs(factor):
    """How many pairs of places of the longest body are at a distance with this common factor."""
    return sum(BODY - k for k in range(1, BODY) if math.gcd(k, 255) == factor)


def listed(distances):
    shown = [str(k) for k in distances]
    return ', '.join(shown if len(shown) <= 8 else shown[:6] + ['..', shown[-1]])


def which(factor):
    return {1: '255: 00 against ff', 255: '1: every change'}.get(factor, str(255 // factor))


def text():
    each, pairs = (256 * 255) ** 2, BODY * (BODY - 1) // 2
    one_in = lambda part, whole: f'one in {round(whole / part):,}'
    rows, total = [], 0
    for factor, distances, _ in classes():
        missed, places = choices(distances[0]), place_pairs(factor)
        total += missed * places
        rows.append(f'| {factor} | {len(distances)}: {listed(distances)} | {which(factor)} | {missed:,}, {one_in(missed, each)} | {places:,} |')
    return '\n'.join([
        '| Common factor of k and 255 | Distances k from 1 to 255 | First change a multiple of | Choices of bytes missed | Pairs of places |',
        '|---|---|---|---|---|'] + rows + [
        '',
        f'- pairs of places in a body of {BODY:,} bytes: {pairs:,}',
        f'- choices of bytes for each: 256 x 255 x 256 x 255 = {each:,}',
        f'- two-place changes: {pairs * each:,}',
        f'- missed: {total:,}, about {one_in(total, pairs * each)}']) + '\n'


LEFT, TOP, STEP = 64, 86, 3
TICKS = (0, 51, 85, 102, 153, 170, 204, 255)
COLOURS = {3: STEEL, 5: STEEL, 15: TEAL, 17: TEAL, 51: ORANGE, 85: ORANGE, 255: RED}
LEGEND = {'3 or 5': 3, '15 or 17': 15, '51 or 85': 51, '255': 255}


def legend():
    """A dot of each colour, larger than those of the picture, and what it stands for."""
    words = 'Common factor of the distance and 255:'
    yield drawing.text(12, 72, words)
    x = 40 + round(drawing.wide(words, 12))
    for label, factor in LEGEND.items():
        yield f'<circle cx="{x}" cy="68" r="5" fill="{COLOURS[factor]}"/>'
        yield drawing.text(x + 12, 72, label)
        x += 50 + round(drawing.wide(label, 12))


def picture():
    size = 256 * STEP
    width, height = LEFT + size + 24, TOP + size + 44
    across, down = lambda k: LEFT + STEP * k, lambda c: TOP + size - STEP * c
    out = drawing.head(width, height, 'Which changes at two places the checksum misses',
                       'A dot for each first change and distance at which the checksum stays the same. At distance 255 every change is missed.', 12)
    out += [drawing.text(12, 26, 'Which changes at two places the checksum misses', 16),
            drawing.text(12, 48, 'A dot: this first change, answered by its opposite at this distance, is missed.', fill=GREY), *legend()]
    for at in TICKS:
        out.append(f'<path d="M{across(at)} {down(0)}V{down(255)}M{across(0)} {down(at)}H{across(255)}" stroke="{PALE}"/>')
        out.append(drawing.text(across(at), down(0) + 18, str(at), fill=GREY, anchor='middle'))
        out.append(drawing.text(LEFT - 8, down(at) + 4, str(at), fill=GREY, anchor='end'))
    for factor, distances, missed in classes()[1:]:
        dots = ''.join(f'M{across(k)} {down(c)}h.1' for k in distances for c in missed)
        out.append(f'<path d="{dots}" stroke="{COLOURS[factor]}" stroke-width="3" stroke-linecap="round"/>')
    out.append(drawing.text(across(128), height - 8, 'distance k', anchor='middle'))
    out.append(f'<text transform="translate(20 {down(128)}) rotate(-90)" text-anchor="middle">first change, modulo 255</text>')
    return '\n'.join(out + ['</svg>']) + '\n'


def parted():
    before, rest = (DOCS / 'CHECKSUM.md').read_text().split(BEGIN)
    return before, *rest.split(END)


def write():
    before, _, after = parted()
    (DOCS / 'CHECKSUM.md').write_text(before + BEGIN + text() + END + after)
    (DOCS / 'checksum.svg').write_text(picture())


def check():
    if parted()[1] != text() or (DOCS / 'checksum.svg').read_text() != picture():
        sys.exit('docs/CHECKSUM.md or docs/checksum.svg is not what checksum_misses.py works out')
    print('checksum: table, counts and picture as worked out')


if __name__ == '__main__':
    serve(__doc__, write=write, check=check)
