#!/usr/bin/env python3
"""Holds the pictures of docs/ to what can be checked without looking at them:
- a title and a description; one font, one set of colours; a white ground over the whole picture, so that a dark page leaves it readable;
- no text runs over the picture's border, over the edge of a box or over another text, and no line or arrow's head runs through one;
- a text stands out from what is behind it, by a contrast of at least 4.5;
- no sentence has 25 words or more;
- every file and function that receive.svg names is there, and every reason is decided where it says.
Texts are measured by docs/drawing.py. Curves and dots (`path`, `circle`) are not looked at.
Assumes pictures as the scripts write them: no style sheets, no transforms but a text turned by -90 degrees.

usage: docs/pictures.py check      prints each fault
       docs/pictures.py planted    plants a fault of each kind, in memory alone, which must be seen"""
import math
import pathlib
import re
import sys
import xml.etree.ElementTree as tree

sys.dont_write_bytecode = True
import drawing
import receive

HERE = pathlib.Path(__file__).resolve().parent
SVG = '{http://www.w3.org/2000/svg}'
HANDED_ON = ('font-size', 'font-weight', 'font-family', 'fill', 'stroke', 'text-anchor')
EDGE, BESIDE, CONTRAST, MOST_WORDS = 4, 4, 4.5, 24


class Area:
    def __init__(self, left, top, right, bottom):
        self.left, self.top, self.right, self.bottom = left, top, right, bottom

    def grown(self, across, down):
        return Area(self.left - across, self.top - down, self.right + across, self.bottom + down)

    def inside(self, other):
        return other.left <= self.left and self.right <= other.right and other.top <= self.top and self.bottom <= other.bottom

    def meets(self, other):
        return self.left < other.right and other.left < self.right and self.top < other.bottom and other.top < self.bottom

    def crossed(self, begin, end):
        """Whether a line runs through it, by cutting the line at each side."""
        (x, y), (right, bottom) = begin, end
        low, high = 0.0, 1.0
        for at, step, least, most in ((x, right - x, self.left, self.right), (y, bottom - y, self.top, self.bottom)):
            if step == 0:
                if not least < at < most:
                    return False
                continue
            first, second = sorted(((least - at) / step, (most - at) / step))
            low, high = max(low, first), min(high, second)
        return low < high


class Words(Area):
    """A line of text: what it says, where it stands, its colour."""

    def __init__(self, said, x, y, own):
        size, bold, mono = float(own['font-size']), own.get('font-weight') == 'bold', own.get('font-family') == 'monospace'
        wide = drawing.wide(said, size, bold, mono)
        left = x - {'middle': wide / 2, 'end': wide}.get(own.get('text-anchor'), 0)
        self.said, self.fill = said, own.get('fill')
        turned = re.fullmatch(r'translate\(([\d.]+) ([\d.]+)\) rotate\(-90\)', own.get('transform', ''))
        if turned:
            x, y = (float(n) for n in turned.groups())
            super().__init__(x - 0.75 * size, y - wide / 2, x + 0.2 * size, y + wide / 2)
        else:
            super().__init__(left, y - 0.75 * size, left + wide, y + 0.2 * size)


class Picture:
    """The parts of a picture: its lines of text, its paragraphs, its boxes in their order, its straight lines, its arrows' heads, its colours."""

    def __init__(self, text):
        self.root = tree.fromstring(text)
        self.words, self.paragraphs, self.boxes, self.lines, self.heads, self.colours, self.fonts = [], [], [], [], [], set(), set()
        self.shapes = [part for part in self.root if part.tag in (SVG + 'rect', SVG + 'g', SVG + 'text', SVG + 'line', SVG + 'polyline', SVG + 'path', SVG + 'circle')]
        self.walk(self.root, {})

    def walk(self, part, handed):
        own = {**{name: handed[name] for name in HANDED_ON if name in handed}, **part.attrib}
        self.colours |= {part.attrib[name] for name in ('fill', 'stroke') if part.attrib.get(name, 'none') != 'none'}
        self.fonts |= {part.attrib['font-family']} if 'font-family' in part.attrib else set()
        kind = part.tag.removeprefix(SVG)
        if kind == 'text':
            spans = part.findall(SVG + 'tspan')
            for span in spans or [part]:
                self.words.append(Words(span.text or '', float(span.get('x', 0)), float(span.get('y', 0)), own))
            self.paragraphs.append(' '.join(''.join(part.itertext()).split()))
        elif kind == 'rect' and part is not self.shapes[0]:
            x, y, wide, high = (float(own.get(name, 0)) for name in ('x', 'y', 'width', 'height'))
            self.boxes.append((Area(x, y, x + wide, y + high), own.get('fill')))
        elif kind == 'line':
            self.straight([(float(own[f'x{n}']), float(own[f'y{n}'])) for n in (1, 2)], own)
        elif kind == 'polyline':
            self.straight([tuple(float(n) for n in point.split(',')) for point in own['points'].split()], own)
        if kind != 'text':
            for inner in part:
                self.walk(inner, own)

    def straight(self, points, own):
        """A line of several pieces, and where it has an arrow's head."""
        self.lines += zip(points, points[1:])
        if 'marker-end' in own:
            (x, y), (right, bottom) = points[-2:]
            back = 11 / math.hypot(right - x, bottom - y)
            x, y = right + (x - right) * back, bottom + (y - bottom) * back
            self.heads.append(Area(min(x, right), min(y, bottom), max(x, right), max(y, bottom)).grown(4, 4))

    @property
    def whole(self):
        return Area(0, 0, float(self.root.get('width')), float(self.root.get('height')))


def brightness(colour):
    parts = [int(colour[n:n + 2], 16) / 255 for n in (1, 3, 5)]
    red, green, blue = (part / 12.92 if part <= 0.03928 else ((part + 0.055) / 1.055) ** 2.4 for part in parts)
    return 0.2126 * red + 0.7152 * green + 0.0722 * blue


def contrast(one, other):
    low, high = sorted((brightness(one), brightness(other)))
    return (high + 0.05) / (low + 0.05)


# ---- The kinds of faults

def headless(picture):
    for name in ('title', 'desc'):
        if not (picture.root.findtext(SVG + name) or '').strip():
            yield f'no {name}'
    if picture.root.get('viewBox') != f'0 0 {picture.root.get("width")} {picture.root.get("height")}':
        yield 'viewBox, width and height differ'


def groundless(picture):
    first = picture.shapes[0]
    if first.tag != SVG + 'rect' or first.get('fill') != drawing.PAPER or any(first.get(name) != picture.root.get(name) for name in ('width', 'height')):
        yield 'no white ground below all else'


def other_fonts(picture):
    yield from (f'font {font}' for font in sorted(picture.fonts - {drawing.FONT, 'monospace'}))
    if picture.root.get('font-family') != drawing.FONT:
        yield f'its font is not {drawing.FONT}'


def other_colours(picture):
    yield from (f'colour {colour}' for colour in sorted(picture.colours - drawing.COLOURS))


def over_border(picture):
    whole = picture.whole
    inner = Area(EDGE, EDGE, whole.right - EDGE, whole.bottom - EDGE)
    yield from (f'"{words.said}" runs over the border' for words in picture.words if not words.inside(inner))


def over_box(picture):
    for words in picture.words:
        near = words.grown(BESIDE, 0)
        if any(near.meets(area) and not near.inside(area) for area, _ in picture.boxes):
            yield f'"{words.said}" runs over the edge of a box'


def over_text(picture):
    for number, words in enumerate(picture.words):
        yield from (f'"{words.said}" runs over "{other.said}"' for other in picture.words[:number] if words.meets(other))


def crossed(picture):
    for words in picture.words:
        if any(words.grown(2, 1).crossed(*line) for line in picture.lines) or any(words.grown(2, 2).meets(head) for head in picture.heads):
            yield f'a line runs through "{words.said}"'


def faint(picture):
    for words in picture.words:
        behind = [fill for area, fill in picture.boxes if words.inside(area)] or [drawing.PAPER]
        if not re.fullmatch('#[0-9a-f]{6}', words.fill or '') or contrast(words.fill, behind[-1]) < CONTRAST:
            yield f'"{words.said}" is faint'


def long_sentences(picture):
    for text in picture.paragraphs + [picture.root.findtext(SVG + 'desc') or '']:
        yield from (f'{len(said.split())} words: {said}' for said in re.split(r'(?<=[.:;]) ', text) if len(said.split()) > MOST_WORDS)


KINDS = (headless, groundless, other_fonts, other_colours, over_border, over_box, over_text, crossed, faint, long_sentences)


def faults(texts, read=receive.read):
    """Each fault: its kind, and where it is."""
    for name, text in texts.items():
        picture = Picture(text)
        for kind in KINDS:
            yield from ((kind.__name__, f'{name}: {told}') for told in kind(picture))
    yield from (('names', told) for told in receive.faults(read))


def plants(texts):
    """A fault of each kind: its kind, the pictures and the sources with it."""
    def drawn(kind, name, old, new):
        assert old in texts[name], (name, old)
        return kind, {**texts, name: texts[name].replace(old, new, 1)}, receive.read

    def source(path, old, new):
        text = receive.read(path)
        assert old in text, (path, old)
        return 'names', texts, lambda asked: text.replace(old, new) if asked == path else receive.read(asked)

    yield drawn('headless', 'state.svg', '<title>The lent parts of both ends</title>', '')
    yield drawn('headless', 'receive.svg', 'viewBox="0 0 1', 'viewBox="0 0 2')
    yield drawn('groundless', 'layers.svg', 'fill="#ffffff"', f'fill="{drawing.STRIP}"')
    yield drawn('other_fonts', 'checksum.svg', '<text x="12" y="26"', '<text font-family="serif" x="12" y="26"')
    yield drawn('other_colours', 'bench.svg', f'<text x="16.0" y="46.0" fill="{drawing.GREY}"', '<text x="16.0" y="46.0" fill="#000000"')
    yield drawn('over_border', 'requester.svg', '<tspan x="150" y="564">', '<tspan x="250" y="564">')
    yield drawn('over_box', 'layers.svg', '>root-of-trust link<', '>root-of-trust link, too<')
    yield drawn('over_box', 'requester.svg', 'the request is the original', 'the request is kept as the original')
    yield drawn('over_text', 'requester.svg', '<text x="30" y="80">', '<text x="30" y="70">')
    yield drawn('crossed', 'requester.svg', '<text x="714" y="228">', '<text x="690" y="228">')
    yield drawn('faint', 'recovery.svg', f'fill="{drawing.INK}" text-anchor="end">a request', f'fill="{drawing.PALE}" text-anchor="end">a request')
    yield drawn('long_sentences', 'state.svg', 'with offsets and widths.', 'with offsets and widths' + ' and more' * 5 + '.')
    yield source('line/src/reader.rt', 'fn finish_form(', 'fn finish_frames(')
    yield source('line/src/sums.rt', 'fn checksum_of_first(', 'fn checksum_of(')
    yield source('responder/src/requests.rt', 'numbers::REASON_DATA', 'numbers::REASON_LENGTH')
    yield source('line/src/numbers.rt', 'REASON_MAGIC: u8 = 4', 'REASON_MAGIC: u8 = 8')
    yield source('supervisor/src/outbox.rt', 'Refusal::BadState', 'Refusal::NoRoom')
    yield 'names', texts, lambda asked: None if asked == 'responder/src/alert.rt' else receive.read(asked)


def planted(texts):
    """Each planted fault is seen, and none of another kind."""
    missed, count = [], 0
    for kind, changed, read in plants(texts):
        count += 1
        seen = {other for other, _ in faults(changed, read)}
        if seen != {kind}:
            missed.append(f'pictures: {kind} planted, seen: {", ".join(sorted(seen)) or "nothing"}')
    for told in missed:
        print(told)
    print(f'pictures: {count - len(missed)} of {count} planted faults seen')
    return 1 if missed else 0


def main():
    texts = {path.name: path.read_text() for path in sorted(HERE.glob('*.svg'))}
    if sys.argv[1:] == ['planted']:
        sys.exit(planted(texts))
    if sys.argv[1:] != ['check']:
        sys.exit(__doc__)
    found = [told for _, told in faults(texts)]
    for told in found:
        print(f'pictures: {told}')
    print(f'pictures: {len(texts)} looked at, {len(found)} faults')
    sys.exit(1 if found else 0)


if __name__ == '__main__':
    main()
