#!/usr/bin/env python3
"""Draws docs/bench.csv as docs/bench.svg: of each row a mark for the ratio to each yardstick, and one for the library before, on a log axis, with the numbers beside.
Assumes the columns that table.py writes.

usage: bench/chart.py          writes the picture
       bench/chart.py check    whether the picture is that of the table"""
import csv
import math
import pathlib
import sys
import textwrap
from xml.sax.saxutils import escape

DOCS = pathlib.Path(__file__).resolve().parent.parent / 'docs'
sys.path.insert(0, str(DOCS))
sys.dont_write_bytecode = True
import drawing  # noqa: E402
from drawing import DEEP_BLUE, GREY, INK, NAVY, PALE, RED, STEEL, STRIP  # noqa: E402

PICTURE = DOCS / 'bench.svg'
LABEL, SPAN, COLUMN, ROW, MARGIN = 330, 430, 78, 19, 16
LEFT = MARGIN + LABEL
WIDTH = LEFT + SPAN + 4 * COLUMN + 2 * MARGIN
# of each mark: the column of its ratio, those of the two times, the heading of its numbers, and what it says in the legend
MARKS = (
    ('ratio to ordinary', 'library ns', 'ordinary ns', ('of', 'ordinary'), 'the library\'s time divided by that of the yardstick "ordinary", plain Rust'),
    ('ratio to strong', 'library ns', 'strong ns', ('of', 'strong'), 'the library\'s time divided by that of the yardstick "strong", Rust made for speed'),
    ('before to strong', 'before ns', 'strong ns', ('before, of', 'strong'), 'the library as it was before, divided by the time of "strong". Before means '),
)
GROUPS = {
    '': 'Line layer, main processor\'s end, root-of-trust link',
    'as started': 'Supervisor as started: one item, and the value or alert that the request asks for',
    'full': 'Supervisor full: 64 items with data, every setting at its longest, 8 alerts, both records',
}
STEPS = [round(digit * 10.0 ** power, 6) for power in range(-3, 4) for digit in (1, 2, 5)]


class Axis:
    """Places of ratios, on a log scale whose ends are steps around all of them."""

    def __init__(self, ratios):
        low = max(step for step in STEPS if step <= min(ratios))
        high = min(step for step in STEPS if step >= max(ratios))
        self.steps = [step for step in STEPS if low <= step <= high]

    def place(self, ratio):
        low, high = math.log(self.steps[0]), math.log(self.steps[-1])
        return LEFT + SPAN * (math.log(ratio) - low) / (high - low)


def text(x, y, words, **attributes):
    extra = ''.join(f' {name.replace("_", "-")}="{value}"' for name, value in attributes.items())
    return f'<text x="{x:.1f}" y="{y:.1f}"{extra}>{escape(words)}</text>'


def mark(x, y, number):
    """A wide disc, a small one and a diamond around both, so that none hides another."""
    if number == 0:
        return f'<circle cx="{x:.1f}" cy="{y:.1f}" r="5.5" fill="{DEEP_BLUE}" stroke="{STEEL}" stroke-width="1.3"/>'
    if number == 1:
        return f'<circle cx="{x:.1f}" cy="{y:.1f}" r="3" fill="{NAVY}"/>'
    return f'<path d="M{x:.1f} {y - 7:.1f}l7 7l-7 7l-7 -7z" fill="none" stroke="{RED}" stroke-width="1.3"/>'


def ratios(row):
    """The ratio of each mark that a row has, by its number."""
    return {number: float(row[ours]) / float(row[theirs]) for number, (column, ours, theirs, *_) in enumerate(MARKS) if row[column]}


def head(rows):
    """Title and legend, and the height that they take."""
    was = sorted({row['before'] for row in rows if row['before']})
    lines = [words for *_, words in MARKS]
    lines[2:] = [lines[2] + '; '.join(was)] if was else []
    out = [text(MARGIN, 26, 'Time of the library divided by the time of two yardsticks in Rust', font_size=16),
           text(MARGIN, 46, 'Everything is built with -O for x86-64. The axis is logarithmic. Left of the line at 1 the library is faster.', fill=GREY)]
    y = 68
    for number, words in enumerate(lines):
        out.append(mark(MARGIN + 7, y - 4, number))
        for part in textwrap.wrap(words, 150):
            out.append(text(MARGIN + 24, y, part))
            y += 18
    return out, y + 8


def steps(axis, top, bottom):
    """The lines of the axis, with their numbers above and below."""
    for step in axis.steps:
        x, colour = axis.place(step), INK if step == 1 else PALE
        yield f'<line x1="{x:.1f}" y1="{top}" x2="{x:.1f}" y2="{bottom}" stroke="{colour}"/>'
        for y in (top - 6, bottom + 15):
            yield text(x, y, f'{step:g}', text_anchor='middle', fill=GREY)


def body(rows, axis, y):
    """Each group's heading and rows; gives the lines behind the marks, the marks and words, and where they end."""
    behind, out = [], []
    headings = [heading for *_, heading, _ in MARKS] + [('library', 'ns')]
    for state, heading in GROUPS.items():
        group = [row for row in rows if row['state'] == state]
        y += 20
        out.append(text(MARGIN, y, heading, font_weight='bold'))
        for number, (first, second) in enumerate(headings):
            x = LEFT + SPAN + MARGIN + COLUMN * (number + 1) - 8
            out += [text(x, y, first, text_anchor='end', fill=GREY), text(x, y + 15, second, text_anchor='end', fill=GREY)]
        top = y + 28
        behind += steps(axis, top, top + ROW * len(group))
        for number, row in enumerate(group):
            out += line(row, axis, top + ROW * number, number % 2)
        y = top + ROW * len(group) + 26
    return behind, out, y


def line(row, axis, y, odd):
    """A row: its name, its marks, its numbers."""
    middle = y + ROW / 2
    if odd:
        yield f'<rect x="{LEFT + SPAN + MARGIN}" y="{y}" width="{4 * COLUMN}" height="{ROW}" fill="{STRIP}"/>'
        yield f'<rect x="{MARGIN}" y="{y}" width="{LABEL - 12}" height="{ROW}" fill="{STRIP}"/>'
    yield text(LEFT - 18, middle + 4, row['case'], text_anchor='end')
    for number, ratio in ratios(row).items():
        yield mark(axis.place(ratio), middle, number)
    values = [row[column] for column, *_ in MARKS] + [f'{int(row["library ns"]):,}']
    for number, value in enumerate(values):
        yield text(LEFT + SPAN + MARGIN + COLUMN * (number + 1) - 8, middle + 4, value, text_anchor='end')


def chart(rows):
    axis = Axis([ratio for row in rows for ratio in ratios(row).values()] + [1])
    top, y = head(rows)
    behind, out, bottom = body(rows, axis, y)
    height = bottom + MARGIN
    first = drawing.head(WIDTH, height, 'Time of the library divided by the time of two yardsticks',
                         'A row for each case, in three groups. Marks on a logarithmic axis tell the ratio to each yardstick, and the ratio before. The numbers stand beside.', 12)
    return '\n'.join([*first, *top, *behind, *out, '</svg>']) + '\n'


def main():
    with open(DOCS / 'bench.csv', newline='') as file:
        picture = chart(list(csv.DictReader(file)))
    if sys.argv[1:] == ['check']:
        same = PICTURE.read_text() == picture
        print(f'bench/chart.py: docs/bench.svg is {"" if same else "not "}that of docs/bench.csv')
        sys.exit(0 if same else 1)
    if sys.argv[1:]:
        sys.exit(__doc__)
    PICTURE.write_text(picture)


main()
