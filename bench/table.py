#!/usr/bin/env python3
"""Makes docs/bench.csv of the benchmark's runs, and what documents say of it: the figures of bench/README.md, and item 10's sentence in README.md and docs/CHANGES.md.
Of each row the minimum time of each side over all processes counts; a ratio is the library's time divided by a yardstick's.
Assumes the folder that bench/run fills. Without an archive of before, what the table says of it stays.

usage: bench/table.py write FOLDER [WORDS]    the table, and the documents; WORDS say what the library before is
       bench/table.py documents               the documents alone, by the table
       bench/table.py check                   whether the documents say what the table has"""
import csv
import pathlib
import re
import sys

ROOT = pathlib.Path(__file__).resolve().parent.parent
TABLE = ROOT / 'docs' / 'bench.csv'
FIGURES_IN = ROOT / 'bench' / 'README.md'
SENTENCE_IN = (ROOT / 'README.md', ROOT / 'docs' / 'CHANGES.md')
SIDES = ('library', 'ordinary', 'strong')
COLUMNS = ('case', 'state', 'bytes', 'library ns', 'ordinary ns', 'ratio to ordinary', 'strong ns', 'ratio to strong')
BEFORE = ('before ns', 'before to ordinary', 'before to strong', 'before')

ANY, STARTED, FULL = ('', 'as started', 'full'), ('as started',), ('full',)
BLOCKS = ('read 4104 random bytes', 'write 4104 random bytes', 'answer of 4104 random bytes', 'image block of 4096 random bytes', 'key 4 set to 4096 random bytes')
ZEROS = ('read 4104 zeros', 'write 4104 zeros', 'image block of 4096 zeros', 'key 4 set to 4096 zeros')
SHORT = ('read a short frame', 'write a short frame')
LOOKUPS = ('lookup of 4096 bytes in version 1', 'lookup of 4096 bytes in version 2')
STATUS = ('status request',)
WRAPPED = ('single bytes through the wrapper: status request', 'single bytes through the wrapper: key 4 set')
PLAIN = ('plain receive byte by byte: status request', 'plain receive byte by byte: key 4 set')
LINK = ('root-of-trust message of 512 bytes', 'root-of-trust echo of 512 bytes')
# each figure: its name, its rows and their states, the yardstick, and the most that is looked for
FIGURES = (
    ('item 10: full blocks', BLOCKS, ANY, 'ordinary', 2.0),
    ('item 10: short frames', SHORT, ANY, 'ordinary', 2.0),
    ('item 10: zeros', ZEROS, ANY, 'ordinary', 2.0),
    ('full blocks', BLOCKS, ANY, 'strong', 0.6),
    ('zeros', ZEROS, ANY, 'strong', 0.6),
    ('a lookup of 4,096 bytes', LOOKUPS, STARTED, 'strong', 0.6),
    ('a lookup of 4,096 bytes', LOOKUPS, FULL, 'strong', 0.6),
    ('short frames', SHORT, ANY, 'strong', 1.2),
    ('a status request', STATUS, STARTED, 'strong', 1.2),
    ('a status request', STATUS, FULL, 'strong', 2.0),
    ('single bytes through the wrapper', WRAPPED, STARTED, 'strong', 1.2),
    ('single bytes through the wrapper', WRAPPED, FULL, 'strong', 1.2),
    ('plain receive byte by byte', PLAIN, STARTED, 'ordinary', 2.0),
    ('root-of-trust CRC by the same table', LINK, ANY, 'ordinary', 1.05),
)
HEADING = ('Figure', 'State', 'Of', 'At most', 'Measured', 'Had')
WHY = ['Figure', 'Why']
SENTENCE = 'Against `ordinary`, full blocks take {} of its time, short frames {} and messages of zeros {}; single bytes are our own figure.'
PATTERN = re.compile(re.escape(SENTENCE).replace(r'\{\}', r'[\d.]+').replace(r'\ ', r'\s+'))


def minimum(folder):
    """Of each case and state its bytes, and the minimum time of each side."""
    cases = {}
    for path in sorted(folder.glob('*.csv')):
        with path.open(newline='') as file:
            for row in csv.DictReader(file):
                times = [float(row[f'{side} ns']) for side in SIDES]
                kept = cases.setdefault((row['case'], row['state']), (row['bytes'], times))[1]
                kept[:] = map(min, kept, times)
    return cases


def table():
    with TABLE.open(newline='') as file:
        return list(csv.DictReader(file))


def write(out, words):
    """Writes the table by the runs; the yardsticks' times are the least of those beside the library now and beside the one before."""
    now, before = minimum(out / 'now'), minimum(out / 'before')
    old = {(row['case'], row.get('state', '')): [row.get(name, '') for name in BEFORE] for row in table()}
    with TABLE.open('w', newline='') as file:
        line = csv.writer(file, lineterminator='\n').writerow
        line([*COLUMNS, *BEFORE])
        for case, (size, (library, ordinary, strong)) in now.items():
            earlier = old.get(case, [''] * len(BEFORE))
            if case in before:
                time, *others = before[case][1]
                ordinary, strong = map(min, (ordinary, strong), others)
                earlier = [f'{time:.0f}', f'{time / ordinary:.2f}', f'{time / strong:.2f}', words]
            line([*case, size, f'{library:.0f}', f'{ordinary:.0f}', f'{library / ordinary:.2f}', f'{strong:.0f}', f'{library / strong:.2f}', *earlier])


def ratios(rows, names, states, yardstick):
    """The ratios of these rows, sorted; every row must be there."""
    found = {row['case']: row for row in rows if row['case'] in names and row['state'] in states}
    if set(found) != set(names):
        sys.exit(f'bench/table.py: docs/bench.csv lacks {set(names) - set(found)} in {states}')
    return sorted((row[f'ratio to {yardstick}'] for row in rows if row['case'] in names and row['state'] in states), key=float)


def figures(rows):
    """The table of the figures looked for, as lines."""
    yield f'| {" | ".join(HEADING)} |'
    yield '|' + '---|' * len(HEADING)
    for name, names, states, yardstick, most in FIGURES:
        found = ratios(rows, names, states, yardstick)
        measured = found[0] if found[0] == found[-1] else f'{found[0]} to {found[-1]}'
        state = states[0] if len(states) == 1 else 'any'
        had = 'yes' if float(found[-1]) <= most else 'no'
        yield f'| {name} | {state} | `{yardstick}` | {most:.2f} | {measured} | {had} |'


def unexplained(lines):
    """Notes on the figures' reasons: those not had that have none, and those had that have one. The first column of the reasons' table, where there
    is one, names a figure, and its state behind a comma."""
    cells = [[cell.strip() for cell in line.split('|')] for line in lines if line.startswith('|')]
    start = next((place for place, line in enumerate(cells) if line[1:3] == WHY), len(cells))
    reasons = {line[1] for line in cells[start + 2:start + 2 + len(FIGURES)] if len(line) == len(cells[start])}
    for line in cells:
        figure = ', '.join(line[1:3]) if line[2] != 'any' else line[1]
        if line[-2] in ('yes', 'no') and (line[-2] == 'no') != (figure in reasons):
            yield f'{figure} is {"not had, and no reason is given" if line[-2] == "no" else "had, and a reason is given"}'


def sentence(rows):
    """Item 10's three ratios: of the rows of each, the largest counts."""
    return SENTENCE.format(*(ratios(rows, names, ANY, 'ordinary')[-1] for names in (BLOCKS, SHORT, ZEROS)))


def with_figures(text, rows):
    """The text with the lines of the table replaced; it has one such table."""
    lines = text.split('\n')
    first = lines.index(f'| {" | ".join(HEADING)} |')
    last = next(place for place in range(first, len(lines)) if not lines[place].startswith('|'))
    return '\n'.join([*lines[:first], *figures(rows), *lines[last:]])


def with_sentence(path, rows):
    """The text with the numbers of its sentence replaced; it has one such sentence."""
    text = path.read_text()
    if len(PATTERN.findall(text)) != 1:
        sys.exit(f'bench/table.py: {path.relative_to(ROOT)} does not have item 10\'s sentence once: {SENTENCE}')
    return PATTERN.sub(lambda _: sentence(rows), text)


def documents():
    """Each document that the table settles a part of, and what it should say."""
    rows = table()
    return {FIGURES_IN: with_figures(FIGURES_IN.read_text(), rows), **{path: with_sentence(path, rows) for path in SENTENCE_IN}}


def main():
    words = sys.argv[1:]
    if words[:1] == ['write'] and len(words) in (2, 3):
        write(pathlib.Path(words[1]), ''.join(words[2:]))
    elif words not in (['documents'], ['check']):
        sys.exit(__doc__)
    texts = documents()
    stale = {path: text for path, text in texts.items() if text != path.read_text()}
    notes = list(unexplained(texts[FIGURES_IN].split('\n')))
    for note in notes:
        print(f'bench/table.py: bench/README.md: {note}')
    if words == ['check']:
        for path in stale:
            print(f'bench/table.py: {path.relative_to(ROOT)} does not say what docs/bench.csv has; `python3 bench/table.py documents` writes it')
        print(f'bench/table.py: {len(FIGURES)} figures, {len(SENTENCE_IN)} sentences, {len(stale)} documents behind docs/bench.csv')
        sys.exit(1 if stale or notes else 0)
    for path, text in stale.items():
        path.write_text(text)


main()
