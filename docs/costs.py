#!/usr/bin/env python3
"""Puts what can be counted into README.md. README.md has each sentence of SENTENCES once; its line breaks stay.
- Code, RAM, stack and instructions come from docs/FIRMWARE.md.
- Minutes and seconds come from docs/DEVELOPING.md, "What the gate takes".
- How many crates a program is proved with comes from crates.txt.
- Stack is the deepest of clang's frames and of what was measured.
- The time of a program from nothing is the sum of its crates' checks.
Assumes the tables as those pages have them.

usage: docs/costs.py write    puts the numbers into README.md
       docs/costs.py check    whether README.md has them"""
import pathlib
import re
import sys

ROOT = pathlib.Path(__file__).resolve().parent.parent
README, FIRMWARE, DEVELOPING, CRATES = (ROOT / name for name in ('README.md', 'docs/FIRMWARE.md', 'docs/DEVELOPING.md', 'crates.txt'))
TARGET, COLUMN, LEVEL = '`thumbv7em-Os`', 'Cortex-M4, -Os', '-Os'
TOOLCHAIN = {'io', 'libc'}
SENTENCES = {
    'cost': 'On a Cortex-M4 at `-Os`: {} bytes of code, {} of RAM, {} of stack, and {} instructions for a status request.',
    'main end': "The main processor's end takes {} bytes of RAM.",
    'replay': 'The first time takes about {} minutes of an idle processor.',
    'crates': 'for {} crates in all',
    'gate': 'It takes about {} minutes on two cores, {} of them for `rt ci`.',
    'cross': 'It takes about {} minutes where the crates are proved.',
    'library': 'It takes about {} minutes from nothing, and {} seconds where the crates below it are proved.',
    'release': 'The gate runs it, for about {} seconds.',
}


def tables(text):
    """The tables of a page: each a list of rows, and a row its cells."""
    found = re.findall(r'(?:^\|.*\|$\n?)+', text, re.M)
    lines = [[line for line in table.strip().split('\n') if not line.startswith('|---')] for table in found]
    return [[[cell.strip() for cell in line.strip('|').split('|')] for line in table] for table in lines]


def whole(cell):
    return int(cell.replace(',', ''))


def one(rows, what):
    """The only one of these; ends the run where there is none, or another."""
    if len(rows) != 1:
        sys.exit(f'docs/costs.py: {what} is there {len(rows)} times')
    return rows[0]


def cell(page, column, *begins):
    """The number in a column of the one row whose cells begin like this."""
    found = [row[table[0].index(column)] for table in page if column in table[0] for row in table[1:]
             if all(has.startswith(word) for has, word in zip(row, begins))]
    return whole(one(found, f'{column} of {begins}'))


def stack(page):
    """The deepest call: of clang's frames, and of what was measured."""
    return max(whole(row[place]) for table in page for place, head in enumerate(table[0]) if head.startswith(COLUMN) for row in table[1:])


def made_of(crate):
    """A crate and those that it builds on, without the toolchain's."""
    line = one(re.findall(rf'^{crate}(?: staticlib)?:(.*)$', CRATES.read_text(), re.M), f'{crate} in crates.txt')
    return [crate, *(name for name in line.split() if name not in TOOLCHAIN)]


def checks(page, crate):
    """The seconds that a crate takes from nothing."""
    return sum(cell(page, 'Check', f'`{name}`') for name in made_of(crate))


def minutes(seconds):
    return max(1, round(seconds / 60))


def numbers():
    """Of each sentence its numbers."""
    firmware, gate = tables(FIRMWARE.read_text()), tables(DEVELOPING.read_text())
    return {
        'cost': (cell(firmware, 'Code', TARGET), cell(firmware, 'Bytes', '`oatcastle_supervisor`'), stack(firmware),
                 cell(firmware, 'Received whole', 'status request', LEVEL)),
        'main end': (cell(firmware, 'Bytes', '`oatcastle_main_end`'),),
        'replay': (minutes(checks(gate, 'replay')),),
        'crates': (len(made_of('replay')),),
        'gate': (minutes(cell(gate, 'Seconds', 'all')), minutes(cell(gate, 'Seconds', '`rt ci`'))),
        'cross': (minutes(cell(gate, 'Seconds', '`tests/cross/run`')),),
        'library': (minutes(checks(gate, 'oatcastle')), cell(gate, 'Seconds', '`rt lib`')),
        'release': (cell(gate, 'Seconds', '`release/test`'),),
    }


def with_numbers(text):
    """The text with the numbers of each sentence replaced."""
    for name, given in numbers().items():
        sentence = re.escape(SENTENCES[name]).replace(r'\{\}', r'([\d,]+)').replace(r'\ ', r'\s+')
        match = one(list(re.finditer(sentence, text)), f'README.md: "{SENTENCES[name]}"')
        for place, number in reversed(list(enumerate(given, 1))):
            text = f'{text[:match.start(place)]}{number:,}{text[match.end(place):]}'
    return text


def main():
    if sys.argv[1:] not in (['write'], ['check']):
        sys.exit(__doc__)
    text = README.read_text()
    wanted = with_numbers(text)
    if sys.argv[1] == 'write':
        README.write_text(wanted)
        return
    stale = wanted != text
    words = '; `python3 docs/costs.py write` puts other numbers in' if stale else ', as the pages have them'
    print(f'costs: {len(SENTENCES)} sentences of README.md{words}')
    sys.exit(1 if stale else 0)


main()
