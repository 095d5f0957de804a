#!/usr/bin/env python3
"""Holds the form of the sources to its limits:
- no line of crates/*/{src,specs,proofs} and of include/ is wider than 140 columns, none of the headers wider than 100;
- no public name of specs/ is defined in two modules;
- three positions in a row of a walk (`.before.before.before`) stand only where a name is given to the place that they lead to.
Prints each fault with its place, then how many files were read and how many faults of each kind they have; any fault fails the check.
Assumes the layout of crates.txt, and files as docs/sources.py reads them. A column is a character, whatever its width on a screen.

usage: tests/form.py            prints what is wrong
       tests/form.py planted    plants a fault of each kind, in memory alone, which must be seen"""
import pathlib
import re
import sys

ROOT = pathlib.Path(__file__).resolve().parent.parent
sys.path.insert(0, str(ROOT / 'docs'))
import sources  # noqa: E402

WIDTH, HEADER_WIDTH = 140, 100
RUN = re.compile(r'(?:\.before){3,}')
# what stands ahead of a run where a name is given: a `let`, or the head of a definition
NAMED = re.compile(r'(?:\blet \S+ = |^\S+(?: \S+)? = )[^=]*$')


def paths():
    """The files that are held to the form."""
    found = [path for part in ('src', 'specs', 'proofs') for path in ROOT.glob(f'crates/*/{part}/**/*') if path.suffix in ('.antt', '.rt')]
    return sorted(found + [path for path in ROOT.glob('include/*') if path.is_file()])


def wide_lines(texts):
    for path, text in texts.items():
        for number, line in enumerate(text.split('\n'), 1):
            if len(line) > (HEADER_WIDTH if path.suffix == '.h' else WIDTH):
                yield f'{path.relative_to(ROOT)}:{number}: {len(line)} columns'


def names_twice(texts):
    places = {}
    for item in sources.Sources(texts).items():
        if item.public and item.module.split('.')[1] == 'specs':
            places.setdefault(item.name, []).append(item.place)
    for name, found in sorted(places.items()):
        if len(found) > 1:
            yield f'{name} is defined in {" and ".join(found)}'


def bare_positions(texts):
    for path, text in texts.items():
        for number, line in enumerate(text.split('\n'), 1):
            run = RUN.search(line)
            if run and not NAMED.search(line[:run.start()]):
                yield f'{path.relative_to(ROOT)}:{number}: positions without a name'


# Each kind of fault, in the words of the summary, and what finds those of some files, path and text.
KINDS = {f'lines wider than {WIDTH} columns, of headers {HEADER_WIDTH}': wide_lines, 'names defined twice': names_twice, 'lines with bare positions': bare_positions}


def faults(texts):
    return {kind: list(found(texts)) for kind, found in KINDS.items()}


def planted(texts):
    """A fault of each kind is seen, and no other."""
    spec, header = (next(path for path in texts if path.match(name)) for name in ('crates/line/specs/Frame.antt', 'include/oatcastle.h'))
    wide, twice, bare = KINDS
    plants = [(wide, spec, f'-- {"wide " * 28}'), (wide, header, f'/* {"wide " * 19} */'), (twice, spec, 'abbrev pub lookup : ℕ\nlookup = 0'),
              (bare, spec, 'pub law : ℕ\nlaw c d = f c.before.before.before.pre')]
    missed = [kind for kind, path, text in plants
              if [other for other, found in faults({**texts, path: texts[path] + f'\n{text}\n'}).items() if found] != [kind]]
    for kind in missed:
        print(f'form: not seen alone: {kind}')
    print(f'form: {len(plants) - len(missed)} of {len(plants)} planted faults seen')
    return 1 if missed else 0


def main():
    texts = {path: path.read_text() for path in paths()}
    if sys.argv[1:] == ['planted']:
        sys.exit(planted(texts))
    if sys.argv[1:]:
        sys.exit(__doc__)
    found = faults(texts)
    for each in found.values():
        print(''.join(f'{fault}\n' for fault in each), end='')
    print(f'form: {len(texts)} files, ' + ', '.join(f'{len(each)} {kind}' for kind, each in found.items()))
    sys.exit(1 if any(found.values()) or not texts else 0)


main()
