#!/usr/bin/env python3
"""Puts the wrong answers that are tried under each call of docs/PROMISES.md: the first lines of the edits, crates/*/must-fail/*.edit, which the gate tries, and
tests/mutants/*/*.edit. A first line is `# call: wrong answer`, or `# call, call: wrong answer`. A call of a
type has its type's name ahead where another call has the same name.
Assumes the form of that document: `## `CRATE`` begins a crate, and a heading ### that begins with a code span the calls that it names. Their wrong answers
are the list behind the line "Wrong answers tried:" at the section's end.

usage: docs/promises.py check      whether the document has these lists, each edit a call, and each public function a section
       docs/promises.py write      puts the lists there
       docs/promises.py planted    plants a fault of each kind, in memory alone, which must be seen"""
import functools
import re
import sys
import textwrap

import reading
import sources

ROOT = sources.ROOT
PATH = ROOT / 'docs' / 'PROMISES.md'
TRIED = 'Wrong answers tried:'
WIDTH = 140


def edits():
    """Each edit: its crate, the calls that its first line names, and the line that the document has of it."""
    for kind, form in (('edit', 'crates/*/must-fail/*.edit'), ('mutant', 'tests/mutants/*/*.edit')):
        for path in sorted(ROOT.glob(form)):
            crate = path.parts[len(ROOT.parts) + (1 if kind == 'edit' else 2)]
            match = re.match(r'# (.+?): (.+)', path.read_text().split('\n')[0])
            if not match:
                sys.exit(f'promises: {path.relative_to(ROOT)}: the first line is no "# call: wrong answer"')
            yield crate, match.group(1).split(', '), f'- {kind} `{path.stem}`: {match.group(2)}'


def sections(text):
    """The document in pieces: the crate and the calls of each, by its heading, and its lines without the list of wrong answers."""
    crate, calls, lines = '', [], []
    for line in text.split('\n'):
        if re.match(r'##+ ', line):
            yield crate, calls, lines
            spans = re.findall(r'`([^`]+)`', line)
            crate = (spans or [''])[0] if line.startswith('## ') else crate
            calls = [span.split('(')[0] for span in spans] if line.startswith('### `') else []
            lines = []
        lines.append(line)
    yield crate, calls, lines


def without_list(lines):
    cut = lines[:lines.index(TRIED)] if TRIED in lines else lines
    while cut and not cut[-1]:
        cut = cut[:-1]
    return cut


def made(text, wanted):
    """The document with the lists of these edits, the edits that have no call there, and the calls that have a section: crate and path."""
    pieces, named, placed = [], set(), set()
    for crate, calls, lines in sections(text):
        names = {call.split('::')[-1] for call in calls if (crate, call.split('::')[-1]) not in placed} | set(calls)
        placed |= {(crate, name) for name in names}
        named |= {(crate, re.sub(r'^[A-Z]\w*::', '', call)) for call in calls}  # a method without its type
        found = [line for other, edited, line in wanted if other == crate and names & set(edited)]
        told = [part for line in found for part in textwrap.wrap(line, WIDTH, subsequent_indent='  ', break_long_words=False, break_on_hyphens=False)]
        pieces.append('\n'.join(without_list(lines) + (['', TRIED, '', *told] if found else [])))
    homeless = [f'{crate}: {line[2:]}' for crate, edited, line in wanted if not all((crate, name) in placed for name in edited)]
    return '\n\n'.join(piece for piece in pieces if piece) + '\n', homeless, named


@functools.cache
def public_functions():
    return [path for path, _ in reading.promises(sources.Sources())]


def without_section(named):
    """The public functions that the document has no section of."""
    for path in public_functions():
        crate, _, rest = path.partition('::')
        if (crate, rest) not in named and (crate, rest.split('::')[-1]) not in named:
            yield path


def faults(text, wanted):
    """What is wrong with the document's text, for these edits."""
    right, homeless, named = made(text, wanted)
    yield from (f'promises: no call of docs/PROMISES.md is tried by {edit}' for edit in homeless)
    yield from (f'promises: docs/PROMISES.md has no section of {path}' for path in without_section(named))
    if text != right:
        yield 'promises: docs/PROMISES.md has not the wrong answers that docs/promises.py write puts there'


def planted(text, wanted):
    """Each fault is seen, and there is none before."""
    line = next(line for _, _, line in wanted if line in text.split('\n'))
    plants = {
        'an edit that the document lacks': (text.replace(f'{line}\n', '', 1), wanted),
        'an edit of another wording': (text, [(crate, calls, other.replace(line, f'{line} too')) for crate, calls, other in wanted]),
        'an edit of a call without a section': (text, [*wanted, ('line', ['no_such_call'], '- mutant `none`: nothing')]),
        'a public function without a section': (text.replace('### `outbox::take(', '### `outbox::taken(', 1), wanted),
    }
    missed = [what for what, given in plants.items() if not list(faults(*given))] + list(faults(text, wanted))
    print('\n'.join([f'promises: not seen: {what}' for what in missed] + [f'promises: {len(plants) - len(missed)} of {len(plants)} planted faults seen']))
    return 1 if missed else 0


def main():
    if sys.argv[1:] not in (['check'], ['write'], ['planted']):
        sys.exit(__doc__)
    text, wanted = PATH.read_text(), list(edits())
    if sys.argv[1] == 'planted':
        sys.exit(planted(text, wanted))
    if sys.argv[1] == 'write':
        text = made(text, wanted)[0]
        PATH.write_text(text)
    wrong = list(faults(text, wanted))
    print('\n'.join(wrong + [f'promises: {len(wanted)} edits under {len(made(text, wanted)[2])} calls, {len(wrong)} faults']))
    sys.exit(1 if wrong or not wanted else 0)


if __name__ == '__main__':
    main()
