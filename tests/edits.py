#!/usr/bin/env python3
"""Checks that every edit applies to the sources as they are and is named in docs/PROMISES.md or docs/CLAIMS.md. These are those of
crates/*/must-fail, which the gate tries, and of tests/mutants. Assumes the form that tests/mutants/run reads, and asks its function.

usage: tests/edits.py
       tests/edits.py tried LOG      whether the log of a whole `rt ci` says that it refused every edit of crates/*/must-fail, and none is bad
       tests/edits.py planted        logs with a mistake each, which must be seen"""
import importlib.machinery
import importlib.util
import pathlib
import re
import sys

ROOT = pathlib.Path(__file__).resolve().parent.parent
loader = importlib.machinery.SourceFileLoader('mutants', str(ROOT / 'tests' / 'mutants' / 'run'))
mutants = importlib.util.module_from_spec(importlib.util.spec_from_loader('mutants', loader))
loader.exec_module(mutants)


def edits():
    """Each edit's path and its crate's folder."""
    for path in sorted(ROOT.glob('crates/*/must-fail/*.edit')):
        yield path, path.parent.parent
    for path in sorted(ROOT.glob('tests/mutants/*/*.edit')):
        yield path, ROOT / 'crates' / path.parent.name


def fault(path, crate):
    """Why an edit does not apply, or nothing."""
    texts, file, behind, old = {}, None, None, None
    for word, text in re.findall(r'^(file|in|old|new): ?(.*)$', path.read_text(), re.M):
        if word == 'file':
            file = crate / text
            texts.setdefault(file, file.read_text() if file.exists() else '')
        elif word == 'in':
            behind = text
        elif word == 'old':
            old = text
        else:
            try:
                texts[file] = mutants.replaced(texts[file], behind, old, text)
            except ValueError as error:
                return str(error)
            behind = None
    return None if texts and all(text != file.read_text() for file, text in texts.items()) else 'changes nothing'


def untried(log):
    """What a log of `rt ci` says against the edits of must-fail/."""
    wanted = len(list(ROOT.glob('crates/*/must-fail/*.edit')))
    lines = [line for line in log.split('\n') if line.startswith('rt: ok; ')]
    if len(lines) != 1:
        yield f'the log has {len(lines)} lines that begin "rt: ok; "'
        return
    part = next((part for part in lines[0].split('; ') if part.startswith('must-fail edits: ')), '')
    said = re.fullmatch(r'must-fail edits: (\d+) refused(?:, \d+ of them only by a limit)?(?:, (\d+) bad)?', part)
    if not said:
        yield f'the line does not say how many edits were refused: {lines[0]}'
    elif int(said.group(2) or 0):
        yield f'{said.group(2)} edits are bad'
    elif int(said.group(1)) != wanted:
        yield f'{said.group(1)} edits were refused, and there are {wanted}'


def tried(log):
    wrong = list(untried(log))
    print('\n'.join(f'edits: {fault}' for fault in wrong) or 'edits: every edit of must-fail/ was refused, none is bad')
    return 1 if wrong else 0


def planted():
    """Logs in rt's words: a good one, and those with a mistake."""
    count = len(list(ROOT.glob('crates/*/must-fail/*.edit')))
    good = f'rt: ok; handles allowed: none; must-fail edits: {count} refused; every proof and must-fail edit was done in this run'
    others = ('', f'{good}\n{good}', good.replace(' refused;', ' refused, 1 bad;'), good.replace(' refused;', ' refused, 2 of them only by a limit, 12 bad;'),
              good.replace(f'{count} refused', f'{count - 1} refused'), good.replace(f' must-fail edits: {count} refused;', ''))
    missed = [log for log in others if not list(untried(log))] + [log for log in (good, good.replace(' refused;', ' refused, 1 of them only by a limit;')) if list(untried(log))]
    print('\n'.join([f'edits: wrongly read: {log}' for log in missed] + [f'edits: {len(others)} logs with a mistake, {len(missed)} wrongly read']))
    return 1 if missed else 0


def main():
    if sys.argv[1:] == ['planted']:
        sys.exit(planted())
    if sys.argv[1:2] == ['tried'] and len(sys.argv) == 3:
        sys.exit(tried(pathlib.Path(sys.argv[2]).read_text(errors='replace')))
    if sys.argv[1:]:
        sys.exit(__doc__)
    found = list(edits())
    texts = ''.join((ROOT / 'docs' / name).read_text() for name in ('PROMISES.md', 'CLAIMS.md'))
    wrong = [f'{path.relative_to(ROOT)}: {fault(path, crate)}' for path, crate in found if fault(path, crate)]
    unnamed = [f'{path.relative_to(ROOT)}: no document names it' for path, _ in found if f'`{path.stem}`' not in texts]
    print('\n'.join(wrong + unnamed + [f'edits: {len(found)}, {len(wrong)} of them do not apply, {len(unnamed)} have no name in a document']))
    sys.exit(1 if wrong or unnamed or not found else 0)


main()
