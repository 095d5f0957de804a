#!/usr/bin/env python3
"""Tries docs/reading.py:
- on two claims and a promise, whose lists are written out here by hand, from the sources;
- each list has a definition behind every one that names it;
- a word which stands for nothing is reported;
- a name of several claims is reported with the crate of each, but not one claim that several records hold;
- docs/CLAIMS.md gives no such name without its crate.
Assumes docs/sources.py.

usage: tests/reading.py"""
import pathlib
import re
import sys

ROOT = pathlib.Path(__file__).resolve().parent.parent
sys.path.insert(0, str(ROOT / 'docs'))
import reading  # noqa: E402
import sources  # noqa: E402

LISTS = {
    # each run of a part that is shorter than its published length is a loan
    'any_run': 'AnyRun lent_part Loan fewer run',
    # the blind spots at one or two neighbouring bytes
    'checksum_claim': 'ChecksumClaim Near SameButAt AllSameOr00Ff SameOr00Ff Each Byte checksum sums',
    # the promise of the call that reads an unfinished tail's length: its own report, the tail, 12's test, and where the number of bytes stands
    'line::reader::tail': 'tail_report Unfinished Refusal table_number TailReport tail_promise tail_of received_of received_bytes valid_reader received_count number_at number run overlong '
                          'longest_form longest_message longest_group reader_length frame_offset',
}

# names with the crates that have a claim of their own by it; a claim that several records hold is one
SEVERAL = {
    'history': 'requester_claims supervisor_claims',
    'refused_exactly': 'line_claims supervisor_claims',
    'round_trip': 'both_claims line_claims',
    'value_last_set': '',
    'too_little': '',
    'parts_fit': '',
    'main_processor': 'claims.AsItWas claims.Item14 claims.Item2 claims.Item6 claims.NumberDue',
}


def listed(found, name):
    order, unknown = reading.rest(found, reading.named(found, name)[0])
    if unknown:
        sys.exit(f'reading: {name}: not resolved: {unknown}')
    return order


def callers_first(found, order):
    """Whether every definition stands behind all that name it."""
    place = {item.key: at for at, item in enumerate(order)}
    return all(place[other.key] > at for at, item in enumerate(order) for other in found.rests(item)[0])


def main():
    found = sources.Sources()
    wrong = []
    for name, wanted in LISTS.items():
        order = listed(found, name)
        got = {item.name for item in order}
        if got != set(wanted.split()) or len(got) != len(order):
            wrong.append(f'reading: {name}: missing {sorted(set(wanted.split()) - got)}, beyond {sorted(got - set(wanted.split()))}')
        if not callers_first(found, order):
            wrong.append(f'reading: {name}: a definition stands ahead of one that names it')
    for name, crates in SEVERAL.items():
        got = reading.several(found, name)
        if got != [f'{crate}.{name}' for crate in crates.split()]:
            wrong.append(f'reading: {name} is taken for {got}')
        wrong += [f'reading: {one} is several things' for one in got if reading.several(found, one)]
    fields = {field.name for record in reading.statements(found) for field in reading.fields_of(record)} - {module.split('.')[0] for module in found.files}
    text = (ROOT / 'docs' / 'CLAIMS.md').read_text()
    block = reading.records_block(text)  # the list of records gives each field by its own name
    for number, line in enumerate(text.replace(block, '\n' * block.count('\n')).split('\n'), 1):
        bare = set(re.findall(r'`([^`]+)`', line)) & fields
        wrong += [f'docs/CLAIMS.md:{number}: {name} is several claims' for name in sorted(bare) if reading.several(found, name)]
    path = found.files['line_claims.specs.Loans'].path
    planted = sources.Sources({path: path.read_text().replace('min n (published - 1)', 'least n (published - 1)')})
    if not reading.rest(planted, reading.named(planted, 'any_run')[0])[1]:
        wrong.append('reading: a word that stands for nothing was not reported')
    print('\n'.join(wrong) or f'reading: {len(LISTS)} lists as written out by hand; a word that stands for nothing is reported; {len(SEVERAL)} names of one claim or several')
    sys.exit(1 if wrong else 0)


main()
