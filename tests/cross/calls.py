#!/usr/bin/env python3
"""Writes the two C files by which tests/cross records and replays calls, from the declarations of include/oatcastle.h alone. OUT/calls.h is
the table of functions with their parameters and one caller for each. OUT/wrappers.c has one recording function for each. Prints their
names, one to a line.
Assumes the header's layout as tests/interface.py does. A pointer and behind it NAME_length or NAME_count is a run; NAME[LENGTH] is a run of
that length. Any other pointer leads to one record, as an answer's does. Everything else is a number.

usage: tests/cross/calls.py OUT"""
import hashlib
import pathlib
import re
import sys

ROOT = pathlib.Path(__file__).resolve().parent.parent.parent
DECLARATION = re.compile(r'\nuint32_t (oatcastle_\w+)\((.*?)\);', re.S)


def parameters(text):
    """Of each parameter: ('number', type, name) or ('run', type, name, const, its count's name or constant, whether the count is passed)."""
    parts = [' '.join(part.split()) for part in text.split(',')]
    found = []
    while parts:
        part = parts.pop(0)
        kind, name, bound = re.fullmatch(r'(.*?[ *])(\w+)(?:\[(\w+)\])?', part).groups()
        if '*' not in kind and not bound:
            found.append(('number', kind.strip(), name))
            continue
        counted = parts and re.fullmatch(rf'oatcastle_length ({name}_(?:length|count))', parts[0])
        if counted:
            parts.pop(0)
        element = kind.replace('*', '').replace('const', '').strip()
        found.append(('run', element, name, kind.startswith('const'), counted.group(1) if counted else bound or '1', bool(counted)))
    return found


def functions():
    header = (ROOT / 'include/oatcastle.h').read_text()
    return [(name, text, parameters(text)) for name, text in DECLARATION.findall(header)]


def table(listed, slots):
    """Each function's parameters as rows, and a caller of each from runs and numbers."""
    yield '/* Made by tests/cross/calls.py from include/oatcastle.h. */'
    said = ';'.join(f'{name}({" ".join(text.split())})' for name, text, _ in listed)
    yield f'#define SIGNATURES 0x{hashlib.sha256(said.encode()).hexdigest()[:16]}ull'
    yield f'#define FUNCTIONS {len(listed)}'
    yield f'#define SLOTS {len(slots)}'
    yield f'#define MOST_RUNS {max(sum(p[0] == "run" for p in ps) for _, _, ps in listed)}'
    yield f'#define MOST_NUMBERS {max(sum(p[0] == "number" for p in ps) for _, _, ps in listed)}'
    yield 'static const struct parameter PARAMETERS[] = {'
    for name, _, ps in listed:
        for p in ps:
            if p[0] == 'number':
                yield f'    {{NUMBER, 0, sizeof({p[1]}), 0}},'
            else:
                yield f'    {{{"READ" if p[3] else "WRITTEN"}, {slots.index(p[2])}, sizeof({p[1]}), {0 if p[5] else p[4]}}},'
    yield '};'
    yield '#ifdef CALLERS'
    at = 0
    for name, _, ps in listed:
        runs = numbers = 0
        passed = []
        for p in ps:
            if p[0] == 'number':
                passed.append(f'({p[1]})number[{numbers}]')
                numbers += 1
            else:
                passed.append(f'({"const " if p[3] else ""}{p[1]} *)run[{runs}].at' + (f', run[{runs}].count' if p[5] else ''))
                runs += 1
        yield f'static uint32_t call_{name}(void) {{ return {name}({", ".join(passed)}); }}'
    yield 'static const struct function FUNCTION[FUNCTIONS] = {'
    for name, _, ps in listed:
        yield f'    {{"{name}", call_{name}, {at}, {len(ps)}}},'
        at += len(ps)
    yield '};'
    yield '#endif'


def wrappers(listed, slots):
    """The recording functions: what is lent before, the call, what it answers and leaves."""
    yield '/* Made by tests/cross/calls.py from include/oatcastle.h. */'
    yield '#include "record.h"'
    for place, (name, text, ps) in enumerate(listed):
        passed = []
        yield f'uint32_t __real_{name}({text});'
        yield f'uint32_t __wrap_{name}({text});'
        yield f'uint32_t __wrap_{name}({text})\n{{'
        yield f'    record_call({place});'
        for p in ps:
            if p[0] == 'number':
                yield f'    record_number({p[2]});'
                passed.append(p[2])
            else:
                yield f'    record_lent({slots.index(p[2])}, {p[2]}, {p[4]}, sizeof *{p[2]}, {int(p[5])});'
                passed += [p[2], p[4]] if p[5] else [p[2]]
        yield f'    uint32_t answered = __real_{name}({", ".join(passed)});'
        yield '    record_answered(answered);'
        for p in ps:
            if p[0] == 'run':
                yield f'    record_left({slots.index(p[2])}, {p[2]}, {p[4]} * sizeof *{p[2]}, {int(p[3])});'
        yield '    return answered;\n}'


def main(out):
    listed = functions()
    slots = sorted({p[2] for _, _, ps in listed for p in ps if p[0] == 'run'})
    folder = pathlib.Path(out)
    folder.mkdir(parents=True, exist_ok=True)
    (folder / 'calls.h').write_text('\n'.join(table(listed, slots)) + '\n')
    (folder / 'wrappers.c').write_text('\n'.join(wrappers(listed, slots)) + '\n')
    print('\n'.join(name for name, _, _ in listed))


if __name__ == '__main__':
    if len(sys.argv) != 2:
        sys.exit(__doc__)
    main(sys.argv[1])
