#!/usr/bin/env python3
"""The program address_cases: the address plan's cases, worked out from document 02, item 9, and not from the Rattle code.

usage: tests/address_cases.py input | expected

input:    the program's standard input, one command a line
expected: what it must write, from the model below

Commands, one a line:
= NAME     begins a case
a BASE COUNT STRIDE   the plan (12 hex digits, two decimal numbers): prints what the second call answers, and the eight rows, a comma ahead of each
.          ends the case's line"""
import sys

sys.dont_write_bytecode = True
import common

HIGHEST = 0xffffffffffff
ROWS = 8


def counted(base, count, stride):
    """Every counted address, of the whole plan."""
    addresses = []
    for _ in range(count):
        addresses.append(base)
        base += stride
    return addresses


def row(address):
    return bytes(int(f'{address:012x}'[k:k + 2], 16) for k in range(0, 12, 2))


class Case:
    def __init__(self, name, base, count, stride):
        self.commands = [f'= {name}', f'a {base:012x} {count} {stride}']
        plan = counted(base, count, stride)
        passes = bool(plan) and plan[-1] > HIGHEST
        rows = [bytes(6)] * ROWS if passes else [row(a) for a in plan[:ROWS]] + [bytes(6)] * (ROWS - len(plan[:ROWS]))
        self.line = f'{name}: ' + ('refused 16' if passes else 'fits') + ''.join(', ' + r.hex(' ') for r in rows)


def cases():
    for count in (0, 1, 7, 8, 9, 65535):
        for stride in (0, 1, 255):
            yield Case(f'count {count}, stride {stride}', 0x020000000000, count, stride)
    # the stride carries through so many bytes, from row 0 to row 1 or from row 6 to row 7
    for through in (1, 2, 3, 4, 5):
        for stride in (1, 255):
            for row_at in (1, 7):
                yield Case(f'carry through {through}, stride {stride}, to row {row_at}', 3 * 256 ** 5 + 256 ** through - 1 - (row_at - 1) * stride, 8, stride)
    # the last counted address one below, at and one above the highest
    for count in (1, 2, 7, 8, 9, 65535):
        for stride in (0, 1, 255):
            for above in (-1, 0, 1):
                base = HIGHEST - (count - 1) * stride + above
                if base <= HIGHEST:
                    yield Case(f'count {count}, stride {stride}, last at the highest {above:+}', base, count, stride)
    # eight rows that fit in a plan that passes, and the other way round: no ninth address is counted
    yield Case('the ninth passes', HIGHEST - 8 * 255 + 1, 9, 255)
    yield Case('the ninth would pass', HIGHEST - 8 * 255 + 1, 8, 255)
    yield Case('the last of 65535 passes', HIGHEST - 65534 * 255 + 1, 65535, 255)
    yield Case('none counted at the highest', HIGHEST, 0, 255)
    yield Case('highest base, stride 0', HIGHEST, 65535, 0)
    yield Case('each byte its own', 0x123456789abc, 8, 17)


def texts():
    return common.texts(list(cases()))


if __name__ == '__main__':
    common.serve(__doc__, input=lambda: texts()[0], expected=lambda: texts()[1])
