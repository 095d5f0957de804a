#!/usr/bin/env python3
"""Prints a bound on the stack of a call, for each function that an archive of cross/build exports. It is the longest way through the calls
of the object, each function with the frame that clang gave it. On x86-64 it has also each return address, and the 128 bytes that the last
function may use below its frame.
memcpy, memmove and memset are not in it, nor are the caller's arguments. A cycle of calls, or a function's address used otherwise, is an error.
Assumes object/oatcastle.o and the files object/*.su of the target, and readelf.

usage: cross/stack.py NAME"""
import pathlib
import re
import subprocess
import sys

ROOT = pathlib.Path(__file__).resolve().parent.parent
GIVEN = {'memcpy', 'memmove', 'memset'}
# The relocations of a call or a jump.
CALLS = {'R_ARM_THM_CALL', 'R_ARM_THM_JUMP24', 'R_X86_64_PLT32', 'R_RISCV_CALL_PLT', 'R_RISCV_CALL', 'R_RISCV_JAL'}


def frames(folder):
    """Each function's frame in bytes."""
    found = {}
    for line in ''.join(path.read_text() for path in sorted(folder.glob('*.su'))).splitlines():
        place, size, kind = line.split('\t')
        if kind != 'static':
            sys.exit(f'stack.py: the frame of {place} is {kind}')
        found[re.sub(r'^.*?\.(?:ll|bc|c):(?:\d+:)*', '', place)] = int(size)
    return found


def calls(path):
    """For each function those that it calls or jumps to. What else its code refers to is constants, and its own tables."""
    text = subprocess.run(['readelf', '-rW', path], check=True, capture_output=True, text=True).stdout
    found = {}
    for name, lines in re.findall(r"^Relocation section '\.rela?\.text\.(\S+)' .*\n.*\n((?:[0-9a-f]+ .*\n)*)", text, re.M):
        found[name] = set()
        for _, _, kind, _, symbol in (line.split(maxsplit=4) for line in lines.splitlines() if len(line.split()) > 4):
            symbol = re.sub(r'\s*[+-] [0-9a-f]+$', '', symbol)
            if kind in CALLS and not symbol.startswith('.L'):
                found[name].add(symbol.removeprefix('.text.'))
            elif symbol.startswith('.text.') and symbol != f'.text.{name}':
                sys.exit(f'stack.py: {name} takes the address of {symbol}')
    return found


def bounds(folder):
    frame, called = frames(folder), calls(folder / 'oatcastle.o')
    is_x86_64 = (folder / 'oatcastle.o').read_bytes()[18] == 62
    for name, others in called.items():
        for other in others - frame.keys() - GIVEN:
            sys.exit(f'stack.py: {name} calls {other}, whose frame is not known')

    def deepest(name, way=()):
        if name in way:
            sys.exit(f'stack.py: a cycle of calls: {" ".join((*way, name))}')
        below = max((deepest(other, (*way, name)) for other in called.get(name, ()) if other in frame), default=128 if is_x86_64 else 0)
        return frame[name] + (8 if is_x86_64 else 0) + below

    return {name: deepest(name) for name in frame if name.startswith('oatcastle_')}


def main(name):
    for function, bytes_ in bounds(ROOT / 'target/cross' / name / 'object').items():
        print(f'{function} {bytes_}')


if __name__ == '__main__':
    if len(sys.argv) != 2:
        sys.exit(__doc__)
    main(sys.argv[1])
