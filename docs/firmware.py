#!/usr/bin/env python3
"""Writes docs/FIRMWARE.md: what is proved and what is tested on other processors, and the figures of cross/build and tests/cross/run. Writes also the
table of include/oatcastle.h: stack and instructions of each call, between two marks.
Assumes what tests/cross/run assumes. The figures of a trace are those of seed 1 and 20,000 calls of the differential test.

usage: docs/firmware.py write | check

write: runs tests/cross/run 1 20000 first (some minutes)
check: compares both with the logs of the last tests/cross/run, but for what depends on the trace's length"""
import pathlib
import re
import subprocess
import sys

ROOT = pathlib.Path(__file__).resolve().parent.parent
sys.path.insert(0, str(ROOT / 'tests'))
from common import made
FILE = ROOT / 'docs/FIRMWARE.md'
HEADER = ROOT / 'include/oatcastle.h'
MARKS = (' * ---- Table by docs/firmware.py\n', ' * ---- End of the table\n')
LOGS = ROOT / 'target/cross/tests'
# The targets that have figures of the stack, and those that are tested alone.
WORDS = {'x86-64-O3': 'x86-64, -O3', 'thumbv7em-Os': 'Cortex-M4, -Os', 'thumbv7em-O2': 'Cortex-M4, -O2', 'thumbv6m-Os': 'Cortex-M0, -Os', 'riscv32imc-Os': 'RV32IMC, -Os'}
OTHERS = {'thumbv7emhf-Os': 'Cortex-M4 with hard float, -Os', 'thumbv8m-Os': 'Cortex-M33, -Os', 'thumbv8mhf-Os': 'Cortex-M33 with hard float, -Os', 'aarch64-O2': 'AArch64, -O2'}
TRACE = ('1', '20000')


def log(name):
    return (LOGS / f'{name}.log').read_text()


def number(n):
    return f'{int(n):,}'


def table(head, rows):
    lines = ['| ' + ' | '.join(head) + ' |', '|' + '---|' * len(head)]
    return '\n'.join(lines + ['| ' + ' | '.join(row) + ' |' for row in rows]) + '\n'


def sizes():
    rows = re.findall(r'^(\S+): (\d+) bytes of code, (\d+) of constants, (\d+) of data, (\d+) of bss; undefined: (.*)$', log('build'), re.M)
    return table(('Target', 'Code', 'Constants', '`.data`', '`.bss`', 'Undefined'),
                 [(f'`{name}` ({(WORDS | OTHERS)[name]})', number(code), number(constants), data, bss, ', '.join(undefined.split())) for name, code, constants, data, bss, undefined in rows])


def firmware_size():
    text, data, bss = re.search(r'^ +(\d+)\s+(\d+)\s+(\d+)\s+\d+\s+\w+\s+\S+firmware\.elf$', log('firmware'), re.M).groups()
    stack = int(re.search(r'stack_size : (\d+)K', (ROOT / 'examples/firmware/board.ld').read_text()).group(1)) * 1024
    return (f'The whole of `examples/firmware` is its driver, startup code, start data, fake UART, far ends and text.\n'
            f'It has {number(text)} bytes of code and constants, {number(data)} of data and {number(int(bss) - stack)} of zeroed memory.\n'
            f'Its linker script gives {number(stack)} bytes to the stack beside that.\n')


def parts():
    header = dict(re.findall(r'^#define OATCASTLE_(\w+)_LENGTH (\d+)', HEADER.read_text(), re.M))
    structs = re.findall(r'typedef struct oatcastle_(\w+) \{\n(.*?)\n\}', (ROOT / 'include/oatcastle_parts.h').read_text(), re.S)
    rows = []
    for struct, fields in structs:
        names = re.findall(r'uint8_t (\w+)\[', fields)
        lengths = [int(header[name.upper()]) for name in names]
        rows.append((f'`oatcastle_{struct}`', ' + '.join(f'{name} {number(n)}' for name, n in zip(names, lengths)), number(sum(lengths))))
    rows.append(('`oatcastle_counters`', 'nine counters', '36'))
    return table(('Lent memory', 'Parts', 'Bytes'), rows)


def bounds(target):
    said = subprocess.run([sys.executable, ROOT / 'cross/stack.py', target], check=True, capture_output=True, text=True).stdout
    return {name: int(n) for name, n in (line.split() for line in said.splitlines())}


def measured(name):
    return {function: (int(calls), int(depth)) for function, calls, depth in re.findall(r'^(oatcastle_\w+): (\d+) calls, (\d+) bytes of stack$', log(name), re.M)}


def functions():
    return (LOGS / 'functions').read_text().split()


def stack_bounds():
    found = {target: bounds(target) for target in WORDS}
    return table(('Call', *WORDS.values()), [(f'`{name}`', *(number(found[target][name]) for target in WORDS)) for name in functions()])


def stack_measured():
    columns = {'x86-64-O3': 'x86-64, -O3', 'bare-thumbv7em-Os': 'Cortex-M4, -Os, bare', 'thumbv7em-O2': 'Cortex-M4, -O2', 'bare-thumbv6m-Os': 'Cortex-M0, -Os, bare', 'riscv32imc-Os': 'RV32IMC, -Os'}
    found = {name: measured(name) for name in columns}
    return table(('Call', 'Calls', *columns.values()), [(f'`{name}`', number(found['x86-64-O3'][name][0]), *(number(found[c][name][1]) for c in columns)) for name in functions()])


def instructions():
    form = r'^(.*): frame (\d+) bytes, reply (\d+) bytes; written (\d+), received (\d+), received singly (\d+), taken (\d+)$'
    rows = []
    for target in ('thumbv7em-Os', 'thumbv7em-O2'):
        rows += [(what, WORDS[target].split(', ')[1], *map(number, rest)) for what, *rest in re.findall(form, log(f'count-{target}'), re.M)]
    return table(('Request', 'Level', 'Its frame', 'Its reply', 'Frame written', 'Received whole', 'Received byte by byte', 'Reply taken'), sorted(rows, key=lambda r: r[0]))


def counted(target):
    """Instructions of each call, by what it was lent."""
    found = {}
    for name, what, n in re.findall(r'^(oatcastle_\w+)(?:, (.*))?: (\d+) instructions$', log(f'count-{target}'), re.M):
        found.setdefault(name, {})[what] = int(n)
    return found


def call_instructions():
    small, fast, words = (counted(target) for target in ('thumbv7em-Os', 'thumbv7em-O2', 'words-thumbv7em-O2'))
    return table(('Call', 'With', '-Os', '-O2', '-O2, memory by words'),
                 [(f'`{name}`', what, number(n), number(fast[name][what]), number(words[name][what])) for name in functions() for what, n in small[name].items()])


def figures():
    """What is looked for at -O2, beside what was counted."""
    fast = counted('thumbv7em-O2')
    wanted = (('oatcastle_collect', 'a byte', 90), ('oatcastle_receive', 'no byte', 300), ('oatcastle_receive', 'full: no byte', 1200), ('oatcastle_receive', 'a status request', 3000))
    return table(('Call', 'With', 'At most', 'Counted', 'Had'),
                 [(f'`{name}`', what, number(most), number(fast[name][what]), 'yes' if fast[name][what] <= most else 'no') for name, what, most in wanted])


def header_table():
    """The same figures as lines of a comment."""
    stacks = [bounds(target) for target in ('x86-64-O3', 'thumbv7em-Os', 'thumbv6m-Os', 'riscv32imc-Os')]
    small, fast = counted('thumbv7em-Os'), counted('thumbv7em-O2')
    form = ' * {:<30}{:>7}{:>7}{:>7}{:>7}  {:<21}{:>8}{:>8}\n'
    lines = [form.format('', 'x86-64', 'M4', 'M0', 'RV32', 'Instructions, M4', '-Os', '-O2')]
    for name in functions():
        head = (name, *(number(bound[name]) for bound in stacks))
        for what, n in small[name].items():
            lines.append(form.format(*head, what, number(n), number(fast[name][what])))
            head = ('',) * len(head)
    return ''.join(re.sub(' +\n', '\n', line) for line in lines)


def header_with(lines):
    """The header with these lines between the marks."""
    front, behind = HEADER.read_text().split(MARKS[0])
    return front + MARKS[0] + lines + MARKS[1] + behind.split(MARKS[1])[1]


def left():
    """What calls leave of a passphrase below the stack pointer."""
    form = r'^(oatcastle_\w+)(.*): (\d+) places below the stack pointer, the deepest at (\d+)$'
    small, fast = (re.findall(form, log(f'left-{target}'), re.M) for target in ('thumbv7em-Os', 'thumbv7em-O2'))
    said = lambda places, depth: f'{places}, from {number(depth)} bytes below on' if int(places) > 0 else '0'
    return table(('Behind', '-Os', '-O2'), [(f'`{name}`{what}', said(*one), said(*other)) for (name, what, *one), (_, _, *other) in zip(small, fast)])


def replays():
    lines = [name for name in (*WORDS, *OTHERS, 'bare-thumbv7em-Os', 'bare-thumbv6m-Os') if (LOGS / f'{name}.log').exists()]
    made = {name: re.search(r'^calls made again: (\d+)$', log(name), re.M).group(1) for name in lines}
    different = {name: re.search(r'^differences: (\d+)$', log(name), re.M).group(1) for name in lines}
    how = {'x86-64-O3': 'the machine itself', 'riscv32imc-Os': 'qemu-riscv32', 'aarch64-O2': 'qemu-aarch64'}
    rows = []
    for name in lines:
        target = name.removeprefix('bare-')
        where = 'qemu-system-arm, no system; an access that is not aligned traps' if name == 'bare-thumbv6m-Os' else 'qemu-system-arm, no system' if name.startswith('bare') else how.get(name, 'qemu-arm')
        rows.append((f'`{target}`', where, number(made[name]), str(len(measured(name))), different[name]))
    return table(('Target', 'Run by', 'Calls', 'Functions', 'Differences'), rows)


def document():
    """The document in blocks: its text, and whether it depends on the trace's length."""
    return [(TOP, False), (replays(), True), (SIZES + sizes() + '\n' + firmware_size(), False), (RAM + parts(), False), (STACK + stack_bounds(), False),
            (MEASURED + stack_measured(), True), (INSTRUCTIONS + instructions(), False), (CALLS + call_instructions(), False), (FIGURES + figures(), False),
            (LEFT + left(), False)]


TOP = '''# On the firmware's processor

`docs/firmware.py write` makes this page, figures and all. Three commands stand behind it:

- `cross/build` makes the library for Cortex-M, riscv32 and AArch64 (`cross/README.md`).
- `tests/cross/run` tests it under qemu (`tests/cross/README.md`).
- `make -C examples/firmware run` builds and runs a firmware for a bare Cortex-M4.

## What is proved, and what is only tested

- **Proved**: the module that `rt lib` compiles, on x86-64, with a `usize` of 64 bits. The verdict is for that: every function of the
  crates ends, stays in its memory and meets its contract.
- **Not proved**: anything on another processor. There the same module, as its object on x86-64 shows byte for byte, is compiled by the
  same clang. No proof covers what stands between the verdict and the code:
  - clang's back end for that processor
  - the five changes of the module's text (`cross/README.md`)
  - addresses of 32 bits under lengths of 64
  - the calling convention of the C compiler
  - the firmware's memcpy, memmove and memset
  - for ARMv6-M two functions of `cross/thumbv6m.c`
- **Tested on a target**: what the table below lists. The differential test compares each of these calls with an independent model on
  x86-64. The target must then return the same number and leave the same bytes, in everything lent and for 16 bytes behind. Runs of bytes
  are lent at odd addresses.
- **The example's driver** is tested too, not proved (`tests/cross/README.md`). It runs under qemu, with far ends that babble, stall and
  send overlong frames. They must see planted mistakes.
- **Not tested**: a real chip. qemu has the instructions, not the timing, caches or buses.
- **Nowhere proved**: how much stack or time a call takes. The figures below are clang's frames, measurements, and qemu's counts.

'''
SIZES = '''
## Code and constants, in bytes

The whole library, every function of the header. A linker with `--gc-sections` drops those not called.

'''
RAM = '''
## RAM of the lent parts

The library has no memory of its own. Start data (`OATCASTLE_START_LENGTH`) are read alone and may lie in flash, as may the image.

'''
STACK = '''
## Stack of each call, in bytes

At most so much, by clang's frames along the longest way of calls (`cross/stack.py`); no call is recursive or goes by a pointer. Add the
caller's arguments, what memcpy, memmove and memset use, and the interrupts.

'''
MEASURED = '''
Measured: the deepest byte that a call of the trace wrote, its arguments and the memory functions included.

'''
INSTRUCTIONS = '''
## Instructions on a Cortex-M4

By qemu's instruction count (`tests/cross/count.c`), memcpy and memset byte by byte included. A processor takes at least a cycle for each.
Byte by byte: one call for each byte of the frame.

'''
CALLS = '''
Each call by itself, with short and with long bytes where it depends on them. The supervisor is as started, unless it says "full": 64 items
with data, every setting at its longest, 8 alerts and both records. "So many bytes" of a receive or a collect is a piece without a 00. The
last column has memcpy, memmove and memset by words (`tests/cross/memory_words.c`), as a C library has them. `include/oatcastle.h` has the
first two columns and the stack in one table.

'''
LEFT = '''
## What is left of a passphrase below the stack pointer

Looked at, not promised: a passphrase of 63 bytes on a bare Cortex-M4 (`tests/cross/left.c`). After each call the 8,192 bytes below the
caller's stack pointer are searched for any four bytes of it in a row. The table has the places where such four begin; the whole value once
has 60. "Behind it": what the calls before left is not painted over.

- None is left of a good set by the calls that receive: `oatcastle_receive`, `oatcastle_step`, both with counters, and
  `oatcastle_line_read`. `oatcastle_requester_receive` of its answer leaves none either, nor does `oatcastle_receive` of a set with a
  flipped bit.
- A set whose first bytes were lost may have eight bytes of the value in the sequence's place. `oatcastle_receive` and
  `oatcastle_line_read` of it leave those eight, in several places. So does `oatcastle_requester_receive` of the reply.
- The calls that write a frame put the message together on the stack, and leave it there. These are `oatcastle_requester_request` and
  `oatcastle_requester_send`, on the processor that has the passphrase, and `oatcastle_line_write`. A shorter message written later
  overwrites its own length alone.
- Another compiler, level or processor may leave other bytes. Registers and interrupts are not looked at.

'''


FIGURES = '''
Figures that we look for at -O2.

'''


def main(command):
    if command == 'write':
        subprocess.run([ROOT / 'tests/cross/run', *TRACE], check=True)
        FILE.write_text(''.join(text for text, _ in document()))
        HEADER.write_text(header_with(header_table()))
        return
    made('target/cross/tests/firmware.log')
    text = FILE.read_text()
    stale = [block.strip().split('\n')[0] for block, by_trace in document() if not by_trace and block not in text]
    for head in stale:
        print(f'docs/FIRMWARE.md is not as docs/firmware.py would write it: {head}')
    if header_with(header_table()) != HEADER.read_text():
        stale.append('the table of the header')
        print('include/oatcastle.h has another table than docs/firmware.py would write')
    sys.exit(1 if stale else 0)


if __name__ == '__main__':
    if sys.argv[1:] not in (['write'], ['check']):
        sys.exit(__doc__)
    main(sys.argv[1])
