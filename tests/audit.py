#!/usr/bin/env python3
"""Compares three readers of captured streams: the audit program, the line reader of the static library in random cuts, and the model below.
The model is worked out from documents 01 and 02 and not from the Rattle code. Then gives the model faults one by one: each must change the
text of some capture.
Assumes crates/audit/out/audit, crates/oatcastle/out/liboatcastle.a and a C compiler. Ends with 1 at the first difference.

usage: tests/audit.py [SEED [COUNT]]      (1 and 3,000: the gate's run)"""
import os
import random
import struct
import subprocess
import sys
import time

from common import LIBRARY, ROOT, made

AUDIT = ROOT / 'crates' / 'audit' / 'out' / 'audit'
READER = ROOT / 'target' / 'audit' / 'reader'
MOST = 65536
L10 = bytes.fromhex('02 00')
L12 = bytes.fromhex('06 cc 19 de 01 01 01 01 02 01 01 01 01 01 01 01 04 08 cf 66 00')
MAGIC = bytes.fromhex('cc 19 de 01')
TOO_LITTLE = 1 << 31

# ---- the model. `faults` names what it does wrong; none of it is in the papers.


def checksum(body, faults=()):
    modulus = 256 if 'sums modulo 256' in faults else 255
    first = second = 0
    for byte in body:
        first = (first + byte) % modulus
        second = (second + first) % modulus
    return second * 256 + first


def decoded(form, faults=()):
    """The bytes of a form, or None."""
    groups = []
    rest = form
    while rest:
        code, rest = rest[0], rest[1:]
        if code == 0 or len(rest) < code - 1:
            return None
        groups.append((code, rest[:code - 1]))
        rest = rest[code - 1:]
    if len(groups) > 1 and groups[-1][0] == 1 and groups[-2][0] == 255 and 'last 01 let through' not in faults:
        return None
    zeros = [b'' if code == 255 and 'zero after a full group' not in faults else b'\0' for code, _ in groups[:-1]] + [b'']
    return b''.join(data + zero for (_, data), zero in zip(groups, zeros))


def verdict(form, faults=()):
    """`ok` with version, sequence, command and data, or the reason with the sequence where the reply carries it."""
    message = None if len(form) > (4141 if '4,141 bytes decoded' in faults else 4140) else decoded(form, faults)
    if message is None:
        return ('1',)
    if not 19 <= len(message) <= 4123:
        return ('3',)
    version, sequence, command = struct.unpack_from('<IQB', message, 4)
    if int.from_bytes(message[-2:], 'little') != checksum(message[:-2], faults):
        return ('2', sequence)
    if message[:4] != MAGIC:
        return ('4', sequence)
    return ('ok', version, sequence, command, message[17:-2])


def listing(capture, faults=()):
    """The frames that are not empty, each with its start and verdict, and the tail's length."""
    entries, start = [], 0
    *frames, tail = capture.split(b'\0')
    for frame in frames:
        if frame or 'an empty frame listed' in faults:
            entries.append((start + ('start off by one' in faults), verdict(frame, faults)))
            if 'stops at the first failure' in faults and entries[-1][1][0] != 'ok':
                break
        start += len(frame) + ('the 00 not counted' not in faults)
    return entries, len(tail) + ('the tail counts the 00' in faults and bool(frames))


FAULTS = ['start off by one', 'the 00 not counted', 'an empty frame listed', 'the tail counts the 00', 'stops at the first failure', 'sums modulo 256',
          'last 01 let through', 'zero after a full group', '4,141 bytes decoded']


def program_text(capture, listed):
    if len(capture) > MOST:
        return b'too long\n'
    entries, tail = listed
    return ''.join(f'{start} {said[0]}\n' for start, said in entries).encode() + f'tail {tail}\n'.encode()


def digest(data):
    d = 0
    for byte in data:
        d = (d * 31 + byte + 1) % 65521
    return d


def reader_text(listed):
    lines = []
    for start, said in listed[0]:
        if said[0] == 'ok':
            _, version, sequence, command, data = said
            lines.append(f'{start} ok {version:08x} {sequence:016x} {command:02x} {len(data)} {digest(data)}')
        else:
            lines.append(f'{start} {said[0]}' + ''.join(f' {sequence:016x}' for sequence in said[1:]))
    lines.append('tail longer' if listed[1] > 4140 else f'tail {listed[1]}')
    return '\n'.join(lines + ['.', '']).encode()


# ---- captures


def stuffed(message):
    """The COBS form: each group up to a zero or 254 bytes; no code byte after a full group that ends the message."""
    out, at = bytearray(), 0
    while True:
        end = message.find(0, at, at + 254)
        run = message[at:at + 254] if end < 0 else message[at:end]
        out += bytes([len(run) + 1]) + run
        at += len(run) + (end >= 0)
        if at == len(message) and end < 0:
            return bytes(out)


def message(r, length, magic=MAGIC, off=0):
    kind = r.randrange(4)
    data = bytes(length) if kind == 0 else bytes(r.choice((0, 1, 255)) for _ in range(length)) if kind == 1 else r.randbytes(length)
    body = magic + struct.pack('<IQB', r.choice((1, 1, 2, 0, r.getrandbits(32))), r.getrandbits(64), r.getrandbits(8)) + data
    return body + ((checksum(body) + off) % 65536).to_bytes(2, 'little')


def form(r, long):
    """The bytes ahead of a 00: a message's form, whole or damaged, or none."""
    kind = r.randrange(12)
    length = r.choice((0, 1, 2, 20, 60, 234, 235, 236, 255, r.randrange(700), r.choice((4085, 4103, 4104, 4105)) if long else 9))
    if kind < 4:
        return stuffed(message(r, length))
    if kind == 4:
        return stuffed(message(r, length, off=r.choice((1, 255, 256, 65535))))
    if kind == 5:
        return stuffed(message(r, length, magic=r.choice((bytes(4), b'\xcc\x19\xde\x02', r.randbytes(4)))))
    if kind == 6:
        return bytes(r.randrange(1, 256) for _ in range(r.randrange(1, 60)))
    if kind == 7:
        full = b'\xff' + bytes(r.randrange(1, 256) for _ in range(254))
        return full * r.randrange(1, 3) + r.choice((b'', b'\1', b'\1\1', b'\2', b'\2\7', b'\2\7\1'))
    if kind == 8:
        return stuffed(message(r, length))[:r.randrange(0, 40)]
    if kind == 9:
        return b'\1' * r.choice((1, 2, 18, 19, 20, 4124, 4140, 4141) if long else (1, 2, 18, 19, 20))
    if kind == 10:
        damaged = bytearray(stuffed(message(r, length)))
        for _ in range(r.randrange(1, 3)):
            damaged[r.randrange(len(damaged))] = r.randrange(1, 256)
        return bytes(damaged)
    return b''


def random_capture(r, long):
    parts = []
    for _ in range(r.randrange(1, 12 if long else 6)):
        parts.append(form(r, long) + b'\0' * r.choice((1, 1, 1, 2, 5)))
    parts.append(form(r, long) if r.randrange(2) else b'')
    return b''.join(parts)[:MOST]


def edges():
    r = random.Random(7)
    full = b'\xff' + b'\7' * 254
    largest = stuffed(message(r, 4104)) + b'\0'
    yield from (b'', b'\0', b'\0\0\0', b'\1', b'\1\0', L10, L12, L10 + L12, L12 + L10, b'\0' + L12 + b'\0\0' + L10 + L12[:-1])
    for n in (4139, 4140, 4141, 4142, 9000):
        yield from (b'\1' * n, b'\1' * n + b'\0', b'\2' * n + b'\0' + L12, L12 + b'\0' + b'\3' * n)
    for n in (17, 18, 19, 4122, 4123, 4124):  # decoded lengths, of zeros so that the form is short enough
        yield b'\1' * (n + 1) + b'\0' + L12
    yield from (full + b'\0', full + b'\1\0', full + b'\2\0', full + b'\1\1\0', largest * 15, largest[:-1])
    for n in (MOST - 1, MOST, MOST + 1, MOST + 2, 3 * MOST):
        yield from (b'\0' * n, b'\1' * n, (b'\1\0' * n)[:n], (b'\0' * (n - len(L12)) + L12), (L12 * n)[:n], b'\7' * (n - 1) + b'\0', b'\0' + b'\7' * (n - 1))


# ---- the three


def cuts(r, length):
    """Calls for a capture: pieces of it, empty ones among them, and calls that are lent too little."""
    mean = r.choice((1, 3, 50, 5000, MOST)) if length < 9000 else r.choice((500, 5000, MOST))
    calls, left = [], length
    while left:
        piece = min(left, 1 if mean == 1 else r.randrange(0, mean))
        calls.append(piece)
        left -= piece
        if r.randrange(8) == 0:
            calls.append(r.choice((0, TOO_LITTLE | r.randrange(4142))))
    return calls


def of_program(capture):
    return subprocess.run([AUDIT], input=capture, stdout=subprocess.PIPE, check=True).stdout


def of_program_slowly(capture, step):
    """The same where the input comes in small writes, so that reads return fewer bytes than asked."""
    with subprocess.Popen([AUDIT], stdin=subprocess.PIPE, stdout=subprocess.PIPE, bufsize=0) as run:
        for at in range(0, len(capture), step):
            run.stdin.write(capture[at:at + step])
            time.sleep(0.002)
        run.stdin.close()
        return run.stdout.read()


def of_reader(r, captures):
    READER.parent.mkdir(parents=True, exist_ok=True)
    subprocess.run([os.environ.get('CC', 'cc'), '-std=c99', '-O2', '-Wall', '-Wextra', '-Werror', f'-I{ROOT / "include"}', '-o', READER,
                    ROOT / 'tests' / 'audit' / 'reader.c', ROOT / LIBRARY], check=True)
    asked = bytearray()
    for capture in captures:
        calls = cuts(r, len(capture))
        asked += struct.pack(f'={3 + len(calls)}I', len(capture), len(calls), r.choice((4142, 4143, 8192)), *calls) + capture
    said = subprocess.run([READER], input=bytes(asked), stdout=subprocess.PIPE, check=True).stdout
    return [text + b'.\n' for text in said.split(b'.\n')[:-1]]


def same(what, capture, wanted, got):
    if wanted != got:
        sys.exit(f'audit: {what} differs on a capture of {len(capture)} bytes, {capture[:80].hex()}..\nwanted {wanted[:400]!r}\ngot    {got[:400]!r}')


def main(seed, count):
    made(LIBRARY, AUDIT.relative_to(ROOT))
    r = random.Random(seed)
    captures = list(edges()) + [random_capture(r, i % 16 == 0) for i in range(count)]
    listed = [listing(capture) for capture in captures]
    same('the model', L10 + L12, b'0 1\n2 ok\ntail 0\n', program_text(L10 + L12, listing(L10 + L12)))
    for capture, known in zip(captures, listed):
        same('the audit program', capture, program_text(capture, known), of_program(capture))
    for capture, step in ((L10 + L12, 1), (L12 * 400, 97), (b'\1\0' * (MOST // 2), 5000), (b'\7' * (MOST + 1), 5000)):
        same('the audit program, slowly fed,', capture, program_text(capture, listing(capture)), of_program_slowly(capture, step))
    read = [(capture, known) for capture, known in zip(captures, listed) if len(capture) <= MOST]
    texts = of_reader(r, [capture for capture, _ in read])
    if len(texts) != len(read):
        sys.exit('audit: the line reader answered another number of captures')
    for (capture, known), text in zip(read, texts):
        same('the line reader', capture, reader_text(known), text)
    for fault in FAULTS:
        if not any(program_text(capture, listing(capture, (fault,))) != program_text(capture, known) for capture, known in read if len(capture) < 9000):
            sys.exit(f'audit: no capture shows the fault "{fault}"')
    print(f'audit: {len(captures)} captures, the program and the model agree; {len(read)} of them by the line reader too; {len(FAULTS)} faults would be found')


if __name__ == '__main__':
    main(*(int(word) for word in (sys.argv[1:] + ['1', '3000'][len(sys.argv) - 1:])[:2]))
