#!/usr/bin/env python3
"""The program line_cases: the line layer's cases, worked out from document 01 and not from the Rattle code.

usage: tests/line_cases.py input | expected

input:    the program's standard input, one command a line
expected: what it must write, from the model of document 01 below

Commands, one a line; HEX is pairs of hex digits with no space, COUNT and the like are decimal:
= NAME     begins a case: fills the state's 4,200 bytes with a5, the output's 4,199 with ee, starts a reader, empties the piece
+ HEX      adds bytes to the piece
* HEX COUNT   adds one byte to the piece so often
k          prints the piece's checksum, and empties it
r          reads the piece by calls until it is used up, and empties it; c COUNT: its first COUNT bytes, then the rest; b: byte by byte
a          collects the piece's bytes ahead of its first 00 and prints how many, reads the rest as r does, and empties it
l COUNT    reads the piece by one call that is lent COUNT bytes of the state; the piece stays;  e COUNT: collects it so
s COUNT    calls start with COUNT bytes of the state
i COUNT    stores COUNT as the state's first two bytes
t          prints the unfinished tail;  u COUNT: asked with COUNT bytes of the state
d COUNT    asks for so many bytes of data of the message just handed out
g          prints the digest of the state's first 4,142 bytes
w VERSION SEQUENCE COMMAND HEAD ROOM   writes a message with the piece as its data, HEAD bytes of them as the first part, into the first ROOM
           bytes of the output (VERSION, SEQUENCE, COMMAND: 8, 16 and 2 hex digits); prints the answer and the digest of the output's 4,199 bytes
o          reads what was written
.          ends the case's line
L6 to L9 are not run: the COBS form has no public call of its own. They are proved in the table of crates/line_claims/specs/Samples.antt.
The digest of bytes is d, from 0, by d = (d * 31 + byte + 1) % 65521 for each byte, in decimal."""
import sys

sys.dont_write_bytecode = True
import common

MAGIC = 0x01DE19CC


def fletcher(data):
    first = second = 0
    for b in data:
        first = (first + b) % 255
        second = (second + first) % 255
    return second * 256 + first


def digest(data):
    d = 0
    for b in data:
        d = (d * 31 + b + 1) % 65521
    return d


def stuffed(data):
    """COBS by cutting at the zeros and at 254 bytes; no code byte after a full group that ends the message."""
    out = bytearray()
    rest = bytes(data)
    while True:
        zero = rest.find(0)
        run = rest if zero < 0 else rest[:zero]
        if len(run) >= 254:
            out.append(255)
            out += run[:254]
            rest = rest[254:]
            if not rest:
                return bytes(out)
            continue
        out.append(len(run) + 1)
        out += run
        if zero < 0:
            return bytes(out)
        rest = rest[zero + 1:]


def unstuffed(form):
    """The bytes of a form, or None where a code byte runs past the end or a last 01 stands after a full group."""
    out = bytearray()
    at = 0
    full = False
    while at < len(form):
        code = form[at]
        if code == 0 or at + code > len(form):
            return None
        if full and form[at:] == b'\1':
            return None
        full = code == 255
        out += form[at + 1:at + code]
        at += code
        if code < 255 and at < len(form):
            out.append(0)
    return bytes(out)


def body(version, sequence, command, data, magic=MAGIC):
    return magic.to_bytes(4, 'little') + version.to_bytes(4, 'little') + sequence.to_bytes(8, 'little') + bytes([command]) + bytes(data)


def message(version, sequence, command, data, magic=MAGIC):
    b = body(version, sequence, command, data, magic)
    return b + fletcher(b).to_bytes(2, 'little')


def verdict(form):
    """What the line layer makes of the bytes ahead of a 00: ('empty',), ('fail', reason, sequence or None) or
    ('message', version, sequence, command, data)."""
    if not form:
        return ('empty',)
    if len(form) > 4140:
        return ('fail', 1, None)
    xs = unstuffed(form)
    if xs is None:
        return ('fail', 1, None)
    if len(xs) < 19 or len(xs) > 4123:
        return ('fail', 3, None)
    number = lambda a, e: int.from_bytes(xs[a:e], 'little')
    sequence = number(8, 16)
    if number(len(xs) - 2, len(xs)) != fletcher(xs[:-2]):
        return ('fail', 2, sequence)
    if number(0, 4) != MAGIC:
        return ('fail', 4, sequence)
    return ('message', number(4, 8), sequence, xs[16], xs[17:-2])


def judged(form):
    """What is answered at the 00 behind these bytes."""
    what, *rest = verdict(form)
    if what == 'empty':
        return what
    if what == 'fail':
        reason, sequence = rest
        return f'fail {reason}' if sequence is None else f'fail {reason} {sequence:016x}'
    version, sequence, command, data = rest
    return f'message {version:08x} {sequence:016x} {command:02x} {len(data)} {digest(data)}'


class Case:
    def __init__(self, name):
        self.commands = [f'= {name}']
        self.line = name + ':'
        self.tail = b''
        self.piece = b''
        self.written = b''

    def say(self, text):
        self.line += ' ' + text
        return self

    def add(self, data):
        data = bytes(data)
        self.piece += data
        at = 0
        while at < len(data):
            run = 1
            while at + run < len(data) and data[at + run] == data[at]:
                run += 1
            if run > 8:
                self.commands.append(f'* {data[at]:02x} {run}')
            else:
                run = 1
                while at + run < len(data) and run < 32 and data[at + run:at + run + 9] != bytes([data[at + run]]) * 9:
                    run += 1
                self.commands.append('+ ' + data[at:at + run].hex())
            at += run
        return self

    def feed(self, data):
        for b in data:
            if b:
                self.tail += bytes([b])
            else:
                self.say(judged(self.tail))
                self.tail = b''

    def read(self, command='r'):
        self.commands.append(command)
        self.feed(self.piece)
        self.piece = b''
        return self

    def collect(self):
        """What stands ahead of the first 00 is told and joins the tail; then comes the rest."""
        self.commands.append('a')
        self.say(f"took {len(self.piece.partition(bytes(1))[0])}")
        self.feed(self.piece)
        self.piece = b''
        return self

    def checksum(self):
        self.commands.append('k')
        self.say(f'{fletcher(self.piece):04x}')
        self.piece = b''
        return self

    def write(self, version, sequence, command, head, room):
        self.commands.append(f'w {version:08x} {sequence:016x} {command:02x} {head} {room}')
        buffer = bytearray(b'\xee' * 4199)
        frame = stuffed(message(version, sequence, command, self.piece)) + b'\0'
        self.written = b''
        if len(self.piece) > 4104:
            self.say('refused 9')
        elif room < len(frame):
            self.say('refused 8')
        else:
            buffer[:len(frame)] = frame
            self.written = frame
            self.say(f'wrote {len(frame)}')
        self.say(f'{digest(buffer)}')
        self.piece = b''
        return self

    def back(self):
        self.commands.append('o')
        self.feed(self.written)
        return self

    def tell(self, command, text=None):
        self.commands.append(command)
        return self if text is None else self.say(text)

    def unfinished(self):
        self.commands.append('t')
        self.say(f'tail {len(self.tail)}' if len(self.tail) <= 4140 else 'tail longer')
        return self


def nonzero(n):
    return bytes(1 + i % 251 for i in range(n))


L12 = bytes.fromhex('06cc19de01010101020101010101010104' + '08cf6600')
assert L12 == stuffed(message(1, 1, 8, b'')) + b'\0'


def body_with(apart, place, pair):
    """The longest body, all 5a but for two bytes so far apart."""
    changed = bytearray(b'\x5a' * 4121)
    changed[place], changed[place + apart] = pair
    return bytes(changed)


def block_cases():
    """Checksums around one block of 256 bytes and two, and of the longest body; bytes ff make the largest sums."""
    for n in (0, 1, 255, 256, 257, 511, 512, 513, 4121):
        for kind, data in (('all ff', b'\xff' * n), ('fe, then ff', (b'\xfe' + b'\xff' * n)[:n]), ('counting', nonzero(n))):
            yield Case(f'checksum of {n} bytes, {kind}').add(data).checksum()


def last_ones():
    """Forms with a 01 at or near their end, each with its name."""
    group = b'\xff' + nonzero(254)
    yield 'full group alone', group
    yield 'full group and a last 01', group + b'\1'
    yield 'full group, 01 and a last 01', group + b'\1\1'
    yield 'full group, 02 and its byte 01', group + b'\2\1'
    yield 'full group that ends with the byte 01', b'\xff' + nonzero(253) + b'\1'
    yield 'two full groups and a last 01', group + group + b'\1'
    yield 'sixteen full groups and a last 01', 16 * group + b'\1'
    yield 'group of 253 bytes and a last 01', b'\xfe' + nonzero(253) + b'\1'
    yield 'group of 253 bytes, full group and a last 01', b'\xfe' + nonzero(253) + group + b'\1'
    yield 'full group, group of one byte and a last 01', group + b'\2\7\1'
    yield 'bytes ff in a group of 253 bytes and a last 01', b'\xfe' + b'\xff' * 253 + b'\1'
    # 4,138 bytes are above 4,123, which is reason 3 where the form does not end so
    yield '4140 bytes that mean 4138 and a last 01', b'\1' * 3884 + group + b'\1'
    yield '4140 bytes that mean 4139, the last group full', b'\1' * 3885 + group
    yield '4141 bytes and a last 01 among them', b'\1' * 3885 + group + b'\1'


def ends_in_zeros(zeros):
    """A message whose last data and checksum are zeros: its form ends with a run of 01."""
    first = second = 0
    for b in body(1, 7, 0x10, b''):
        first = (first + b) % 255
        second = (second + first) % 255
    x = -(second + first) % 255
    m = message(1, 7, 0x10, bytes([x, -(first + x) % 255]) + bytes(zeros))
    assert m.endswith(bytes(zeros + 2)) and stuffed(m).endswith(b'\1' * (zeros + 2))
    return m


def run_cases():
    """Zeros and runs around blocks of 8 and 32 bytes and around full groups; all-zero data at the edges of length."""
    for n in (8, 9, 31, 32, 33, 63, 64, 65):
        yield Case(f'00 behind {n} bytes').add(nonzero(n) + b'\0' + L12).read()
        # the version's zeros end a group, and the sequence and the command are the first nine bytes of the next
        data = nonzero(n)[9:] + b'\0' + nonzero(20)
        yield Case(f'zero at place {max(n, 9)} of a group').add(data).write(1, 0x1122334455667788, 0x0d, 5, 4199).back()
        yield Case(f'{n} zeros in the data').add(b'\5' + bytes(n) + b'\6').write(1, 0x1122334455667788, 0x0d, n, 4199).back()
        m = ends_in_zeros(n - 2)
        yield Case(f'form that ends with {n} code bytes 01').add(stuffed(m) + b'\0').read()
        yield Case(f'form that ends with {n} code bytes 01 and one more').add(stuffed(m) + b'\1\0').read()
        yield Case(f'{n} code bytes 01 alone').add(b'\1' * n + b'\0' + L12).read('b')
    for run in (244, 245, 246, 498, 499, 500):
        for zeros in (1, 31, 32, 33):
            data = nonzero(run) + bytes(zeros) + b'\7'
            yield Case(f'{run + 9} bytes of a group and more, then {zeros} zeros').add(data).write(1, 0x1122334455667788, 0x0d, run, 4199).back()
    for n in (1, 2, 30, 253, 254, 255, 4103, 4104, 4105):
        yield Case(f'written, {n} zeros').add(bytes(n)).write(1, 0, 0, n // 2, 4199).back()
    size = len(stuffed(message(1, 0, 0, bytes(4104)))) + 1
    for room in (size - 1, size, 4140, 4141):
        yield Case(f'room of {room} bytes for 4104 zeros').add(bytes(4104)).write(1, 0, 0, 0, room).back()
        yield Case(f'room of {room} bytes for a short frame').write(1, 1, 8, 0, room).back()
    for n in (44, 45, 46):
        for kind, data in (('counting', nonzero(n)), ('zeros', bytes(n))):
            yield Case(f'written data of {n} bytes, {kind}').add(data).write(1, 9, 0x0d, 20, 4199).back()


def collect_cases():
    """Pieces with and without a 00, around the longest that is taken byte by byte and around the longest form; refusals."""
    yield Case('collected, no bytes').collect().unfinished()
    yield Case('collected, a 00 first').add(b'\0' + L12).collect()
    yield Case('collected, L12').add(L12).collect().unfinished()
    yield Case('collected, L12 without its 00').add(L12[:-1]).collect().unfinished().add(b'\0').collect()
    yield Case('collected, two frames').add(L12 + L12).collect()
    for cut in range(1, len(L12)):
        yield Case(f'collected, L12 cut at {cut}').add(L12[:cut]).collect().unfinished().add(L12[cut:]).collect()
    c = Case('collected, L12 byte by byte')
    for b in L12:
        c.add([b]).collect()
    yield c
    for n in (1, 7, 8, 31, 32, 33, 63, 64, 65, 66, 255):
        yield Case(f'collected, {n} bytes').add(nonzero(n)).collect().unfinished().add(nonzero(n) + b'\0' + L12).collect().unfinished()
        yield Case(f'collected, a 00 as byte {n}').add(nonzero(n - 1) + b'\0' + nonzero(70)).collect().unfinished()
    for have in (4075, 4076, 4077, 4138, 4139, 4140, 4141):
        for n in (1, 2, 3, 64, 65):
            c = Case(f'collected, {n} bytes behind {have}').add(b'\1' * have).collect().unfinished().add(b'\1' * n).collect()
            yield c.unfinished().add(b'\0' + L12).collect()
    # the bytes past the longest form are taken, and kept nowhere
    kept = digest((4141).to_bytes(2, 'little') + b'\1' * 4140)
    yield Case('collected, 4,150 bytes').add(b'\1' * 4150).collect().tell('g', f'{kept}').unfinished()
    fresh = digest(b'\0' * 4142)
    c = Case('collect with too little state').add(L12)
    for lent in (0, 1, 2, 4141):
        c.tell(f'e {lent}', 'refused 12')
    yield c.tell('g', f'{fresh}').tell('e 4142', 'took 20')
    for count in (4141, 4142, 65535):
        stored = digest(count.to_bytes(2, 'little') + b'\0' * 4140)
        c = Case(f'collect with a stored count {count}').tell(f'i {count}').add(b'\1\1\0')
        yield c.tell('e 4142', 'took 2' if count == 4141 else 'refused 12').tell('g', f'{stored}')


def cases():
    for name, text in (('L1', b'abcde'), ('L2', b'abcdef'), ('L3', b'abcdefgh'), ('L4', b''), ('L5 00', b'\0'), ('L5 ff', b'\xff')):
        yield Case(name).add(text).checksum()
    yield from block_cases()
    yield Case('L10').add([2, 0]).read()
    yield Case('L11').add([1, 0]).read()
    yield Case('L12').add(L12).read().unfinished()
    yield Case('L12 written').write(1, 1, 8, 0, 4199).back()
    for cut in range(len(L12) + 1):
        yield Case(f'L12 cut at {cut}').add(L12).read(f'c {cut}')
    yield Case('L12 byte by byte').add(L12).read('b')
    yield Case('L10, L12, L11 in one piece').add(b'\2\0' + L12 + b'\1\0').read()
    yield Case('spare terminators').add(b'\0\0' + L12 + b'\0\0\0' + L12).read()
    for n in (4139, 4140, 4141, 4142, 6000):
        yield Case(f'{n} bytes before the 00').add(b'\1' * n).unfinished().read().unfinished().add(b'\0').read().unfinished().add(L12).read()
    yield Case('4141 bytes, then a frame').add(b'\1' * 4141 + b'\0' + L12).read()
    yield Case('4141 bytes, byte by byte').add(b'\1' * 4141 + b'\0' + L12).read('b')
    for data in (b'', nonzero(4104), bytes(4104), b'\xff' * 4104):
        m = message(1, 7, 0x10, data)
        yield Case(f'message of {len(m)} bytes, first data byte {data[:1].hex() or "none"}').add(stuffed(m) + b'\0').read()
    short = body(1, 7, 0x10, b'')[:16]
    yield Case('message of 18 bytes').add(stuffed(short + fletcher(short).to_bytes(2, 'little')) + b'\0').read()
    long = message(1, 7, 0x10, bytes(4105))
    assert len(long) == 4124 and len(stuffed(long)) <= 4140
    yield Case('message of 4124 bytes').add(stuffed(long) + b'\0').read()
    longest = stuffed(message(1, 0x0102030405060708, 0x10, nonzero(4104)))
    yield Case(f'form of {len(longest)} bytes').add(longest + b'\0').read()
    # a message that ends with a full group, and the same with a last 01
    # the version's zeros end a group; the eight bytes of the sequence, the command, 243 bytes of data and the checksum fill the next one
    full = message(1, 0x0102030405060708, 9, nonzero(243))
    assert stuffed(full)[-255:] == b'\xff' + full[-254:]
    yield Case('full group at the end').add(stuffed(full) + b'\0').read()
    yield Case('full group at the end and a last 01').add(stuffed(full) + b'\1\0').read()
    yield Case('full group at the end and a last 02').add(stuffed(full) + b'\2\0').read()
    # only a 01 that is the last byte and follows a full group is refused; the others fail later tests
    for name, form in last_ones():
        yield Case(name).add(form + b'\0').read()
        yield Case(f'{name}, byte by byte').add(form + b'\0' + L12).read('b')
    yield Case('full group cut by one byte').add(stuffed(full)[:-1] + b'\0').read()
    # checksums with a byte 00, and ff in its place
    seen = set()
    for q in range(1, 70000):
        b = body(1, q, 8, b'')
        s = fletcher(b)
        for kind, low, high in (('low', s % 256 == 0, None), ('high', None, s // 256 == 0)):
            if (low or high) and kind not in seen:
                seen.add(kind)
                bad = (s + 255) if kind == 'low' else (s + 255 * 256)
                yield Case(f'checksum with {kind} byte 00').add(stuffed(b + s.to_bytes(2, 'little')) + b'\0').read()
                yield Case(f'checksum with {kind} byte ff').add(stuffed(b + bad.to_bytes(2, 'little')) + b'\0').read()
        if len(seen) == 2:
            break
    # the checksums before and after two bytes of the longest body are changed, from its first byte on and up to its last
    for apart, before, after, missed in ((255, (1, 0), (0, 1), True), (254, (1, 0), (0, 1), False),
                                         (85, (0x5a, 0x5a), (0x5d, 0x57), True), (85, (0x5a, 0x5a), (0x5b, 0x59), False)):
        for place in (0, 4120 - apart):
            old, new = (body_with(apart, place, pair) for pair in (before, after))
            assert (fletcher(old) == fletcher(new)) == missed
            yield Case(f'{bytes(before).hex()} and {bytes(after).hex()} at {place} and {place + apart}').add(old).checksum().add(new).checksum()
    # so a reader takes such a message for a sound one, or not
    for apart in (255, 254):
        old, new = (body(1, 7, 0x10, body_with(apart, 0, pair)[:4104]) for pair in ((1, 0), (0, 1)))
        yield Case(f'01 and 00 exchanged {apart} apart').add(stuffed(new + fletcher(old).to_bytes(2, 'little')) + b'\0').read()
    b = body(1, 5, 8, b'')
    yield Case('checksum swapped').add(stuffed(b + fletcher(b).to_bytes(2, 'big')) + b'\0').read()
    yield Case('magic differs').add(stuffed(message(1, 0x8000000000000005, 8, b'', MAGIC + 1)) + b'\0').read()
    yield Case('magic and checksum differ').add(stuffed(body(1, 6, 8, b'', MAGIC + 1) + b'\1\1') + b'\0').read()
    yield Case('any version, sequence and command').add(stuffed(message(0xffffffff, 0xffffffffffffffff, 0, b'\0\0')) + b'\0').read()
    yield Case('code byte past the end').add(b'\5\1\1\0').read()
    # with 243 and 497 bytes of data and no zero at their end, the message ends with a full group
    for n in (242, 243, 244, 253, 254, 255, 496, 497, 498, 508, 509):
        for end in (b'', b'\0'):
            data = nonzero(n)[:n - len(end)] + end
            yield Case(f'written data of {n} bytes, last {data[-1]:02x}').add(data).write(1, 0x1122334455667788, 0x0d, n // 2, 4199).back()
    for n, head in ((0, 0), (1, 1), (4104, 0), (4104, 4104), (4104, 2000), (4105, 0), (4105, 4105), (4105, 2000)):
        yield Case(f'written data of {n} bytes, {head} in the first part').add(nonzero(n)).write(1, 9, 0x0d, head, 4199).back()
    for n in (0, 236, 237, 500, 4104):
        size = len(stuffed(message(2, 3, 4, nonzero(n)))) + 1
        for room in (size - 1, size, size + 1):
            yield Case(f'room of {room} bytes for a frame of {size}').add(nonzero(n)).write(2, 3, 4, 0, room).back()
    yield from run_cases()
    yield from collect_cases()
    yield Case('no room').write(1, 1, 8, 0, 0)
    yield Case('4105 bytes and no room').add(nonzero(4105)).write(1, 1, 8, 0, 0)
    # a start leaves zeros in the published length; refusals leave the state as it was
    fresh = digest(b'\0' * 4142)
    c = Case('read with too little state').add(L12).tell('g', f'{fresh}')
    for lent in (0, 1, 2, 4141):
        c.tell(f'l {lent}', 'refused 12')
    yield c.tell('g', f'{fresh}').tell('u 4141', 'refused 12').tell('u 4142', 'tail 0').read()
    yield Case('read with just enough state').add(L12).tell('l 4142', judged(L12[:-1]))
    c = Case('start with too little state').add(b'\1\1').read()
    c.tell('s 0', 'refused 12').tell('s 4141', 'refused 12').unfinished().tell('s 4142', 'started')
    c.tail = b''
    yield c.unfinished()
    c = Case('start within a frame').add(L12[:7]).read().unfinished().tell('s 4200', 'started')
    c.tail = b''
    yield c.unfinished().add(L12).read()
    for count in (4141, 4142, 65535):
        stored = digest(count.to_bytes(2, 'little') + b'\0' * 4140)
        c = Case(f'stored count {count}').tell(f'i {count}').tell('g', f'{stored}')
        ok = count <= 4141
        yield c.tell('t', 'tail longer' if ok else 'refused 12').tell('d 0', 'data 0' if ok else 'refused 12').add(b'\0').tell('l 4142', 'fail 1' if ok else 'refused 12').tell('g', f'{fresh if ok else stored}')
    m = message(1, 2, 3, b'\0abc\0')
    yield Case('data of a message').add(stuffed(m) + b'\0').read().tell('d 5', f"data {digest(m[17:-2])}").tell('d 4104', f"data {digest(m[17:] + stuffed(m)[len(m):] + bytes(4104 - len(stuffed(m)) + 17))}").tell('d 4105', 'refused 9')


def texts():
    return common.texts(list(cases()))


if __name__ == '__main__':
    common.serve(__doc__, input=lambda: texts()[0], expected=lambda: texts()[1])
