#!/usr/bin/env python3
"""The program rot_cases: the root-of-trust link's cases, worked out from document 02's item 7 and source document 003, not from the Rattle code.

usage: tests/rot_cases.py input | expected

input:    the program's standard input, one command a line
expected: what it must write, from the model below

Commands, one a line; HEX is pairs of hex digits with no space, COUNT and ROOM are decimal, TYPE is 2 hex digits:
= NAME     begins a case: fills the output's 600 bytes with ee, empties the piece
+ HEX      adds bytes to the piece
* HEX COUNT   adds one byte to the piece so often
k          prints the piece's CRC
r ROOM     reads the piece with the first ROOM bytes of the output as room; prints the answer, the bytes of the payload's part and the digest of
           the output's 600 bytes
w TYPE ROOM   writes a message with the piece as its payload into the first ROOM bytes of the output; prints the answer and the digest
o          makes what was written, or the echo's answer, the piece
.          ends the case's line
Bytes and digests are printed as in the supervisor's cases."""
import sys

sys.dont_write_bytecode = True
import common
from line_cases import Case as LineCase, digest, nonzero

POLYNOMIAL = 0x04C11DB7
LONGEST = 512
ROOM = 600


def crc(data):
    """Bit by bit: the register moves up, and takes the polynomial where the bit that leaves it is not the message's."""
    register = 0
    for byte in data:
        for place in range(7, -1, -1):
            leaving = register >> 31
            register = register << 1 & 0xFFFFFFFF
            if leaving != byte >> place & 1:
                register ^= POLYNOMIAL
    return register ^ 0xFFFFFFFF


def header(kind, count, protocol=1):
    return bytes([protocol, kind]) + count.to_bytes(2, 'little')


def message(kind, payload, protocol=1):
    first = header(kind, len(payload), protocol)
    return first + crc(first + payload).to_bytes(4, 'little') + payload


def judged(data):
    """A refusal's number, None where nothing was sent, or type and payload; the first failing test speaks."""
    if not data:
        return 20
    if data[0] == 0:
        return None
    if data[0] != 1:
        return 21
    if len(data) < 8:
        return 22
    count = int.from_bytes(data[2:4], 'little')
    if count > LONGEST:
        return 23
    payload = data[8:8 + count]
    if len(payload) < count:
        return 24
    if int.from_bytes(data[4:8], 'little') != crc(data[:4] + payload):
        return 25
    if data[1] not in range(1, 10):
        return 26
    return data[1], payload


def printed(data):
    """Bytes as the program prints them."""
    return f'{len(data)} {data[:48].hex()} {digest(data)}' if data else '0'


class Case(LineCase):
    def __init__(self, name):
        super().__init__(name)
        self.out = bytearray(b'\xee' * ROOM)

    def put(self, data, room, word):
        """Bytes to the first `room` bytes of the output, or 8."""
        self.written = b''
        if room < len(data):
            return 'refused 8'
        self.out[:len(data)] = data
        self.written = data
        return f'{word} {len(data)}'

    def read(self, room=ROOM):
        self.commands.append(f'r {room}')
        self.written = b''
        payload = b''
        verdict = judged(self.piece)
        if verdict is None:
            answer = 'nothing'
        elif isinstance(verdict, int):
            answer = f'refused {verdict}'
        elif verdict[0] == 2:
            answer = self.put(message(3, verdict[1]), room, 'echoed')
        else:
            payload = verdict[1]
            answer = f'message {verdict[0]:02x} {len(payload)}'
        return self.say(answer).say(printed(payload)).say(f'{digest(self.out)}')

    def write(self, kind, room=ROOM):
        self.commands.append(f'w {kind:02x} {room}')
        self.written = b''
        if len(self.piece) > LONGEST:
            answer = 'refused 23'
        elif kind not in range(1, 10):
            answer = 'refused 26'
        else:
            answer = self.put(message(kind, self.piece), room, 'wrote')
        return self.say(answer).say(f'{digest(self.out)}')

    def back(self):
        self.commands.append('o')
        self.piece = self.written
        return self

    def sum(self):
        self.commands.append('k')
        return self.say(f'{crc(self.piece):08x}')


ASKED = bytes([1, 2, 1, 0, 35, 236, 249, 41, 9])
ANSWERED = bytes.fromhex('010301009476 94f509')
assert ASKED == message(2, b'\x09') and ANSWERED == message(3, b'\x09')


def cases():
    yield Case("003's request").add(ASKED).read()
    yield Case("003's response").add(ANSWERED).read()
    yield Case("003's request written").add(b'\x09').write(2).back().read().back().read()
    yield Case('CRC of nothing').sum()
    yield Case('CRC of 123456789').add(b'123456789').sum()
    for byte in (0x00, 0x01, 0x80, 0xff):
        yield Case(f'CRC of {byte:02x}').add([byte]).sum()
    yield Case('CRC of every byte').add(bytes(range(256))).sum()
    # 0, 1, 7 and 8 bytes
    yield Case('no input').read()
    for first in (0, 1, 2, 5, 0xff):
        yield Case(f'one byte {first:02x}').add([first]).read()
    yield Case('7 bytes').add(message(4, b'')[:7]).read()
    yield Case('8 bytes').add(message(4, b'')).read()
    yield Case('7 bytes of protocol 0').add(bytes(7)).read()
    yield Case('7 bytes of protocol 2').add(message(4, b'', 2)[:7]).read()
    yield Case('protocol 0, then a whole message').add(b'\0' + ASKED[1:]).read()
    yield Case('protocol 0, with its CRC').add(message(2, b'\x09', 0)).read()
    yield Case('protocol 2, with its CRC').add(message(2, b'\x09', 2)).read()
    # lengths
    for n in (0, 1, 511, 512):
        for kind in (2, 8):
            yield Case(f'type {kind}, {n} bytes').add(nonzero(n)).write(kind).back().read().back().read()
    yield Case('513 bytes read').add(message(8, nonzero(513))).read()
    yield Case('513 bytes written').add(nonzero(513)).write(8).back().read()
    yield Case('length 65535').add(header(8, 65535) + bytes(4)).read()
    # each type
    for kind in range(11):
        yield Case(f'type {kind:02x}').add(message(kind, b'\0abc')).read()
        yield Case(f'type {kind:02x} written').add(b'\0abc').write(kind).back().read()
    yield Case('type ff').add(message(0xff, b'')).read()
    yield Case('type ff written').write(0xff)
    # each refusal against the next
    yield Case('21 against 22').add([2]).read()
    yield Case('22 against 23').add(header(8, 513)).read()
    yield Case('23 against 24').add(header(8, 513) + bytes(4)).read()
    yield Case('24 against 25').add(header(8, 1) + bytes(4)).read()
    yield Case('25 against 26').add(header(10, 0) + bytes(4)).read()
    yield Case('26 against 8').add(message(10, b'')).read(0)
    yield Case('25 against 8').add(ASKED[:-1] + b'\x08').read(0)
    yield Case('24 against 8').add(ASKED[:-1]).read(0)
    yield Case('23 against 26, written').add(nonzero(513)).write(10)
    yield Case('23 against 8, written').add(nonzero(513)).write(8, 0)
    yield Case('26 against 8, written').write(10, 0)
    # rooms
    for n in (0, 1, 512):
        for room in (0, n + 7, n + 8, n + 9):
            yield Case(f'room of {room} bytes for {n + 8}').add(nonzero(n)).write(8, room)
            yield Case(f'room of {room} bytes for the echo of {n + 8}').add(message(2, nonzero(n))).read(room)
    yield Case('no room, not an echo').add(ANSWERED).read(0)
    # the CRC: each bit of 003's request but the protocol's, the other order of bytes, not complemented, over the whole header
    for place in range(8, 72):
        bad = bytearray(ASKED)
        bad[place // 8] ^= 1 << place % 8
        yield Case(f'bit {place} of the request').add(bad).read()
    yield Case('CRC, highest byte first').add(ASKED[:4] + ASKED[4:8][::-1] + ASKED[8:]).read()
    yield Case('CRC not complemented').add(ASKED[:4] + bytes(b ^ 255 for b in ASKED[4:8]) + ASKED[8:]).read()
    yield Case('CRC over eight bytes').add(header(8, 0) + crc(header(8, 0) + bytes(4)).to_bytes(4, 'little')).read()
    yield Case("the response under the request's CRC").add(ANSWERED[:4] + ASKED[4:]).read()
    # bytes past the payload
    for behind in (b'\0', b'\xff', bytes(40), nonzero(40), ASKED):
        yield Case(f'{len(behind)} bytes behind, first {behind[0]:02x}').add(ASKED + behind).read().back().read()
        yield Case(f'{len(behind)} bytes behind a response, first {behind[0]:02x}').add(ANSWERED + behind).read()
    yield Case('400 bytes behind the longest').add(message(6, nonzero(512)) + nonzero(400)).read()


def texts():
    return common.texts(list(cases()))


if __name__ == '__main__':
    common.serve(__doc__, input=lambda: texts()[0], expected=lambda: texts()[1])
