#!/usr/bin/env python3
"""The cases of the program requester_cases, worked out from document 02's item 2 and not from the Rattle code.

usage: tests/requester_cases.py input | expected | check

input:    the program's standard input, one command a line
expected: what it must write, from the model below
check:    compares both with crates/requester_cases/stdin and crates/requester_cases/stdout

Commands, one a line; HEX is pairs of hex digits with no space, COUNT and the like are decimal:
= NAME     begins a case: fills both parts with a5 and the output's 4,199 bytes with ee, starts, empties the piece, lends all
+ HEX, * HEX COUNT, < BACK COUNT   add to the piece: bytes, one byte so often, so many of its own bytes from so far back
q COMMAND ROOM   requests with the piece as its data and the first ROOM bytes of the output (COMMAND: 2 hex digits); prints the answer and the
           digest of the output's 4,199 bytes, and empties the piece
i          an interrupt
t          tells what is outstanding: its stage, command and number, `out` where its frame is to go out, `original` where a request goes out behind it
s ROOM     sends to the first ROOM bytes of the output; prints as q does
r MOST     receives the piece by calls with MOST bytes at most each until it is used up, and empties it; no bytes are one call. With 1 only the calls
           print that hand something out, end a recovery or are refused.  c COUNT: its first COUNT bytes, then the rest
/ COUNT    as c and then s, on a line of its own, with a whole output; the case keeps nothing of it, and the piece stays
x          starts again, on what is lent
# READER REQUESTER   lends so many bytes of each part from now on
! PART AT  stores the piece in a part, 0 the reader's, 1 the main processor's, from a place on, and empties it
:          notes the digest of both parts;  ?: prints whether it is still the same
.          ends the case's line
A call of receive prints how many bytes it read and what is handed out (nothing; answer or alert with version, sequence, command, length and digest of
its data; status with options and set bits), then `ended` where 14 ended a recovery and `out` where a frame is to go out."""
import copy
import sys

sys.dont_write_bytecode = True
import common
from line_cases import Case as LineCase, body, digest, message, nonzero, stuffed, verdict

LAST = 0x7ffffffffffffffe
TOP = 1 << 63
ONES = (1 << 64) - 1
FETCH, ACKNOWLEDGE, ALERT = 1, 2, 3
STEP_COMMAND = {FETCH: 0x08, ACKNOWLEDGE: 0x09, ALERT: 0x0a}
STAGES = {None: 'waiting', FETCH: 'fetch', ACKNOWLEDGE: 'acknowledge', ALERT: 'alert'}
READER_ROOM, REQUESTER_ROOM, OUT_ROOM, WHOLE = 4142 + 9, 4118 + 9, 4199, 8320


def frame(sequence, command, data=b'', version=1):
    return stuffed(message(version, sequence, command, data)) + b'\0'


def reply(number, command, data=b'', version=1):
    return frame(number + TOP, command, data, version)


def status(number, value, options=0):
    return reply(number, 0x06, value.to_bytes(8, 'little') + options.to_bytes(8, 'little'))


class Model:
    """One request outstanding, a recovery's step, and the bytes since the last 00, in document 02's words."""

    def __init__(self):
        self.newest = 0
        self.kept = None
        self.step = None
        self.unsent = False
        self.since = b''

    def outstanding(self):
        return (STEP_COMMAND[self.step], b'') if self.step else self.kept

    def request(self, command, data, room):
        if len(data) > 4104:
            return 9
        if self.outstanding():
            return 17
        if self.newest >= LAST:
            return 14
        out = frame(self.newest + 1, command, data)
        if room < len(out):
            return 8
        self.newest += 1
        self.kept = None if command in (0x01, 0x02, 0x06) else (command, data)
        self.unsent = False
        return out

    def interrupt(self):
        if self.step:
            return None
        if self.newest >= LAST:
            return 14
        self.newest += 1
        self.step = FETCH
        self.unsent = True

    def state(self):
        if not self.outstanding():
            return f'idle 00 {0:016x}'
        original = self.step is not None and self.kept is not None
        return f'{STAGES[self.step]} {self.outstanding()[0]:02x} {self.newest:016x}' + ' out' * self.unsent + ' original' * original

    def send(self, room):
        if not (self.outstanding() and self.unsent):
            return b''
        out = frame(self.newest, *self.outstanding())
        if room < len(out):
            return 8
        self.unsent = False
        return out

    def idle(self):
        self.kept = self.step = None
        self.unsent = False

    def anew(self, step):
        """A step, or the original, under a new number; or both end with 14."""
        if self.newest >= LAST:
            self.idle()
            return True
        self.newest += 1
        self.step = step
        self.unsent = True
        return False

    def heard(self, form):
        """What is handed out, and whether 14 ended a recovery."""
        what, *rest = verdict(form)
        if what == 'empty' or not self.outstanding():
            return 'nothing', False
        if what == 'fail':
            return self.ground()
        version, sequence, command, data = rest
        if version != 1 or sequence < TOP:
            return self.ground()
        if command == 0x02 and sequence in (self.newest + TOP, ONES):
            return self.ground()
        if sequence != self.newest + TOP:
            return 'nothing', False
        report = f'{version} {sequence:016x} {command:02x} {len(data)} {digest(data)}'
        if self.step is None:
            self.idle()
            return 'answer ' + report, False
        if self.step == FETCH:
            return self.fetched(command, data)
        word = 'nothing' if self.step == ACKNOWLEDGE else 'alert ' + report
        return word, self.anew(FETCH)

    def fetched(self, command, data):
        if command != 0x06 or len(data) != 16:
            return self.ground()
        value, options = (int.from_bytes(data[at:at + 8], 'little') for at in (0, 8))
        report = f'status {value:016x} {options:016x} {bin(value).count("1")}'
        if value & 1:
            return report, self.anew(ACKNOWLEDGE)
        if value & 2:
            return report, self.anew(ALERT)
        if self.kept:
            return report, self.anew(None)
        self.idle()
        return report, False

    def ground(self):
        if self.outstanding():
            self.unsent = True
        return 'nothing', False

    def receive(self, piece):
        """One call: how many bytes it reads, what it hands out, whether 14 ended a recovery."""
        for at, byte in enumerate(piece):
            form = self.since
            if byte == 0:
                self.since = b''
                return (at + 1, 'nothing', False) if len(form) > 4140 else (at + 1, *self.heard(form))
            self.since += bytes([byte])
            if len(self.since) == 4141:
                return at + 1, *self.ground()
        return len(piece), 'nothing', False


class Case(LineCase):
    def __init__(self, name):
        super().__init__(name)
        self.main = Model()
        self.out = bytearray(b'\xee' * OUT_ROOM)
        self.refuses = False

    def answered(self, said):
        """A refusal's number, or bytes put out."""
        if isinstance(said, int):
            self.say(f'refused {said}')
        else:
            self.out[:len(said)] = said
            self.say(f'put {len(said)}')
        return self.say(f'{digest(self.out)}')

    def request(self, command, data=b'', room=OUT_ROOM):
        self.add(data)
        self.commands.append(f'q {command:02x} {room}')
        self.piece = b''
        return self.answered(12 if self.refuses else self.main.request(command, bytes(data), room))

    def interrupt(self):
        self.commands.append('i')
        number = 12 if self.refuses else self.main.interrupt()
        return self.say(f'refused {number}' if number else 'done')

    def state(self):
        self.commands.append('t')
        return self.say('refused 12' if self.refuses else self.main.state())

    def send(self, room=OUT_ROOM):
        self.commands.append(f's {room}')
        return self.answered(12 if self.refuses else self.main.send(room))

    def called(self, piece, quiet=False):
        if self.refuses:
            self.say('0 refused 12')
            return 0
        used, report, ended = self.main.receive(piece)
        out = bool(self.main.outstanding()) and self.main.unsent
        if not quiet or report != 'nothing' or ended:
            self.say(f'{used} {report}' + ' ended' * ended + ' out' * out)
        return used

    def calls(self, piece):
        while True:
            used = self.called(piece)
            piece = piece[used:]
            if not used or not piece:
                return

    def receive(self, data, how='r', cut=0):
        self.add(data)
        piece, self.piece = self.piece, b''
        self.commands.append(f'c {cut}' if how == 'c' else 'r 1' if how == 'b' else f'r {WHOLE}')
        if how == 'r':
            self.calls(piece)
        elif how == 'c':
            self.calls(piece[:cut])
            self.calls(piece[cut:])
        else:
            for at in range(len(piece)):
                self.called(piece[at:at + 1], True)
        return self

    def cut(self, data, places):
        """The same bytes, cut at each of these places."""
        self.add(data)
        main, out = self.main, self.out
        for at in places:
            self.main, self.out = copy.copy(main), out[:]
            self.commands.append(f'/ {at}')
            self.line += f'\ncut {at}'
            self.calls(self.piece[:at])
            self.calls(self.piece[at:])
            self.answered(self.main.send(OUT_ROOM))
        self.main, self.out = main, out
        return self

    def none(self):
        self.commands.append(f'r {WHOLE}')
        self.called(b'')
        return self

    def start(self):
        self.commands.append('x')
        if self.refuses:
            return self.say('refused 12')
        self.main = Model()
        return self.say('done')

    def lend(self, reader=READER_ROOM, requester=REQUESTER_ROOM):
        self.commands.append(f'# {reader} {requester}')
        self.refuses = reader < 4142 or requester < 4118
        return self

    def store(self, part, at, data):
        self.add(data)
        self.piece = b''
        self.commands.append(f'! {part} {at}')
        return self

    def number(self, n):
        self.main.newest = n
        return self.store(1, 0, n.to_bytes(8, 'little'))

    def note(self):
        self.commands.append(':')
        return self

    def same(self, word='same'):
        self.commands.append('?')
        return self.say(word)


REQUEST = (0x0e, b'\0\4\0')


def idle(name):
    return Case(name)


def waiting(name):
    return Case(name).request(*REQUEST)


def fetching(name):
    return waiting(name).interrupt().send()


def fetching_alone(name):
    return Case(name).interrupt().send()


def acknowledging(name):
    c = fetching(name)
    return c.receive(status(c.main.newest, 3)).send()


def alerting(name):
    c = fetching(name)
    return c.receive(status(c.main.newest, 2)).send()


STATES = {'idle': idle, 'waiting': waiting, 'fetching': fetching, 'fetching alone': fetching_alone, 'acknowledging': acknowledging, 'alerting': alerting}


def bad_checksum(n):
    return stuffed(body(1, n + TOP, 0x0a, b'\0') + b'\1\1') + b'\0'


def of_length(n):
    """A frame that decodes to n bytes."""
    return stuffed(bytes([7] * min(n, 2000)) + bytes(n - min(n, 2000))) + b'\0'


# frames, by the newest number
FRAMES = {
    'empty frame': lambda n: b'\0',
    'bad COBS': lambda n: b'\5\1\0',
    'last 01 after a full group': lambda n: b'\xff' + bytes([9] * 254) + b'\1\0',
    'decoded 18': lambda n: of_length(18),
    'decoded 4124': lambda n: of_length(4124),
    'bad checksum': bad_checksum,
    'bad magic': lambda n: stuffed(message(1, n + TOP, 0x0a, b'\0', 0x01DE19CD)) + b'\0',
    'version 0': lambda n: reply(n, 0x0a, b'\0', 0),
    'version 2': lambda n: reply(n, 0x0a, b'\0', 2),
    'request sequence': lambda n: frame(n, 0x0a, b'\0'),
    'sequence just below the top bit': lambda n: frame(TOP - 1, 0x0a),
    'decode failure': lambda n: reply(n, 0x02, b'\3'),
    'decode failure without data': lambda n: reply(n, 0x02),
    'decode failure with 40 bytes': lambda n: reply(n, 0x02, nonzero(40)),
    'decode failure, all ones': lambda n: frame(ONES, 0x02, b'\1'),
    'decode failure, another number': lambda n: reply(n + 1, 0x02, b'\1'),
    'all ones, another command': lambda n: frame(ONES, 0x0a, b'\0'),
    'the number before': lambda n: reply(n - 1 if n else 5, 0x0a, b'\0'),
    'the number after': lambda n: reply(n + 1, 0x0a, b'\0'),
    'number 0': lambda n: reply(0, 0x01),
    'answer': lambda n: reply(n, 0x0a, b'\0pong'),
    'answer of command 00': lambda n: reply(n, 0x00),
    'answer of command ff': lambda n: reply(n, 0xff, bytes(9)),
    'acknowledgement': lambda n: reply(n, 0x01),
    'alert': lambda n: reply(n, 0x07, b'\1hot'),
    'status 0': lambda n: status(n, 0),
    'status 1': lambda n: status(n, 1),
    'status 2': lambda n: status(n, 2, 5),
    'status 3': lambda n: status(n, 3),
    'status 4': lambda n: status(n, 4),
    'status with bits above 1': lambda n: status(n, 0x8000000000000104, ONES),
    'status with all bits': lambda n: status(n, ONES, 1),
    'status of 15 bytes': lambda n: reply(n, 0x06, bytes(15)),
    'status of 17 bytes': lambda n: reply(n, 0x06, bytes(17)),
    'status of another command': lambda n: reply(n, 0x07, bytes(16)),
    '4,140 bytes and a 00': lambda n: bytes([9] * 4140) + b'\0',
    '4,141 bytes': lambda n: bytes([9] * 4141),
    '4,141 bytes and a 00': lambda n: bytes([9] * 4141) + b'\0',
    '4,200 bytes, a 00 and an answer': lambda n: bytes([9] * 4200) + b'\0' + reply(n, 0x0a, b'\0'),
}


def cells():
    """Every state against every frame and every call; then what goes out."""
    for state, begun in STATES.items():
        for what, of in FRAMES.items():
            c = begun(f'{state}, {what}')
            yield c.receive(of(c.main.newest)).state().send().send()
        for command in (0x01, 0x02, 0x06, 0x03, 0x08, 0x0a):
            yield begun(f'{state}, request {command:02x}').request(command).state().send()
        yield begun(f'{state}, interrupt').interrupt().state().send().interrupt().state().send()
        yield begun(f'{state}, no bytes').none().send()


def recoveries():
    for value in (0, 1, 2, 3, 4, 7):
        for first, begun in (('with an original', fetching), ('alone', fetching_alone)):
            c = begun(f'recovery from status {value} {first}')
            c.receive(status(c.main.newest, value)).send()
            if value & 1:
                c.receive(reply(c.main.newest, 0x55, b'any')).send().receive(status(c.main.newest, value & ~1)).send()
            if value & 2:
                c.receive(reply(c.main.newest, 0x07, b'\1text')).send().receive(status(c.main.newest, value & ~3)).send()
            yield c.receive(reply(c.main.newest, 0x0a, b'\0done')).send().request(0x03)
    c = fetching('a late reply to the old number')
    yield c.receive(reply(1, 0x0a, b'\0')).receive(status(2, 0)).send().receive(reply(1, 0x0a, b'\0')).receive(reply(3, 0x0a, b'\0'))
    c = waiting('two grounds, one resend')
    yield c.receive(b'\5\1\0').receive(b'\5\1\0').send().send().receive(reply(1, 0x0a))
    yield waiting('an answer while a resend waits').receive(b'\5\1\0').receive(reply(1, 0x0a)).send()
    yield waiting('an interrupt while a resend waits').receive(b'\5\1\0').interrupt().send().send()
    c = fetching('a bit that stays set')
    for number in range(2, 8):
        c.receive(status(number, 1) if number % 2 == 0 else reply(number, 0x01)).send()
    yield c
    c = Case("a caller's own status request")
    yield c.request(0x08).receive(reply(1, 0x07, b'x')).request(0x08).receive(status(2, 3)).send()


def sending():
    long = len(frame(2, 0x08))
    c = waiting('a room one byte short').interrupt()
    yield c.note().send(long - 1).same().send(long).same('changed').send()
    for n in (0, 1, 254, 4103, 4104):
        for data in (bytes(n), nonzero(n)):
            c = Case(f'{n} bytes of data, first {data[:1].hex() or "none"}')
            c.request(0x10, data).receive(b'\5\1\0').send()
            yield c.receive(reply(1, 0x0c, data)).send()
    c = Case('4,105 bytes of data')
    yield c.note().request(0x10, nonzero(4105)).same()
    whole = len(frame(1, 0x10, nonzero(100)))
    for room in (0, whole - 1, whole, whole + 1):
        yield Case(f'room of {room} for {whole}').note().request(0x10, nonzero(100), room).same('same' if room < whole else 'changed')


def orders():
    yield waiting('9 ahead of 17').note().request(0x10, nonzero(4105)).same()
    yield waiting('17 ahead of 14').number(LAST).note().request(0x03).same()
    yield waiting('17 ahead of 8').note().request(0x03, b'', 0).same()
    yield Case('14 ahead of 8').number(LAST).note().request(0x03, b'', 0).same()
    yield Case('9 ahead of 14').number(LAST).note().request(0x03, nonzero(4105)).same()
    yield waiting('12 ahead of 9').lend(requester=4117).note().request(0x10, nonzero(4105)).same()


def last_numbers():
    for back in (2, 1, 0):
        yield Case(f'request {back} below the last').number(LAST - back).request(0x03).send()
        yield Case(f'request 01 {back} below the last').number(LAST - back).request(0x01).request(0x01)
        yield Case(f'interrupt {back} below the last').number(LAST - back).note().interrupt().same('same' if back == 0 else 'changed').send()
        yield waiting(f'interrupt, waiting, {back} below the last').number(LAST - back).interrupt().send()
    yield waiting('waiting at the last number').number(LAST).receive(b'\5\1\0').send().receive(reply(LAST, 0x0a, b'\0')).request(0x03)
    for value in (0, 1, 2, 4):
        for first, begun in (('with an original', fetching), ('alone', fetching_alone)):
            c = begun(f'status {value} at the last number {first}').number(LAST)
            yield c.receive(b'\5\1\0').send().receive(status(LAST, value)).send().interrupt().request(0x03)
    yield acknowledging('acknowledged at the last number').number(LAST).receive(reply(LAST, 0x01)).send().request(0x03)
    yield alerting('alerted at the last number').number(LAST).receive(reply(LAST, 0x07, b'\1hot')).send().interrupt()
    yield acknowledging('interrupt in a recovery at the last number').number(LAST).note().interrupt().same().receive(b'\5\1\0').send()


def cuts():
    """A recovery's frames, cut at every byte; and byte by byte."""
    stream = status(2, 3) + reply(3, 0x01) + status(4, 2) + reply(5, 0x07, b'\1hot') + status(6, 0) + reply(7, 0x0a, b'\0')
    yield fetching('a whole recovery').receive(stream).send()
    yield fetching('a whole recovery, cut at every byte').cut(stream, range(len(stream) + 1))
    broken = stream[:20] + b'\7' + stream[21:]
    yield fetching('its first frame broken, cut at every byte').cut(broken, range(len(status(2, 3)) + 2))
    yield fetching('a whole recovery byte by byte').receive(stream, 'b').send()
    for at in (4139, 4140, 4141, 4142, 4199, 4200, 4201):
        yield waiting(f'an overlong frame cut at {at}').receive(bytes([9] * 4200) + b'\0' + reply(1, 0x0a, b'\0'), 'c', at).send()
    yield waiting('an overlong frame byte by byte').receive(bytes([9] * 4200) + b'\0' + reply(1, 0x0a, b'\0'), 'b').send()
    c = idle('an overrun before the request')
    yield c.receive(bytes([9] * 4150)).request(*REQUEST).receive(b'\0').send().receive(reply(1, 0x0a))
    c = idle('a frame begun before the request')
    yield c.receive(reply(1, 0x0a)[:9]).request(*REQUEST).receive(reply(1, 0x0a)[9:])
    yield waiting('empty frames around an answer').receive(bytes(3) + reply(1, 0x0a) + bytes(2))
    yield waiting('an answer of 4,104 bytes').receive(reply(1, 0x09, nonzero(4104))).receive(reply(1, 0x09))


def spoiled():
    """12 for each field, and nothing changes."""
    fields = [('number', 0, (LAST + 1).to_bytes(8, 'little'), (1).to_bytes(8, 'little')), ('step', 8, b'\4', b'\0'), ('unsent', 9, b'\2', b'\0'),
              ('kept', 10, b'\2', b'\1'), ('length', 12, (4105).to_bytes(2, 'little'), (3).to_bytes(2, 'little'))]
    fields += [('number 0', 0, bytes(8), (1).to_bytes(8, 'little'))]
    fields += [(f'command {c:02x}', 11, bytes([c]), b'\x0e') for c in (0x01, 0x02, 0x06)]
    for name, at, bad, good in fields:
        c = waiting(f'bad {name}').store(1, at, bad).note()
        c.refuses = True
        c.request(0x03).interrupt().send().state().receive(reply(1, 0x0a)).same()
        c.refuses = False
        yield c.store(1, at, good).state().receive(reply(1, 0x0a))
    c = fetching_alone('number 0 in a recovery').store(1, 0, bytes(8)).note()
    c.refuses = True
    c.request(0x03).interrupt().send().state().receive(status(1, 0)).same()
    c.refuses = False
    yield c.store(1, 0, (1).to_bytes(8, 'little')).receive(status(1, 0)).request(0x03)
    yield Case('number 0 with none outstanding').request(0x01).number(0).state().send().receive(reply(1, 0x0a)).request(0x03)
    c = waiting('bad count of the reader').store(0, 0, (4142).to_bytes(2, 'little')).note()
    c.refuses = True
    c.receive(reply(1, 0x0a)).same()
    c.refuses = False
    yield c.state().interrupt().send().start().request(0x03)
    for reader, requester in ((4141, 4118), (4142, 4117), (0, 0), (4142, 4118)):
        c = waiting(f'lent {reader} and {requester}').lend(reader, requester).note()
        short = requester < 4118
        c.refuses = short
        c.state().interrupt().send().state()
        c.refuses = short or reader < 4142
        yield c.receive(b'\0').start().lend().request(0x03)


def states():
    """What is outstanding, told before and after each frame goes out; the parts stay as they were."""
    yield idle('state, nothing asked').note().state().same().state()
    for command in (0x01, 0x02, 0x06, 0x03, 0xff):
        yield Case(f'state, request {command:02x}').request(command).note().state().same()
    for name, begun in STATES.items():
        c = begun(f'state, {name}, sent and resent').note().state().same()
        yield c.receive(b'\5\1\0').state().send(0).state().send().state()
    for first, begun in (('with an original', waiting), ('alone', idle)):
        c = begun(f'state, a whole recovery {first}').interrupt().state().send().state()
        for data in (lambda n: status(n, 3), lambda n: reply(n, 0x01), lambda n: status(n, 2), lambda n: reply(n, 0x07), lambda n: status(n, 0)):
            c.receive(data(c.main.newest)).state().send().state()
        yield c.receive(reply(c.main.newest, 0x0a, b'\0')).state().request(0x03).state()
    for first, begun in (('with an original', fetching), ('alone', fetching_alone)):
        c = begun(f'state, a recovery ended with 14 {first}').number(LAST).state()
        yield c.receive(status(LAST, 1)).state()
    yield waiting('state, at the last number').number(LAST).state().receive(reply(LAST, 0x0a, b'\0')).state()
    yield fetching('state, started anew').state().start().state()
    c = fetching('state, the reader not lent').lend(reader=0, requester=4118).note()
    c.refuses = False
    yield c.state().same()


def starts():
    yield waiting('a start gives up').start().send().request(0x03).receive(reply(1, 0x03, b'A'))
    yield fetching('a start ends a recovery').start().send().interrupt().send()
    yield waiting('a start drops what was read of a frame').receive(reply(1, 0x0a)[:-1]).start().request(0x03).receive(b'\0').send()


def cases():
    for group in (cells, recoveries, sending, orders, last_numbers, cuts, spoiled, states, starts):
        yield from group()


def texts():
    return common.texts(list(cases()))


if __name__ == '__main__':
    common.serve(__doc__, input=lambda: texts()[0], expected=lambda: texts()[1], check=lambda: common.compared('requester_cases', *texts()))
