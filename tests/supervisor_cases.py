#!/usr/bin/env python3
"""The program supervisor_cases: the supervisor's cases; and the program replay's input. Worked out from documents 01 and 02 and not from the Rattle code.

usage: tests/supervisor_cases.py input | expected | replay-input | replay-expected | check | replay

input:     the standard input of supervisor_cases, one command a line
expected:  what it must write, from the model of documents 01 and 02 below
replay-input, replay-expected:  the same for the program replay, whole
check:     compares these last two with crates/replay/stdin and crates/replay/stdout
replay:    what the replay program must write for this program's own standard input

Commands, one a line; HEX is pairs of hex digits with no space, COUNT and the like are decimal. PART is 0 to 4: reader,
outbox, factory store, settings store, registers; each has 9 bytes more than its published length. Every command but + * < v n m empties the piece.
= NAME     begins a case: fills the five parts with a5, zeros the start data, lends every part whole, empties the piece and the image
+ HEX      adds bytes to the piece
* HEX COUNT   adds one byte to the piece so often
< BACK COUNT   adds so many bytes of the piece from BACK bytes before its end on
I          makes the piece the image;  v COUNT: lends only its first COUNT bytes
d PLACE    puts the piece into the start data, which have the published layout of docs/STATE.md
n PART COUNT   lends so many bytes of the part from now on
i PART PLACE   stores the piece in the part
a          calls start
r          receives the piece by one call;  c COUNT: its first COUNT bytes, then the rest;  b: byte by byte;  q: by calls of step until it is used up
t COUNT    fills a room of 4,200 bytes with ee and takes into its first COUNT bytes; prints the bytes taken and the digest of the room
p ACTION   posts an alert with the piece as its text
o HEX      sets the options (16 digits)
l KEY COUNT   looks a key up with a maxresponse;  k KEY: asks for its edition
w COUNT    fills a room of 8,500 bytes with ee and saves the settings into its first COUNT bytes; prints the image and the digest of the room
x          restores the settings, with the piece as the image; prints a fault's number and offset
s  f       reads the line signal;  the two flags
e KIND     reads a record: 0 boot failure, 1 panic
m          notes the digest of each part;  g: prints whether all are as noted;  h: whether those of the two stores and the registers are
.          ends the case's line
Bytes are printed as their number, then, unless there are none, the first 48 in hex and the digest of all (that of tests/line_cases.py).
The layout of a part is used only where a case stores a field of docs/STATE.md itself."""
import sys
from collections import Counter

sys.dont_write_bytecode = True
import common
import line_cases
from line_cases import L12, MAGIC, body, digest, fletcher, last_ones, message, nonzero, stuffed, verdict

TOP = 1 << 63
ONES = (1 << 64) - 1
# limits: items of the inventory, bytes of an item's data and of the image ID; the longest value of each settings key, and the shortest where it is not 0
MOST_ITEMS, ITEM_DATA, IMAGE_ID = 64, 64, 64
KEYS = {3: 256, 4: 4096, 5: 4096, 6: 63}
SHORTEST = {6: 8}
HIGHEST_KEY = max(KEYS)
# set, and never read back
PASSPHRASE = 6
# the keys of a saved image
SAVED = {key: longest for key, longest in KEYS.items() if key != PASSPHRASE}
VERSIONS = (1, 2)
LAST_EDITION = (1 << 32) - 1
# the places of docs/STATE.md: the items, their count, the inventory's version, key 0; each setting with its flag, edition and length ahead of the value
ITEMS_OFFSET = 69 + IMAGE_ID
ITEM_LENGTH = 35 + ITEM_DATA
COUNT_OFFSET = ITEMS_OFFSET + MOST_ITEMS * ITEM_LENGTH
VERSION_OFFSET = COUNT_OFFSET + 4
PONG_OFFSET = VERSION_OFFSET + 4
SETTING_EDITION, SETTING_LENGTH, SETTING_HEAD = 1, 5, 7
SETTINGS = {key: sum(SETTING_HEAD + KEYS[k] for k in KEYS if k < key) for key in KEYS}
PARTS = ('reader', 'outbox', 'factory', 'settings', 'registers')
PUBLISHED = {'reader': 4142, 'outbox': 4147, 'factory': PONG_OFFSET + 4, 'settings': sum(SETTING_HEAD + n for n in KEYS.values()), 'registers': 3393}
SPARE = 9
ROOM = 4200
IMAGE_ROOM = 8500


def little(number, width):
    return number.to_bytes(width, 'little')


def framed(sequence, command, data=b'', version=1, magic=MAGIC):
    return stuffed(message(version, sequence, command, data, magic)) + b'\0'


def record(key, edition, value, mark=b'KV'):
    """A record of an image of the settings, whatever its key and its value's length."""
    out = mark + bytes([key]) + little(edition, 4) + little(len(value), 2) + value
    return out + little(fletcher(out), 2)


class Fault(Exception):
    """The first fault of an image: its number, and the offset of the field at fault."""


def image_records(image):
    """The records of an image, read forward field by field, as (key, edition, value); raises its first fault."""
    at = before = 0
    out = []

    def field(width):
        nonlocal at
        if len(image) - at < width:
            raise Fault(34, len(image))
        at += width
        return image[at - width:at]

    while True:
        begin = at
        mark = field(2)
        if mark == b'KE':
            break
        if mark != b'KV':
            raise Fault(30, begin)
        place = at
        key = field(1)[0]
        if key not in SAVED or key <= before:
            raise Fault(31, place)
        edition = int.from_bytes(field(4), 'little')
        place = at
        length = int.from_bytes(field(2), 'little')
        if length > SAVED[key]:
            raise Fault(32, place)
        value = field(length)
        place = at
        if int.from_bytes(field(2), 'little') != fletcher(image[begin:place]):
            raise Fault(33, place)
        out.append((key, edition, value))
        before = key
    if at < len(image):
        raise Fault(35, at)
    return out


class Start:
    """Start data."""

    def __init__(self, **given):
        self.bsu = 0x41
        self.model = self.serial = bytes(11)
        self.revision = self.count = self.stride = 0
        self.base = bytes(6)
        self.hash = bytes(32)
        self.image_id = b''
        self.items = []
        self.__dict__.update(given)
        self.counted = given.get('counted', len(self.items))

    def allowed(self):
        items = self.items[:self.counted]
        return self.counted <= MOST_ITEMS and all(len(d) <= ITEM_DATA and r in (0, 2, 3) for r, _, _, d in items) and len(self.image_id) <= IMAGE_ID and self.bsu in (0x41, 0x42)

    def record(self):
        """The published record; a length above its field's room stands alone."""
        out = bytes([self.bsu]) + self.model + little(self.revision, 4) + self.serial + self.base + little(self.count, 2) + bytes([self.stride]) + self.hash
        out += bytes([len(self.image_id)]) + self.image_id[:IMAGE_ID].ljust(IMAGE_ID, b'\0')
        for r, name, kind, d in self.items:
            out += bytes([r]) + name + bytes([kind, len(d)]) + d[:ITEM_DATA].ljust(ITEM_DATA, b'\0')
        return out.ljust(COUNT_OFFSET, b'\0') + little(self.counted, 4)


class Supervisor:
    """The supervisor of documents 01 and 02. A call that refuses is not made."""

    def __init__(self, data):
        self.data = data
        self.status, self.options = 1, 0
        self.flags = [0, 0]
        self.records = [None, None]
        self.settings = {}
        self.editions = Counter()
        self.alerts = []
        self.retained = None
        self.tail = self.pending = b''
        self.last = 0

    def receive(self, piece, image=b''):
        """What each 00 of the piece brings."""
        ends = []
        for b in piece:
            if b:
                self.tail += bytes([b])
            else:
                ends.append(self.end(image))
        return ends

    def end(self, image):
        form, self.tail = self.tail, b''
        what, *rest = verdict(form)
        if what == 'empty':
            return 'empty'
        failed = self.failed(*rest) if what == 'message' else (*rest, 1)
        if failed:
            reason, sequence, version = failed
            said, reply = f'failure {reason}', framed(ONES if sequence is None else sequence | TOP, 0x02, bytes([reason]), version)
        else:
            answer = self.request(*rest, image)
            said = self.served(rest[2], rest[3], answer)
            reply = b'' if answer is None else framed(rest[1] | TOP, *answer)
        self.pending = (b'\0' if self.last else b'') + reply
        return said

    @staticmethod
    def served(command, data, answer):
        """What is told of a valid request: its command; of a key set its key and the result in its reply."""
        return f'set {data[0]} {answer[1][0]}' if command == 0x10 else f'request {command}'

    def failed(self, version, sequence, command, data):
        """The reason, the sequence and the version of the reply to a message that is no valid request."""
        if version not in VERSIONS:
            return 5, sequence, 1
        if sequence & TOP:
            return 6, sequence, version
        none = range(0, 1)
        lengths = dict.fromkeys((1, 2, 3, 4, 5, 8, 9, 10), none)
        lengths.update({6: range(1, 4105), 7: range(2, 4105), 0x0d: (40,), 0x0e: (3,), 0x0f: (4,), 0x10: range(1, 4105)})
        if command not in lengths:
            return 3, None, 1
        if len(data) not in lengths[command]:
            return 7, sequence, version
        return None

    def request(self, version, sequence, command, data, image):
        """The reply's command, data and version, or None."""
        if command == 10:
            return self.alert(version, sequence)
        answer = self.answer(version, command, data, image)
        return answer and (*answer, version)

    def answer(self, version, command, data, image):
        """The reply's command and data, or None."""
        start = self.data
        number = lambda a, e: int.from_bytes(data[a:e], 'little')
        if command in (1, 2):
            self.flags[command - 1] = 1
            self.retained = None
            return None
        if command == 3:
            return 3, bytes([start.bsu])
        if command == 4:
            return 4, start.model + little(start.revision, 4) + start.serial
        if command == 5:
            return 5, start.base + little(start.count, 2) + bytes([start.stride])
        if command == 6:
            self.records[0] = (data[0], len(data) - 1, data[1:513])
            return None
        if command == 7:
            self.records[1] = (number(0, 2), len(data) - 2, data[2:514])
            return 1, b''
        if command == 8:
            return 6, little(self.status, 8) + little(self.options, 8)
        if command == 9:
            self.status &= ~1
            return 1, b''
        if command == 0x0d:
            offset = number(32, 40)
            return 9, image[offset:offset + 4096] if data[:32] == start.hash and offset < len(image) else b''
        if command == 0x0e:
            result, value = self.lookup(data[0], number(1, 3))
            edition = little(self.edition(data[0])[1], 4) if version == 2 and result == 0 else b''
            return 10, bytes([result]) + edition + value
        if command == 0x0f:
            if number(0, 4) >= len(start.items):
                return 11, b'\1' + bytes(33)
            result, name, kind, d = start.items[number(0, 4)]
            return 11, bytes([result]) + name + bytes([kind]) + (d if result == 0 else b'')
        return 12, bytes([self.set(data[0], data[1:])])

    def alert(self, version, sequence):
        """The reply that is retained with the sequence, as first written."""
        if self.retained is None or self.retained[0] != sequence:
            self.retained = sequence, (7, self.alerts.pop(0) if self.alerts else b'\0', version)
            if not self.alerts:
                self.status &= ~2
        return self.retained[1]

    def value(self, key):
        start = self.data
        fixed = {0: b'pong', 1: start.image_id, 2: little(len(start.items), 4) + little(0, 4)}
        return fixed[key] if key in fixed else self.settings.get(key)

    def lookup(self, key, most):
        if key > HIGHEST_KEY:
            return 1, b''
        if key == PASSPHRASE:
            return 4, b''
        value = self.value(key)
        if value is None:
            return 2, b''
        return (3, b'') if len(value) > most else (0, value)

    def edition(self, key):
        """A lookup's result whatever maxresponse is, and the edition."""
        if key > HIGHEST_KEY:
            return 1, 0
        if key == PASSPHRASE:
            return 4, 0
        return (2, 0) if self.value(key) is None else (0, self.editions[key])

    def set(self, key, value):
        if key > HIGHEST_KEY:
            return 1
        if key < 3:
            return 2
        if not SHORTEST.get(key, 0) <= len(value) <= KEYS[key]:
            return 3
        if self.editions[key] == LAST_EDITION:
            return 4
        self.settings[key] = value
        self.editions[key] += 1
        return 0

    def saved(self):
        return b''.join(record(key, self.editions[key], self.settings[key]) for key in SAVED if key in self.settings) + b'KE'

    def restore(self, image):
        read = image_records(image)
        for key in SAVED:
            self.settings.pop(key, None)
            self.editions.pop(key, None)
        self.settings.update((key, value) for key, _, value in read)
        self.editions.update({key: edition for key, edition, _ in read})

    def take(self, room):
        out, self.pending = self.pending[:room], self.pending[room:]
        if out:
            self.last = out[-1]
        return out


def shown(data):
    return f'{len(data)} {data[:48].hex()} {digest(data)}' if data else '0'


class Case(line_cases.Case):
    """A case with its commands, the model beside it, and the line that the program must print."""

    def __init__(self, name, data=None):
        super().__init__(name)
        self.model = Supervisor(Start())
        self.image = b''
        self.wrong = set(PARTS)
        self.short = set()
        self.sequence = 0
        if data is not None:
            self.start(data)

    def add(self, data):
        """Adds bytes: each run of 9 or more alike by one command, and so each run of 16 or more that stand ahead of it."""
        data = bytes(data)
        self.piece += data
        at = plain = 0
        while at < len(data):
            alike = len(data[at:]) - len(data[at:].lstrip(data[at:at + 1]))
            start = data.rfind(data[at:at + 16], 0, at + 15) if len(data) - at >= 16 else -1
            seen = 0
            while start >= 0 and at + seen < len(data) and data[start + seen] == data[at + seen]:
                seen += 1
            run = max(alike if alike > 8 else 0, seen)
            if run or at - plain == 32:
                self.plain(data[plain:at])
                plain = at + run
            if run:
                self.commands.append(f'* {data[at]:02x} {run}' if run == alike else f'< {at - start} {run}')
            at += max(run, 1)
        return self.plain(data[plain:])

    def plain(self, data):
        return self.tell('+ ' + data.hex()) if data else self

    def command(self, text, *parts):
        """Sends a call that is lent these parts; whether it is not refused as 12."""
        self.piece = b''
        self.commands.append(text)
        return not (self.short | self.wrong).intersection(parts)

    def start(self, data):
        self.add(data.record()).tell('d 0')
        self.command('a')
        if self.short:
            return self.say('refused 12')
        if not data.allowed():
            return self.say('refused 11')
        self.model = Supervisor(data)
        self.wrong = set()
        return self.say('started')

    def lend_image(self, image):
        self.add(image).tell('I')
        self.image, self.piece = image, b''
        return self

    def receive(self, data, how='r'):
        self.add(data)
        data = bytes(data)
        if not self.command(how, *PARTS):
            return self.say({'q': '0 refused 12', 'r': 'refused 12', 'b': 'refused 12'}.get(how, 'refused 12 refused 12'))
        if how == 'q':
            while True:
                end = data.find(0) + 1 or len(data)
                ends = self.model.receive(data[:end], self.image)
                self.say(f"{end} {ends[0] if ends else 'more'}")
                data = data[end:]
                if not data:
                    return self
        self.model.receive(data, self.image)
        return self.say('received received' if how[0] == 'c' else 'received')

    def take(self, room=ROOM):
        fine = self.command(f't {room}', 'outbox')
        out = self.model.take(room) if fine else b''
        return self.say((f'took {shown(out)}' if fine else 'refused 12') + f" {digest(out + bytes([0xee]) * (ROOM - len(out)))}")

    def send(self, command, data=b'', sequence=None, how='r', version=1):
        """A request, with the next sequence unless one is given, received whole."""
        if sequence is None:
            self.sequence += 1
            sequence = self.sequence
        return self.receive(framed(sequence, command, data, version), how)

    def ask(self, command, data=b'', sequence=None, how='r', version=1):
        return self.send(command, data, sequence, how, version).take()

    def ask_both(self, command, data=b''):
        """The same request in each version."""
        for version in VERSIONS:
            self.ask(command, data, version=version)
        return self

    def post(self, action, text=b''):
        self.add(text)
        fine = self.command(f'p {action}', 'registers')
        refusal = 12 if not fine else 13 if action == 0 else 9 if len(text) > 256 else 10 if len(self.model.alerts) == 8 else None
        if refusal:
            return self.say(f'refused {refusal}')
        self.model.alerts.append(bytes([action]) + text)
        self.model.status |= 2
        return self.say('posted')

    def set_options(self, options):
        fine = self.command(f'o {options:016x}', 'registers')
        refusal = 12 if not fine else 13 if options.bit_length() > 9 else None
        if refusal:
            return self.say(f'refused {refusal}')
        self.model.options = options
        return self.say('set')

    def lookup(self, key, most):
        if not self.command(f'l {key} {most}', 'factory', 'settings'):
            return self.say('refused 12 0')
        result, value = self.model.lookup(key, most)
        return self.say(f'result {result} {shown(value)}')

    def edition(self, key):
        if not self.command(f'k {key}', 'factory', 'settings'):
            return self.say('refused 12')
        result, edition = self.model.edition(key)
        return self.say(f'result {result}' if result else f'result 0 {edition}')

    def save(self, room=IMAGE_ROOM):
        fine = self.command(f'w {room}', 'settings')
        image = self.model.saved()
        out = image if fine and len(image) <= room else b''
        said = 'refused 12' if not fine else f'saved {shown(out)}' if out else 'refused 8'
        return self.say(f"{said} {digest(out + bytes([0xee]) * (IMAGE_ROOM - len(out)))}")

    def restore(self, image):
        self.add(image)
        if not self.command('x', 'settings'):
            return self.say('refused 12')
        try:
            self.model.restore(image)
        except Fault as fault:
            return self.say('refused {} {}'.format(*fault.args))
        return self.say('restored')

    def signal(self):
        fine = self.command('s', 'registers')
        return self.say('refused 12' if not fine else 'asserted' if self.model.status else 'clear')

    def flags(self):
        fine = self.command('f', 'registers')
        return self.say('flags {} {}'.format(*self.model.flags) if fine else 'refused 12')

    def record(self, kind):
        if not self.command(f'e {kind}', 'registers'):
            return self.say('refused 12 0')
        r = self.model.records[kind]
        return self.say('none 0' if r is None else f'record {r[0]} {r[1]} {len(r[2])} {shown(r[2])}')

    def mark(self):
        self.commands.append('m')
        return self

    def same(self):
        self.command('g')
        return self.say('same')

    def changed(self):
        self.command('g')
        return self.say('changed')

    def stores_same(self):
        self.command('h')
        return self.say('stores same')

    def lend(self, part, count=None):
        """Lends so many bytes of a part; all of them where no count is given."""
        count = PUBLISHED[part] + SPARE if count is None else count
        self.commands.append(f'n {PARTS.index(part)} {count}')
        self.short.discard(part)
        if count < PUBLISHED[part]:
            self.short.add(part)
        return self

    def store(self, part, place, data, wrong=True):
        """Stores bytes in a part; wrong: the part then holds what 12 refuses."""
        self.add(data).command(f'i {PARTS.index(part)} {place}')
        if wrong:
            self.wrong.add(part)
        return self

    def store_edition(self, key, edition):
        """Stores a key's edition; it counts on from there."""
        self.model.editions[key] = edition
        return self.store('settings', SETTINGS[key] + SETTING_EDITION, little(edition, 4), False)

    def local(self):
        """Every local call that only reads, and the status by the wire."""
        self.signal().flags().record(0).record(1)
        for key in range(8):
            self.lookup(key, 65535).edition(key)
        return self.ask(8)

    def calls(self, refused_only=False):
        """Every call but start; refused_only: those that are refused as 12."""
        wrong = self.short | self.wrong
        for parts, call in CALLS:
            if wrong.intersection(parts) or not refused_only:
                call(self)
        return self


# Every call but start, with the parts that it is lent.
CALLS = [(PARTS, lambda c: c.receive(L12).receive(L12, 'q').receive(L12, 'c 5').receive(L12, 'b').receive(b'').receive(b'', 'q')),
         (('outbox',), lambda c: c.take().take(3).take(0)),
         (('registers',), lambda c: c.post(1, b'text').post(0).post(1, nonzero(257)).set_options(1).set_options(512)),
         (('factory', 'settings'), lambda c: c.lookup(0, 4).lookup(9, 0).edition(0).edition(9)),
         (('settings',), lambda c: c.save().save(0).restore(b'').restore(b'\xff')),
         (('registers',), lambda c: c.signal().flags().record(0).record(1))]


def name(text):
    return text.encode('ascii').ljust(32, b'\0')


ITEMS = [(0, name('radio'), 7, nonzero(64)), (2, name('switch'), 9, nonzero(5)), (3, bytes(range(1, 33)), 255, b''), (0, name('led'), 0, b'')]
FULL = Start(bsu=0x42, model=b'OATCASTLE-1', revision=0x01020304, serial=b'S\0RIAL-0001', base=bytes.fromhex('0200000000fe'), count=0x1234, stride=5,
             hash=bytes(range(100, 132)), image_id=b'image id', items=ITEMS)
COMMANDS = {1: b'', 2: b'', 3: b'', 4: b'', 5: b'', 6: b'\x07rest', 7: b'\x00\xebrest', 8: b'', 9: b'', 10: b'', 0x0d: FULL.hash + bytes(8), 0x0e: b'\0\4\0',
            0x0f: bytes(4), 0x10: b'\3value'}
SEQUENCE = 0x0123456789abcdef


def line_samples():
    for how in ('r', 'b', 'q'):
        yield Case(f'L12 {how}', Start()).receive(L12, how).take()
        yield Case(f'L10 {how}', Start()).receive([2, 0], how).take()
        yield Case(f'L11 {how}', Start()).receive([1, 0], how).take()
        yield Case(f'L10, L12, L11 in one piece {how}', Start()).receive(b'\2\0' + L12 + b'\1\0', how).take()
        yield Case(f'L10, L11, L12 and spare terminators {how}', Start()).receive(b'\0\0\2\0\1\0\0' + L12 + b'\0\0', how).take()
    c = Case('L12 cut at every place', Start())
    for cut in range(len(L12) + 1):
        c.receive(L12, f'c {cut}').take()
    yield c
    c = Case('frames by step, each with its reply', Start())
    for data in (b'\2\0', L12, b'\0', b'\1\0', b'\1\1'):
        c.receive(data, 'q').take()
    yield c


def commands():
    for version in VERSIONS:
        c = Case(f'every command once in version {version}', FULL).lend_image(nonzero(5000)).post(5, b'alert text')
        for command, data in COMMANDS.items():
            c.ask(command, data, version=version)
        yield c.local()
        c = Case(f'every command in version {version}, in one piece', FULL).lend_image(nonzero(5000)).post(5, b'alert text')
        c.receive(b''.join(framed(i + 1, command, data, version) for i, (command, data) in enumerate(COMMANDS.items()))).take()
        yield c.local()
    yield Case('fresh state', Start()).local()
    c = Case('identity and addresses of the start data', FULL)
    yield c.ask(3).ask(4).ask(5).start(Start()).ask(3).ask(4).ask(5)
    c = Case('status and the line signal', Start()).signal().ask(8).ask(9).signal().ask(8).ask(9).post(1).signal().ask(8)
    yield c.ask(10).signal().ask(8).start(FULL).signal().ask(8)
    c = Case('reboot and power off', Start()).flags().ask(2).flags().ask(1).flags().ask(1).flags().ask(8)
    yield c.start(Start()).flags()
    yield Case('reboot alone', Start()).ask(1).flags()
    yield Case('what changes is seen', Start()).mark().same().post(1).changed().mark().set_options(1).changed().mark().ask(0x10, b'\3').changed().mark().start(FULL).changed()


def failures():
    wrong = {6: (0,), 7: (0, 1), 0x0d: (0, 39, 41, 4104), 0x0e: (0, 2, 4, 4104), 0x0f: (0, 3, 5, 4104), 0x10: (0,)}
    for version in VERSIONS:
        c = Case(f'wrong data lengths in version {version}', FULL).post(9, b'waits').ask(0x10, b'\3value').mark()
        for command, data in COMMANDS.items():
            for n in wrong.get(command, (1, 2, 40, 4104)):
                c.ask(command, (data + nonzero(4104))[:n], version=version)
        yield c.stores_same().local()
    c = Case('unknown commands', FULL).mark()
    for command in (0x00, 0x0b, 0x0c, 0x11, 0x7f, 0x80, 0xff):
        c.ask_both(command).ask_both(command, nonzero(40))
    yield c.stores_same()
    c = Case('versions', FULL).mark()
    for version in (0, 3, 0x101, 0x102, 0x01000000, 0x02000000, 0xffffffff):
        for sequence in (0, SEQUENCE, SEQUENCE | TOP):
            c.receive(framed(sequence, 1, b'', version)).take()
    yield c.stores_same()
    c = Case('top bit of the sequence', FULL).mark()
    for sequence in (TOP - 1, TOP, TOP + 1, ONES):
        for version in VERSIONS:
            c.ask(3, b'', sequence, version=version)
    yield c.stores_same()
    c = Case('magic', FULL).mark()
    for magic in (0, MAGIC ^ 1, MAGIC ^ TOP >> 32, 0xcc19de01):
        for sequence in (7, ONES):
            c.receive(framed(sequence, 1, b'', 1, magic)).take()
    yield c.stores_same()
    c = Case('checksum', FULL).mark()
    b = body(1, SEQUENCE, 1, b'')
    for flipped in range(16):
        c.receive(stuffed(b + little(fletcher(b) ^ 1 << flipped, 2)) + b'\0').take()
    yield c.stores_same()
    c = Case('the first failing test speaks', FULL).mark()
    for version in (1, 2, 3):
        for sequence in (SEQUENCE, SEQUENCE | TOP):
            for command in (8, 0x0b):
                for data in (b'', b'x'):
                    for magic in (MAGIC, 1):
                        for damage in (0, 1):
                            b = body(version, sequence, command, data, magic)
                            c.receive(stuffed(b + little(fletcher(b) ^ damage, 2)) + b'\0').take()
    yield c.stores_same()
    c = Case('a failed frame changes no more than the pending reply', FULL).post(3, b'text').ask(0x10, b'\3value').ask(10).mark()
    # a panic record whose form ends with a full group, and a last 01
    panic = framed(0x0102030405060708, 7, nonzero(243))[:-1]
    assert panic[-255] == 255 and 0 not in panic
    for frame in (b'\2', b'\1', panic + b'\1', framed(9, 1)[:-3] + b'\1\1', framed(9, 1, b'', 3)[:-1], framed(TOP, 1)[:-1], framed(9, 0x0b)[:-1], framed(9, 1, b'x')[:-1], b'\1' * 4141):
        c.receive(frame + b'\0').take()
    yield c.stores_same().ask(10, b'', 2)


def lengths():
    for n in (4139, 4140, 4141, 4142, 8000):
        for how in ('r', 'b', 'q', 'c 4140', 'c 4141'):
            if n <= int(how[2:] or 0):
                continue
            yield Case(f'{n} bytes before the 00 {how}', Start()).receive(b'\1' * n + b'\0', how).take().receive(L12).take()
    yield Case('4141 bytes, then a frame in the same piece', Start()).receive(b'\1' * 4141 + b'\0' + L12).take()
    yield Case('4141 bytes answered once, at the 00', Start()).receive(b'\1' * 4141).take().receive(b'\1' * 4141).take().receive(b'\0').take().receive(b'\0').take()
    short = body(1, 7, 8, b'')[:16]
    yield Case('message of 18 bytes', Start()).receive(stuffed(short + little(fletcher(short), 2)) + b'\0').take()
    yield Case('message of 19 bytes', Start()).ask(8)
    for first in (b'\6', b'\7', b'\x10'):
        for data in (nonzero(4104), bytes(4104), b'\xff' * 4104, b'\4' + bytes(4103)):
            frame = framed(SEQUENCE, first[0], data)
            yield Case(f'message of 4123 bytes, command {first.hex()}, first data byte {data[:1].hex()}, {len(frame)} in the frame', Start()).receive(frame).take().record(0).record(1).lookup(4, 65535)
    long = message(1, 7, 6, bytes(4105))
    assert len(long) == 4124 and len(stuffed(long)) <= 4140
    yield Case('message of 4124 bytes', Start()).receive(stuffed(long) + b'\0').take().record(0)
    for name, form in last_ones():
        yield Case(name, Start()).receive(form + b'\0').take().receive(L12).take()
    frame = framed(0x0102030405060708, 7, nonzero(243))
    yield Case('panic that ends with a full group, with a last 01 and without', Start()).receive(frame[:-1] + b'\1\0').take().record(1).receive(frame).take().record(1)


def keys():
    c = Case('maxresponse for key 0', Start())
    for most in (0, 3, 4, 5, 65535):
        c.lookup(0, most).ask_both(0x0e, b'\0' + little(most, 2))
    yield c
    for size in (0, 1, 63, 64):
        c = Case(f'image ID of {size} bytes', Start(image_id=nonzero(size)))
        for most in (0, size - 1, size, size + 1):
            if most >= 0:
                c.lookup(1, most).ask_both(0x0e, b'\1' + little(most, 2))
        yield c
    for items in ([], ITEMS, ITEMS * 4):
        c = Case(f'key 2 with {len(items)} items', Start(items=items))
        for most in (7, 8):
            c.lookup(2, most).ask_both(0x0e, b'\2' + little(most, 2))
        yield c
    for key, most in KEYS.items():
        c = Case(f'key {key} at {most} and {most + 1} bytes', Start()).lookup(key, 65535).ask(0x0e, bytes([key]) + b'\xff\xff')
        value = bytes([key]) + nonzero(most)
        c.ask(0x10, value + b'x').lookup(key, 65535).ask(0x10, value).lookup(key, most - 1).lookup(key, most)
        for n in (most - 1, most, 65535):
            c.ask_both(0x0e, bytes([key]) + little(n, 2))
        c.mark().ask(0x10, value + b'x').stores_same().ask(0x10, value[:-1]).lookup(key, most).ask(0x10, bytes([key])).lookup(key, 0)
        yield c.ask(0x0e, bytes([key, 0, 0])).ask(0x10, bytes([key]) + b'short').lookup(key, 4).lookup(key, 5).lookup(key, 65535)
    c = Case('keys that cannot be set', FULL).mark()
    for key in (0, 1, 2, 7, 8, 255):
        c.ask_both(0x10, bytes([key])).ask(0x10, bytes([key]) + nonzero(9)).ask(0x10, bytes([key]) + nonzero(4103)).ask_both(0x0e, bytes([key]) + b'\xff\xff')
        c.lookup(key, 0).lookup(key, 65535).edition(key)
    yield c.stores_same()
    c = Case('each setting keeps its own value', Start())
    for key, most in KEYS.items():
        c.ask(0x10, bytes([key]) + bytes([key + 16]) * most)
    yield c.local().ask(0x10, b'\4').local().start(Start()).local()
    c = Case('a value of zeros and one of ff', Start()).ask(0x10, b'\4' + bytes(4096)).ask(0x0e, b'\4\0\x10').ask(0x10, b'\4' + b'\xff' * 4096)
    yield c.ask(0x0e, b'\4\0\x10').lookup(4, 4096)
    c = Case('longest key set', Start())
    for key in KEYS:
        c.ask(0x10, bytes([key]) + nonzero(4103)).lookup(key, 65535)
    yield c


def editions():
    c = Case('keys without a value, and after one set and two', FULL)
    for sets in range(3):
        for key in (*range(8), 255):
            c.edition(key).ask_both(0x0e, bytes([key]) + b'\xff\xff')
        for key in KEYS:
            c.ask(0x10, bytes([key]) + nonzero(sets), version=1 + sets % 2)
    yield c.start(FULL).local()
    c = Case('each key counts its own sets, in either version', Start())
    for key in KEYS:
        for n in range(key):
            c.ask(0x10, bytes([key]) + nonzero(n), version=1 + n % 2).edition(key)
    for key in KEYS:
        c.ask_both(0x0e, bytes([key]) + b'\xff\xff')
    yield c.local()
    c = Case('a refused set does not count', Start()).ask(0x10, b'\3once').ask(0x10, b'\5once').mark()
    for key in (*range(3), 7, 8, 255):
        c.ask_both(0x10, bytes([key]) + b'x')
    for key, most in KEYS.items():
        c.ask_both(0x10, bytes([key]) + nonzero(most + 1)).edition(key)
    yield c.stores_same().local()
    for key, most in KEYS.items():
        past, data = bytes([key]) + nonzero(most + 1), bytes([key]) + b'last'.ljust(SHORTEST.get(key, 0), b'.')
        c = Case(f"the last edition of key {key}", FULL).ask(0x10, data).store_edition(key, LAST_EDITION - 1).edition(key).ask(0x0e, bytes([key]) + b'\4\0', version=2)
        c.ask_both(0x10, past).ask(0x10, data + b' of all').edition(key).ask_both(0x0e, bytes([key]) + b'\xff\xff').mark()
        c.ask_both(0x10, data).ask_both(0x10, bytes([key])).ask_both(0x10, data[:1] + nonzero(most)).ask_both(0x10, past).stores_same()
        for other in KEYS:
            c.ask(0x10, bytes([other]) + b'the other').edition(other)
        yield c.local().start(FULL).ask(0x10, data).local()
        c = Case(f'key {key}: each byte of the edition', Start()).ask(0x10, data)
        for edition in (0xff, 0xffff, 0xffffff, 0x01020304, 0xfffffffe):
            c.store_edition(key, edition).ask(0x10, data).edition(key).ask(0x0e, bytes([key]) + b'\xff\xff', version=2)
        yield c
    for value in (nonzero(4096), bytes(4096), b'\xff' * 4096):
        c = Case(f'key 4 at 4096 bytes in version 2, first byte {value[:1].hex()}', Start()).ask(0x10, b'\4' + value, version=2)
        yield c.ask(0x0e, b'\4' + little(4096, 2), version=2).ask(0x0e, b'\4' + little(4095, 2), version=2).store_edition(4, LAST_EDITION).ask(0x0e, b'\4\0\x10', version=2)


def passphrase():
    key = bytes([PASSPHRASE])

    def asked(case):
        for most in (0, 8, 63, 65535):
            case.lookup(PASSPHRASE, most).ask_both(0x0e, key + little(most, 2))
        return case.edition(PASSPHRASE)

    for size in (0, 7, 8, 63, 64, 4103):
        c = asked(Case(f'a passphrase of {size} bytes', FULL)).mark().ask_both(0x10, key + nonzero(size))
        c = asked(c if 8 <= size <= 63 else c.stores_same()).mark().ask_both(0x10, key + bytes(7)).ask_both(0x10, key + bytes(64)).stores_same()
        yield asked(c.ask(0x10, key + bytes(8))).start(FULL).local()
    c = Case('a passphrase changes its own setting alone', Start())
    for other in KEYS:
        c.ask(0x10, bytes([other]) + bytes([other]) * 20)
    yield c.ask(0x10, key + nonzero(63)).ask(0x10, key + nonzero(8)).local().mark().ask(0x10, key + nonzero(64)).stores_same().local()
    c = Case('wrong lengths at the last edition of the passphrase', FULL).ask(0x10, key + nonzero(8)).store_edition(PASSPHRASE, LAST_EDITION).mark()
    for size in (0, 7, 8, 63, 64):
        c.ask_both(0x10, key + nonzero(size))
    yield c.stores_same().local()
    image = record(3, 1, b'a') + record(4, 2, b'b') + record(5, 3, b'c')
    c = Case('images leave the passphrase alone', FULL).ask(0x10, key + nonzero(20)).restore(image + b'KE').save().mark()
    c.restore(image + record(PASSPHRASE, 4, nonzero(8)) + b'KE').restore(record(PASSPHRASE, 4, nonzero(8)) + b'KE')
    yield c.stores_same().restore(b'KE').save().restore(image + b'KE').stores_same()


def saving():
    """Document 02's item 11."""
    values = {3: b'one', 4: b'', 5: b'\0\xff\0'}
    image = b''.join(record(key, edition, values[key]) for key, edition in ((3, 7), (4, 0), (5, LAST_EDITION))) + b'KE'
    c = Case('saved as set', FULL).save().save(2).save(1).save(0)
    for key in (5, 3, 4, 3):
        c.ask(0x10, bytes([key]) + values[key]).save()
    size = len(c.model.saved())
    yield c.save(size - 1).save(size).save(size + 1)
    c = Case('restored, saved and set', FULL).restore(image).save().local()
    yield c.ask(0x10, b'\3x').ask(0x10, b'\4x').ask(0x10, b'\5x').edition(5).save().restore(b'KE').save().local().ask(0x10, b'\5x').edition(5)
    c = Case('every prefix of an image', Start()).ask(0x10, b'\3old').ask(0x10, b'\5old').mark()
    for n in range(len(image)):
        c.restore(image[:n])
    yield c.same().restore(image).save()
    for place, byte in enumerate(image):
        c = Case(f'byte {place} of an image changed', Start()).ask(0x10, b'\4old')
        for other in sorted({byte ^ 1, byte ^ 0x80, 0, 255} - {byte}):
            c.restore(image[:place] + bytes([other]) + image[place + 1:]).save()
        yield c
    for key, longest in SAVED.items():
        c = Case(f'limits of key {key}', Start()).restore(record(key, 1, b'a' * longest) + b'KE').save().mark()
        over = record(key, 2, b'a' * (longest + 1))
        yield c.restore(over + b'KE').restore(over[:9]).restore(over[:8]).restore(over[:7]).same()
    whole = b''.join(record(key, key, bytes([key]) * longest) for key, longest in SAVED.items()) + b'KE'
    yield Case('the longest image', Start()).restore(whole).save(len(whole) - 1).save(len(whole)).save(len(whole) + 1).local()
    c = Case('keys', Start()).ask(0x10, b'\4old').mark()
    for pair in ((3, 3), (5, 4), (4, 3), (4, 4), (5, 5), (2, 3), (0, 3), (3, 6), (6, 7), (255, 3)):
        c.restore(record(pair[0], 1, b'a') + record(pair[1], 2, b'b') + b'KE')
    yield c.same().restore(record(3, 1, b'a') + record(5, 2, b'b') + b'KE').save()
    c = Case('the first fault speaks', Start()).ask(0x10, b'\3old').mark()
    first = record(3, 1, b'a')
    for bad in (b'', b'\xff', b'\xff\xff', b'K', b'KV', b'KE\0', b'KEKE', b'KV\2', b'KV\xff', b'EK', b'VK', b'ke'):
        c.restore(bad).restore(first + bad)
    c.restore(first).restore(record(3, 1, b'a', b'KW') + b'KE').restore(first[:2] + b'\2' + first[3:] + b'KE').restore(first[:-1] + bytes([first[-1] ^ 1]))
    # the checksum of the record without its mark, and its two bytes exchanged
    yield c.restore(first[:-2] + little(fletcher(first[2:-2]), 2) + b'KE').restore(first[:-2] + first[:-3:-1] + b'KE').same()
    for edition in (0, 1, LAST_EDITION - 1, LAST_EDITION):
        c = Case(f'edition {edition} restored', Start()).restore(record(4, edition, b'v') + b'KE').edition(4).save()
        for _ in range(2):
            c.ask(0x10, b'\4w').edition(4)
        yield c.ask(0x0e, b'\4\xff\0', version=2).save()
    c = Case('an edition that falls', Start())
    for _ in range(3):
        c.ask(0x10, b'\3v')
    yield c.restore(record(3, 1, b'w') + b'KE').edition(3).ask(0x10, b'\3x').edition(3).edition(4)
    c = Case('what a restore leaves as it is', FULL).post(1, b'a').post(2, b'b').set_options(5).ask(10).send(0x0e, b'\0\4\0').take(3).receive(L12[:9])
    yield c.restore(image).take().receive(L12[9:]).take().ask(10, b'', 1).ask(10).local()
    c = Case('short settings', Start()).ask(0x10, b'\3v').mark()
    for n in (PUBLISHED['settings'] - 1, 0):
        c.lend('settings', n).save().restore(image).restore(b'')
    yield c.same().lend('settings', PUBLISHED['settings']).save().restore(image).save()
    # a restore takes a value away, and its edition and length with it
    c = Case('a value taken away', Start()).ask(0x10, b'\4v').ask(0x10, b'\4w').edition(4).restore(b'KE').edition(4).save()
    yield c.ask(0x10, b'\4v').edition(4).save()


def steps():
    """What a step says of each request that it carried out."""
    for version in VERSIONS:
        c = Case(f'steps of every command in version {version}', FULL).lend_image(nonzero(5000)).post(5, b'alert text')
        for command, data in COMMANDS.items():
            c.ask(command, data, how='q', version=version)
        yield c.receive(b'\0', 'q').ask(3, b'x', how='q', version=version).ask(0x0b, how='q', version=version).ask(1, how='q', version=3).local()
    for key in (*range(8), 16, 255):
        c = Case(f'steps of sets of key {key}', Start())
        for n in (0, 7, 8, 63, 64, 256, 257, 4096, 4097):
            c.ask(0x10, bytes([key]) + nonzero(n), how='q').ask(0x0e, bytes([key]) + b'\xff\xff', how='q')
        if key in KEYS:
            c.store_edition(key, LAST_EDITION).ask(0x10, bytes([key]) + nonzero(8), how='q').ask(0x10, bytes([key]) + nonzero(4097), how='q')
        yield c.ask(0x10, b'', how='q')
    sets = [framed(i + 1, 0x10, data) for i, data in enumerate((b'\3value', b'\2x', b'\7x', b'\6short', b'\6' + nonzero(8)))]
    others = [b'\0', framed(9, 1), b'\2\0', framed(10, 0x0e, b'\3\4\0'), framed(11, 8)]
    yield Case('steps through one piece', Start()).receive(b''.join(a + b for a, b in zip(sets, others)), 'q').take().local()


def inventory():
    last = (0, b'\xff' * 32, 255, b'\0' * ITEM_DATA)
    for items in ([], ITEMS[:1], ITEMS, (ITEMS * 4)[:15] + [last], (ITEMS * MOST_ITEMS)[:MOST_ITEMS - 1] + [last]):
        c = Case(f'inventory of {len(items)} items', Start(items=items))
        for index in (0, 1, 2, 3, 4, 14, 15, 16, 17, MOST_ITEMS - 1, MOST_ITEMS, MOST_ITEMS + 1, 255, 256, 65536, 1 << 31, (1 << 32) - 1):
            c.ask(0x0f, little(index, 4))
        yield c


def alerts():
    c = Case('alerts 8 and 9', Start())
    for i in range(8):
        c.post(i + 1, nonzero(i))
    c.mark().post(9, b'nine').same().ask(8).ask(10).ask(8).post(9, b'nine').mark().post(10).same()
    for i in range(9):
        c.ask(10)
    yield c.ask(8).post(11).ask(10)
    c = Case('alerts of every length', Start())
    for n in (0, 1, 255, 256):
        c.post(255, nonzero(n)).mark().post(255, nonzero(257)).same().post(1, bytes(n))
    for n in range(9):
        c.ask(10)
    yield c
    yield Case('refused alerts', Start()).mark().post(0).post(0, nonzero(257)).post(1, nonzero(257)).post(1, nonzero(600)).same().ask(10)
    c = Case('refused alerts where 8 wait', Start())
    for i in range(8):
        c.post(i + 1)
    yield c.mark().post(0).post(0, nonzero(257)).post(1, nonzero(257)).post(1).same()
    c = Case('a resent alert request', Start()).post(1, b'first').post(2, b'second').ask(10, b'', 5).mark().ask(10, b'', 5).stores_same()
    c.ask(8, b'', 6).ask(3, b'', 7).mark().receive(b'\2\0').take().ask(10, b'x', 5).ask(10, b'', 5).stores_same().ask(10, b'', 8).ask(10, b'', 8)
    yield c.ask(10, b'', 5).ask(10, b'', 8).post(3, b'third').ask(10, b'', 8).ask(8).ask(10, b'', 5)
    yield Case('a resent alert request, the reply half taken', Start()).post(1, b'first').send(10, b'', 5).take(7).mark().send(10, b'', 5).stores_same().take().ask(8)
    yield Case('a resent alert request that found none', Start()).ask(10, b'', 5).post(1, b'first').ask(10, b'', 5).ask(8).ask(10, b'', 6).ask(8)
    yield Case('sequence 0 before any alert request', Start()).post(1, b'first').ask(10, b'', 0).ask(10, b'', 0).ask(10, b'', 1)
    yield Case('the highest sequence', Start()).post(1, b'first').ask(10, b'', TOP - 1).ask(10, b'', TOP - 1).ask(10, b'', ONES)
    yield Case('start forgets the retained reply', Start()).post(1, b'first').post(2).ask(10, b'', 5).start(Start()).ask(10, b'', 5).post(3).ask(10, b'', 5).ask(10, b'', 6)
    for command, name in ((1, 'reboot'), (2, 'power off')):
        c = Case(f'{name} drops the retained reply', Start()).post(1, b'before').post(2, b'after').post(3, b'later').ask(10, b'', 1).mark().ask(command, b'', 2)
        yield c.changed().signal().ask(8).ask(10, b'', 1).ask(10, b'', 1).ask(8).flags().ask(10, b'', 3).ask(8)
        yield Case(f'{name} where none waits', Start()).post(1, b'before').ask(10, b'', 1).ask(command, b'', 2).ask(10, b'', 1).ask(8)
        c = Case(f'{name} that is not valid keeps the retained reply', Start()).post(1, b'before').post(2, b'after').ask(10, b'', 1).mark()
        yield c.ask(command, b'\0', 2).ask(command, b'', TOP | 2).receive(framed(2, command, b'', version=3)).take().stores_same().ask(10, b'', 1)
        yield Case(f'{name} with nothing retained', Start()).post(1, b'waits').ask(command, b'', 1).ask(10, b'', 1).ask(10, b'', 1)
    for first, second in ((1, 2), (2, 1)):
        c = Case(f'an alert asked for in version {first} and again in {second}', Start()).post(1, b'first').post(2, b'second').ask(10, b'', 5, version=first).mark()
        c.ask(10, b'', 5, version=second).ask(10, b'', 5, version=first).ask(10, b'', 5, 'b', version=second).ask(8, version=second).stores_same()
        yield c.ask(10, b'', 6, version=second).ask(10, b'', 6, version=first).ask(1, version=first).ask(10, b'', 6, version=first).ask(10, b'', 6, version=second)
        c = Case(f'no alert, asked for in version {first} and again in {second}', Start()).ask(10, b'', 5, version=first).post(1, b'waits').mark()
        yield c.ask(10, b'', 5, version=second).stores_same().ask(10, b'', 6, version=second).ask(10, b'', 6, version=first)
        c = Case(f'a stored reply of version {first}', Start()).store('registers', 3125, bytes([first]) + little(5, 8) + two(4) + b'\7text', False).mark()
        c.model.retained = 5, (7, b'\7text', first)
        yield c.ask(10, b'', 5, version=second).ask(10, b'', 5, version=first).stores_same().ask(10, b'', 6, version=second)
    c = Case('room freed by a taken alert', Start())
    for i in range(30):
        c.post(i + 1, nonzero(i * 8))
        if i % 3:
            c.ask(10)
    yield c.ask(8)


def options():
    c = Case('option bits', Start())
    for value in (0, 1, 0x100, 0x1ff, 0x200, 0x201, 0x3ff, 0x400, 1 << 32, TOP, ONES, 0xff):
        c.mark().set_options(value)
        if value >= 512:
            c.same()
        c.ask(8)
    yield c.start(Start()).ask(8)


def records():
    for command, head in ((6, 1), (7, 2)):
        for size in (0, 1, 511, 512, 513, 1000, 4104 - head):
            yield Case(f'record of {size} bytes, command {command}', Start()).ask(command, b'\7\xeb'[:head] + nonzero(size)).record(0).record(1)
        c = Case(f'a newer record, command {command}', Start())
        for size in (600, 3, 0, 512, 5):
            c.ask(command, b'\1\2'[:head] + bytes([size % 251]) * size).record(0).record(1)
        yield c.start(Start()).record(0).record(1)
    c = Case('unlisted reasons and causes', Start())
    for code in (0, 1, 0x7f, 0x80, 0xff):
        c.ask(6, bytes([code])).record(0)
    for code in (0, 1, 0xff, 0x100, 0xeb00, 0x00eb, 0xffff):
        c.ask(7, little(code, 2)).record(1)
    yield c
    yield Case('a record of zeros, and one of ff', Start()).ask(6, bytes(600)).record(0).ask(7, b'\xff' * 700).record(1).record(0)


def images():
    block = lambda offset, hash=FULL.hash: hash + little(offset, 8)
    for size in (0, 1, 4095, 4096, 4097, 8192, 8200):
        c = Case(f'image of {size} bytes', FULL).lend_image(nonzero(size))
        for offset in sorted({0, 1, max(size - 4097, 0), max(size - 4096, 0), max(size - 4095, 0), max(size - 1, 0), size, size + 1, 65536, (1 << 32) - 1, 1 << 32, TOP, ONES}):
            c.ask(0x0d, block(offset))
        yield c
    c = Case('foreign hash', FULL).lend_image(nonzero(100))
    for k in (0, 15, 31):
        c.ask(0x0d, block(0, FULL.hash[:k] + bytes([FULL.hash[k] ^ 1]) + FULL.hash[k + 1:]))
    yield c.ask(0x0d, block(0, bytes(32))).ask(0x0d, block(0))
    yield Case('image of zeros', FULL).lend_image(bytes(8200)).ask(0x0d, block(0)).ask(0x0d, block(8000))
    yield Case('hash of zeros', Start()).lend_image(nonzero(50)).ask(0x0d, bytes(40))
    frame = framed(1, 0x0d, block(2))
    c = Case('the image lent with the call that brings the 00', FULL).lend_image(nonzero(40))
    for end, count in ((len(frame), 40), (len(frame), 3), (len(frame), 0), (len(frame) - 1, 0), (len(frame) - 1, 20)):
        c.tell('v 40').image = nonzero(40)
        c.receive(frame[:end])
        c.tell(f'v {count}').image = nonzero(count)
        c.receive(frame[end:] or b'\0').take()
    yield c


def sending():
    reply = len(framed(1 | TOP, 6, little(1, 16)))
    for taken in (0, 1, 2, reply - 2, reply - 1, reply):
        for then, data in (('a request', framed(2, 3)), ('a request without a reply', framed(2, 1)), ('a failure', b'\2\0'), ('an empty frame', b'\0\0')):
            yield Case(f'{taken} of {reply} bytes taken, then {then}', Start()).send(8).take(taken).receive(data).take().take().ask(3)
    c = Case('the 00 alone, taken by itself', Start()).send(8).take(5).send(1).take(0).take(1).take(1).ask(3)
    yield c
    c = Case('the 00 not taken before the next request', Start()).send(8).take(5).send(3).take(0).send(1).take(0).send(3).take(1).send(3).take()
    yield c
    c = Case('the 00 taken, its reply not', Start()).send(8).take(5).send(3).take(1).send(8).take(2).send(2).take(2).ask(8)
    yield c
    c = Case('a reply taken byte by byte', Start()).send(8)
    for i in range(reply + 2):
        c.take(1)
    yield c
    c = Case('a reply unsent is discarded', Start())
    yield c.send(8).send(3).send(4).take().send(8).send(1).take().send(8).receive(b'\1\0').take()
    c = Case('empty frames discard nothing', Start()).send(8).receive(b'\0').receive(b'\0\0', 'q').take(5).receive(b'\0', 'b').take(5).receive(b'\0\0\0')
    yield c.take().receive(b'\0').take()
    yield Case('an unfinished frame discards nothing', Start()).send(8).take(5).receive(L12[:-1]).take(5).receive(L12[-1:]).take()
    c = Case('the longest reply and rooms', FULL).lend_image(nonzero(4096)).send(0x0d, FULL.hash + bytes(8))
    yield c.take(4000).send(0x0d, FULL.hash + bytes(8)).take(4096).take(ROOM).take(ROOM)
    c = Case('the longest reply half taken each time', FULL).lend_image(b'\xff' * 4096)
    for i in range(3):
        c.send(0x0d, FULL.hash + bytes(8)).take(2000 + i)
    yield c.take()
    yield Case('a room longer and shorter than the reply', Start()).send(8).take(36).take(36).send(8).take(37).take(0).send(8).take(38).take(0)
    yield Case('several frames in one piece, one reply', Start()).send(8).take(4).receive(framed(1, 3) + framed(2, 4) + framed(3, 8)).take()
    yield Case('start forgets what was taken', Start()).send(8).take(4).start(Start()).take().ask(8)
    yield Case('nothing pending', Start()).take(0).take(1).take().mark().receive(b'').receive(b'', 'b').receive(b'', 'q').take(9).same()


def again():
    c = Case('start within a frame', FULL).receive(L12[:9]).start(FULL).receive(L12).take()
    yield c
    c = Case('start in the middle of everything', FULL).lend_image(nonzero(100)).post(1, b'x').post(2, b'y').set_options(3)
    for command, data in COMMANDS.items():
        c.ask(command, data)
    yield c.send(8).take(9).receive(b'\7\7').start(Start(image_id=b'another')).take().local().ask(10).ask(0x0f, bytes(4)).start(FULL).local()
    yield Case('bytes that no call left').mark().calls().same().start(Start()).local()


def start_data():
    long = (0, name('long'), 1, nonzero(65))
    odd = lambda r: (r, name('odd'), 1, b'data')
    many = (ITEMS * MOST_ITEMS)[:MOST_ITEMS]
    bad = {f'{MOST_ITEMS + 1} items': Start(items=many, counted=MOST_ITEMS + 1), '2 to the 24th items': Start(items=many, counted=1 << 24), '2 to the 32nd less 1 items': Start(counted=(1 << 32) - 1),
           'first item data of 65 bytes': Start(items=[long]), 'last item data of 65 bytes': Start(items=many[:-1] + [long]), 'item data of 255 bytes': Start(items=ITEMS + [(0, bytes(32), 0, nonzero(255))]),
           'image ID of 65 bytes': Start(image_id=nonzero(65)), 'image ID of 255 bytes': Start(image_id=nonzero(255))}
    for bsu in (0x00, 0x40, 0x43, 0xff):
        bad[f'BSU {bsu:02x}'] = Start(bsu=bsu)
    for result in (1, 4, 255):
        bad[f'result {result} in the first item'] = Start(items=[odd(result)])
        bad[f'result {result} in the last of {MOST_ITEMS} items'] = Start(items=many[:-1] + [odd(result)])
    for what, data in bad.items():
        assert not data.allowed()
        c = Case(f'start data: {what}', FULL).post(1, b'x').ask(0x10, b'\3kept').send(8).take(5).receive(L12[:4]).mark().start(data).same()
        yield c.receive(L12[4:]).take().local().lend('outbox', 4146).start(data).lend('outbox').start(Start()).local()
    yield Case('start data refused before any start').mark().start(Start(bsu=0)).same().start(Start()).ask(8)
    for result in (0, 2, 3):
        c = Case(f'start data: result {result} in each of {MOST_ITEMS} items', Start(items=[(result, name('same'), 1, nonzero(64))] * MOST_ITEMS, bsu=0x42, image_id=nonzero(64)))
        yield c.ask(0x0f, little(MOST_ITEMS - 1, 4)).ask(0x0f, little(MOST_ITEMS, 4)).ask(0x0e, b'\2' + little(8, 2)).lookup(2, 8)
    yield Case('start data: an item past the count is free', Start(items=ITEMS + [odd(1)], counted=4)).mark().same()


def short_parts():
    for part in PARTS:
        for count in (0, 1, PUBLISHED[part] - 1):
            c = Case(f'{count} bytes of the {part}', FULL).post(1, b'x').ask(0x10, b'\3kept').send(8).take(5).receive(L12[:4]).mark().lend(part, count)
            c.calls(True).start(FULL).start(Start(bsu=0)).lend(part).same()
            yield c.receive(L12[4:]).take().local()
        c = Case(f'just enough of the {part}', FULL).lend(part, PUBLISHED[part]).start(FULL).calls()
        yield c.ask(0x10, b'\5' + nonzero(KEYS[5])).local()
    c = Case('just enough of every part')
    for part in PARTS:
        c.lend(part, PUBLISHED[part])
    yield c.start(FULL).calls().ask(0x10, b'\5' + nonzero(KEYS[5])).local()


# Each field of docs/STATE.md: the part, what must stand elsewhere first, the offset, values that are refused, values that are not.
def two(n):
    return little(n, 2)


def fields():
    one_item = [('factory', COUNT_OFFSET, little(1, 4))]
    all_items = [('factory', COUNT_OFFSET, little(MOST_ITEMS, 4))]
    last_item = ITEMS_OFFSET + ITEM_LENGTH * (MOST_ITEMS - 1)
    one_alert = [('registers', 1055, b'\1'), ('registers', 1052, b'\1')]
    alerts_8 = [('registers', 1055 + 259 * i, b'\1') for i in range(8)] + [('registers', 1052, b'\x08')]
    yield 'reader', 'count', [], 0, [two(4142), two(65535)], [two(4141), two(4140)]
    yield 'outbox', 'beginning', [('outbox', 2, two(5))], 0, [two(6), two(65535)], [two(5)]
    yield 'outbox', 'end', [], 2, [two(4143), two(65535)], [two(4142)]
    yield 'outbox', 'flag', [], 4, [b'\2', b'\xff'], [b'\1']
    yield 'factory', 'BSU', [], 0, [b'\0', b'\x40', b'\x43', b'\xff'], [b'\x41']
    yield 'factory', 'image ID length', [], 68, [b'\x41', b'\xff'], [b'\x40']
    yield 'factory', 'first result', one_item, ITEMS_OFFSET, [b'\1', b'\4', b'\xff'], [b'\0', b'\2', b'\3']
    yield 'factory', 'first item length', one_item, ITEMS_OFFSET + 34, [b'\x41', b'\xff'], [b'\x40']
    yield 'factory', 'last result', all_items, last_item, [b'\1', b'\4', b'\xff'], [b'\0', b'\2', b'\3']
    yield 'factory', 'last item length', all_items, last_item + 34, [b'\x41', b'\xff'], [b'\x40']
    yield 'factory', 'an item past the count', one_item, ITEMS_OFFSET + ITEM_LENGTH, [], [b'\1', b'\xff' * 35]
    yield 'factory', 'item count', [], COUNT_OFFSET, [little(n, 4) for n in (MOST_ITEMS + 1, 256, 1 << 16, 1 << 24)], [little(MOST_ITEMS, 4)]
    yield 'factory', 'inventory version', [], VERSION_OFFSET, [little(1, 4), little(256, 4), little(1 << 24, 4)], []
    yield 'factory', 'key 0', [], PONG_OFFSET, [b'Pong', b'poNg', b'ponG', bytes(4)], []
    for key, at in SETTINGS.items():
        shortest = SHORTEST.get(key, 0)
        yield 'settings', f'key {key} flag', [('settings', at + SETTING_LENGTH, two(shortest))], at, [b'\2', b'\xff'], [b'\1']
        editions = [little(n, 4) for n in (1, 256, 65536, 1 << 24, LAST_EDITION - 1, LAST_EDITION)]
        long, right = [two(KEYS[key] + 1), two(65535)], [two(shortest), two(KEYS[key])]
        value = [('settings', at, b'\1'), ('settings', at + SETTING_LENGTH, two(shortest))]
        yield 'settings', f'key {key} edition', [], at + SETTING_EDITION, editions, [little(0, 4)]
        yield 'settings', f'key {key} edition of a value', value, at + SETTING_EDITION, [], editions + [little(0, 4)]
        yield 'settings', f'key {key} length', [], at + SETTING_LENGTH, [two(1), two(7), two(256)] + long + [two(KEYS[key])], [two(0)]
        yield 'settings', f'key {key} length of a value', [('settings', at, b'\1')], at + SETTING_LENGTH, [two(n) for n in (0, 1, 7) if n < shortest] + long, right
    yield 'registers', 'status', [], 0, [little(4, 8), little(256, 8), little(TOP + 1, 8)], [little(3, 8)]
    yield 'registers', 'options', [], 8, [little(512, 8), little(65536, 8), little(TOP, 8)], [little(511, 8)]
    yield 'registers', 'reboot flag', [], 16, [b'\2', b'\xff'], []
    yield 'registers', 'power off flag', [], 17, [b'\2', b'\xff'], []
    for what, at, most in (('boot failure', 18, 4103), ('panic', 535, 4102)):
        yield 'registers', f'{what} flag', [], at, [b'\2', b'\xff'], []
        yield 'registers', f'{what} length', [], at + 3, [two(most + 1), two(65535)], [two(most)]
    yield 'registers', 'reason', [], 19, [two(256), two(65535)], [two(255)]
    yield 'registers', 'cause', [], 536, [], [two(65535)]
    # the bytes behind the eighth alert, read as a ninth, would pass
    yield 'registers', 'alert count', alerts_8 + [('registers', 3127, b'\1')], 1052, [b'\x09', b'\xff'], [b'\x08']
    yield 'registers', 'first alert length', one_alert, 1053, [two(257), two(65535)], [two(256)]
    yield 'registers', 'first alert action', one_alert, 1055, [b'\0'], [b'\1', b'\xff']
    yield 'registers', 'last alert length', alerts_8, 1053 + 259 * 7, [two(257), two(65535)], [two(256)]
    yield 'registers', 'last alert action', alerts_8, 1055 + 259 * 7, [b'\0'], [b'\1', b'\xff']
    yield 'registers', 'an alert past the count', one_alert, 1053 + 259, [], [b'\xff' * 3]
    yield 'registers', 'retained version', [], 3125, [b'\3', b'\xff'], [b'\1', b'\2']
    yield 'registers', 'retained length', [], 3134, [two(257), two(65535)], [two(256)]
    yield 'registers', 'retained action', [], 3136, [], [b'\xff']


def stored_fields():
    for part, what, first, place, refused, allowed in fields():
        for value in refused:
            c = Case(f'{part}: {what} {value.hex()}', Start())
            for p, at, data in first:
                c.store(p, at, data, False)
            c.store(part, place, value).mark().calls(True).same()
            yield c.start(Start()).local()
        for value in allowed:
            c = Case(f'{part}: {what} {value.hex()} is allowed', Start())
            for p, at, data in first:
                c.store(p, at, data, False)
            c.store(part, place, value, False).mark()
            # these calls change nothing, whatever the field holds, and do not show it
            yield c.receive(b'').receive(b'', 'q').take(0).lookup(0, 4).lookup(0, 3).set_options(512).post(0).signal().same().start(Start()).local()


class Dice:
    """Numbers that are the same on every machine."""

    def __init__(self, seed):
        self.state = seed

    def below(self, n):
        self.state = (self.state * 6364136223846793005 + 1442695040888963407) % (1 << 64)
        return (self.state >> 33) % n

    def pick(self, xs):
        return xs[self.below(len(xs))]

    def bytes(self, n):
        return bytes(self.pick((0, 1, 255, self.below(256))) for _ in range(n))


def some_data(dice, command):
    size = dice.pick((0, 1, 3, 40, 255, 256, 257, 300))
    if command == 6:
        return bytes([dice.below(256)]) + dice.bytes(size)
    if command == 7:
        return dice.bytes(2 + size)
    if command == 0x0d:
        return dice.pick((FULL.hash, FULL.hash, FULL.hash, bytes(32))) + little(dice.pick((0, 1, 99, 100, 101, dice.below(100), ONES)), 8)
    if command == 0x0e:
        return bytes([dice.below(8)]) + little(dice.pick((0, 3, 4, 8, 64, 256, 4096, 65535)), 2)
    if command == 0x0f:
        return little(dice.pick((0, 1, 2, 3, 4, 5, 16, MOST_ITEMS, (1 << 32) - 1)), 4)
    if command == 0x10:
        return bytes([dice.below(8)]) + dice.bytes(dice.pick((size, size, 8, 63, 1024, KEYS[5], KEYS[5] + 1)))
    return b''


def some_frame(dice):
    """A frame, sound or damaged."""
    command = dice.pick(list(COMMANDS))
    data = some_data(dice, command)
    sequence = dice.pick((1, 2, 3, dice.below(1 << 31), SEQUENCE))
    version = dice.pick(VERSIONS)
    damage = dice.below(14)
    if damage == 0:
        return framed(sequence | TOP, command, data, version)
    if damage == 1:
        return framed(sequence, dice.pick((0, 0x0b, 0x0c, 0x11, 0xff)), data, version)
    if damage == 2:
        return framed(sequence, command, data + dice.bytes(1) if dice.below(2) else data[:-1], version)
    if damage == 3:
        return framed(sequence, command, data, dice.pick((0, 3, 256)))
    if damage == 4:
        return framed(sequence, command, data, version, MAGIC ^ 1 << dice.below(32))
    frame = framed(sequence, command, data, version)
    at = dice.below(len(frame))
    if damage == 5:
        return frame[:at] + bytes([frame[at] ^ 1 << dice.below(8)]) + frame[at + 1:]
    if damage == 6:
        return frame[:at] + frame[at + 1:]
    if damage == 7:
        return b'\0' + frame + b'\0\0'
    return frame


def session(seed, turns):
    dice = Dice(seed)
    c = Case(f'session {seed}', dice.pick((FULL, Start(items=ITEMS * 4, image_id=nonzero(64)), Start()))).lend_image(dice.bytes(100))
    kept = b''
    for _ in range(turns):
        frame = kept + some_frame(dice)
        cut = dice.pick((len(frame), len(frame), len(frame), dice.below(len(frame) + 1)))
        frame, kept = frame[:cut], frame[cut:]
        c.receive(frame, dice.pick(('r', 'r', 'q', 'b', f'c {dice.below(len(frame) + 1)}')))
        act = dice.below(12)
        if act < 7:
            c.take(dice.pick((ROOM, ROOM, ROOM, 0, 1, dice.below(40))))
        elif act < 9:
            c.post(dice.below(4), dice.bytes(dice.pick((0, 5, 256, 257))))
        elif act == 9:
            c.set_options(1 << dice.below(11)).signal().flags()
        elif act == 10:
            c.record(0).record(1).lookup(dice.below(8), dice.pick((4, 65535))).edition(dice.below(8))
        elif dice.below(8) == 0:
            c.start(dice.pick((FULL, Start(bsu=0), Start())))
    return c.take().local()


def sessions():
    for seed in range(1, 7):
        yield session(seed, 40)


def cases():
    for group in (line_samples, commands, failures, lengths, keys, editions, saving, passphrase, steps, inventory, alerts, options, records, images, sending, again, start_data, short_parts, stored_fields, sessions):
        yield from group()


def replayed(data):
    """What the replay program writes."""
    supervisor = Supervisor(Start())
    out = bytearray()
    for b in data:
        supervisor.receive(bytes([b]))
        out += supervisor.take(len(supervisor.pending))
    return bytes(out)


def replay_session(seed, frames):
    """L12, L10, every command in each version, then frames of every kind, sound and damaged, and one that is too long."""
    dice = Dice(seed)
    out = L12 + b'\2\0' + b''.join(framed(i + 2, command, data, version) for version in VERSIONS for i, (command, data) in enumerate(COMMANDS.items()))
    out += b''.join(some_frame(dice) for _ in range(frames))
    return out + b'\1' * 4141 + b'\0' + b'\1' * 4140 + b'\0' + framed(1, 0x10, b'\4' + nonzero(4096)) + framed(2, 0x0e, b'\4\0\x10') + framed(3, 0x0e, b'\4\0\x10', 2) + L12 + L12[:9]


def texts():
    return common.texts(list(cases()))


def replay_texts():
    stream = replay_session(1, 150)
    return stream, replayed(stream)


assert replayed(L12).hex() == '06cc19de0101010102010101010101048006' + '01' * 15 + '034f5a00'
assert replayed(b'\2\0').hex() == '06cc19de010101010dffffffffffffffff0201c92100'

if __name__ == '__main__':
    common.serve(__doc__, input=lambda: texts()[0], expected=lambda: texts()[1],
                 replay_input=lambda: replay_texts()[0], replay_expected=lambda: replay_texts()[1],
                 check=lambda: common.compared('replay', *replay_texts()), replay=lambda: replayed(sys.stdin.buffer.read()))
