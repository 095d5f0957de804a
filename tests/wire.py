#!/usr/bin/env python3
"""Compares every row of the tables of docs/WIRE.md with the running library, in both versions of the protocol. Requests, images and root-of-trust messages are built from
the page's own offsets, widths and numbers, and from values of this program. tests/wire/driver.c makes the calls.
The comments of include/oatcastle.h at the wire's constants are compared with the rows. Columns for readers alone have no number and are compared there alone.
Then each number, byte and word of the tables and each of these comments is changed in turn, in memory alone, and must be seen.
Assumes crates/oatcastle/out/liboatcastle.a and a C compiler. Ends with 1 at the first difference.

usage: tests/wire.py"""
import collections
import functools
import os
import re
import struct
import subprocess
import sys

from audit import L12, checksum
from common import LIBRARY, ROOT, comments, made

PAGE = ROOT / 'docs' / 'WIRE.md'
DRIVER = ROOT / 'target' / 'wire' / 'driver'
# The column of each table that is for readers alone; it has no number.
PROSE = {'Results': 'When', 'Keys': 'Value', 'Bits': 'Meaning', 'Decode failures': 'Fails where', 'Image faults': 'When', 'Types': 'Payload', 'Refusals': 'When'}
# The columns whose cells are bytes; an image's and a message's values are too where they are marks.
OCTETS = {'Body', 'Bytes', 'COBS form', 'Message', 'Image', 'Goes out'}
TOP, ALL_ONES, LAST_EDITION = 1 << 63, (1 << 64) - 1, (1 << 32) - 1
BAD_START, BAD_VALUE, TOO_LONG, ALERTS_FULL = 11, 13, 9, 10
MOST = 4142
# The calls that this program makes so that they are refused: start, post, options, restore, and the writers and the reader of messages.
REFUSED = set('spoRWrw')
Answer = collections.namedtuple('Answer', 'result numbers out')
Reply = collections.namedtuple('Reply', 'version sequence command data')


class Difference(Exception):
    """What the page says is not what the library does."""


def same(what, wanted, got):
    if wanted != got:
        raise Difference(f'{what}: wanted {shown(wanted)}, got {shown(got)}')


def shown(value):
    return value[:60].hex(' ') if isinstance(value, bytes) else repr(value)[:300]


# ---- the library


@functools.cache
def driver():
    DRIVER.parent.mkdir(parents=True, exist_ok=True)
    subprocess.run([os.environ.get('CC', 'cc'), '-std=c99', '-O2', '-Wall', '-Wextra', '-pedantic', '-Werror', f'-I{ROOT / "include"}', '-o', DRIVER,
                    ROOT / 'tests' / 'wire' / 'driver.c', ROOT / LIBRARY], check=True)
    return subprocess.Popen([DRIVER], stdin=subprocess.PIPE, stdout=subprocess.PIPE)


def call(letter, number=0, given=b''):
    run = driver()
    run.stdin.write(struct.pack('=cQI', letter.encode(), number, len(given)) + given)
    run.stdin.flush()
    result, *numbers, length = struct.unpack('=I4QI', run.stdout.read(40))
    return Answer(result, tuple(numbers), run.stdout.read(length))


@functools.cache
def ran(*calls):
    """The answers to some calls, one after the other. Only calls of REFUSED may be refused."""
    answers = [call(*each) for each in calls]
    for (letter, *_), answer in zip(calls, answers):
        if letter not in REFUSED:
            same(f'the result of the call {letter} of tests/wire/driver.c', 0, answer.result)
    return answers


HEADER = (ROOT / 'include' / 'oatcastle.h').read_text()


@functools.cache
def constants():
    """The header's numbers by name."""
    return {name: int(number, 0) for name, number in re.findall(r'^#define OATCASTLE_(\w+) (0x[0-9a-f]+|\d+)u?\b', HEADER, re.M)}


def of_header(name):
    if name not in constants():
        raise Difference(f'{name} is no name of the header')
    return constants()[name]


# ---- the supervisor that is asked: its start data and what is known of them

VALUES = {'model': b'model-Oat-1', 'revision': 0x04030201, 'serial': b'SN-00000042', 'base': bytes.fromhex('a0b1c2d3e4f5'), 'count': 0x0102, 'stride': 7,
          'hash': bytes(range(1, 33))}
IMAGE_ID = bytes(range(100, 164))
# result, name, type and data
ITEMS = [(result, name.ljust(32, b'\0'), kind, text)
         for result, name, kind, text in ((0, b'U1/A', 9, bytes(range(64))), (0, b'U2', 1, b''), (2, b'U3', 8, b'gone'), (3, b'U4', 7, b'odd'))]
IMAGE = bytes((7 * i + i // 256) % 256 for i in range(5000))


def start_data(bsu=0x41, image_id=IMAGE_ID, items=None, count=None, item_length=None):
    data = bytearray(of_header('START_LENGTH'))

    def put(name, value, width=1):
        at = of_header(name)
        value = value.to_bytes(width, 'little') if isinstance(value, int) else value
        data[at:at + len(value)] = value
    put('START_BSU', bsu)
    for name, field, width in (('MODEL', 'model', 11), ('REVISION', 'revision', 4), ('SERIAL', 'serial', 11), ('MAC_BASE', 'base', 6), ('MAC_COUNT', 'count', 2),
                               ('MAC_STRIDE', 'stride', 1), ('IMAGE_HASH', 'hash', 32)):
        put(f'START_{name}', VALUES[field], width)
    put('START_IMAGE_ID_LENGTH', len(image_id))
    put('START_IMAGE_ID', image_id[:64])
    items = ITEMS if items is None else items
    rows = b''.join(bytes([result]) + name + bytes([kind, len(text) if item_length is None else item_length]) + text.ljust(64, b'\xee') for result, name, kind, text in items)
    put('START_ITEMS', rows)
    put('START_ITEM_COUNT', len(items) if count is None else count, 4)
    return bytes(data)


def supervised(*calls, start=None, accepted=True):
    """The answers of a supervisor that has just been started; the start's result alone where it is not to be accepted."""
    answers = ran(('i', 0, IMAGE), ('s', 0, start or start_data()), *calls)
    if not accepted:
        return answers[1].result
    same('a start', 0, answers[1].result)
    return answers[2:]


TAKE = ('t', MOST)


# ---- the page


def tables(text):
    """Each table by its heading: its columns and its rows."""
    found, heading = {}, None
    for line in text.split('\n'):
        if line.startswith('#'):
            heading = line.lstrip('#').strip()
        elif line.startswith('|'):
            found.setdefault(heading, []).append([cell.strip() for cell in line.strip('|').split('|')])
    for heading, (columns, line, *rows) in found.items():
        if set(''.join(line)) != {'-'} or not rows or any(len(row) != len(columns) for row in rows):
            sys.exit(f'wire: the table of "{heading}" is not one that this can read')
    return {heading: (columns, rows) for heading, (columns, _, *rows) in found.items()}


def number(cell):
    if not re.fullmatch(r'0x[0-9a-f]+|\d{1,3}(,\d{3})*', cell):
        raise Difference(f'"{cell}" is no number')
    return int(cell.replace(',', ''), 0)


def span(cell):
    """The least and the greatest of `a to b`, or of a number alone."""
    ends = [number(end) for end in cell.split(' to ')]
    return ends[0], ends[-1]


def fields(cell):
    """Name and width of each field; None for the rest."""
    if cell == 'none':
        return []
    pairs = [part.rsplit(' ', 1) for part in cell.split(', ')]
    return [(name, None if width == 'n' else number(width)) for name, width in pairs]


def octets(cell):
    out = b''
    for word in [] if cell == 'none' else cell.split(' '):
        byte, _, times = word.partition('*')
        if not re.fullmatch('[0-9a-f]{2}', byte):
            raise Difference(f'"{cell}" is not bytes')
        out += bytes.fromhex(byte) * (number(times) if times else 1)
    return out


def named(cell):
    if not re.fullmatch('`[A-Z_]+`', cell):
        raise Difference(f'"{cell}" is no name')
    return cell.strip('`')


def packed(widths, values):
    """The values as the bytes of some fields. With a result other than 0 the fields may end early."""
    out, used = b'', []
    for name, width in widths:
        if name not in values and values.get('result', 0) != 0:
            break
        if name not in values:
            raise Difference(f'the page has a field {name}')
        value = values[name]
        used.append(name)
        if isinstance(value, int):
            if width is None or value >= 1 << 8 * width:
                raise Difference(f'{name} does not fit')
            value = value.to_bytes(width, 'little')
        if width not in (None, len(value)):
            raise Difference(f'{name} has {len(value)} bytes, the page says {width}')
        out += value
    left = set(values) - set(used) - {'edition'}
    if left:
        raise Difference(f'the page has no place for {sorted(left)}')
    return out


def layout(rows):
    """Offset and width of each field by name; a field behind the rest has its offset without n. The fields lie one behind the other."""
    places, at, behind = {}, 0, ''
    for offset, width, name, _ in rows:
        same(f'the offset of {name}', offset, f'{at}{behind}')
        places[name] = (at, None if width == 'n' else number(width))
        at, behind = (at, ' + n') if width == 'n' else (at + number(width), behind)
    return places


@functools.cache
def laid_out(places, values, data, off):
    """A message's bytes: the values of the four fields ahead of its data, and its checksum with a number added."""
    places = dict(places)
    out = bytearray(places['data'][0])
    for name, value in zip(('magic', 'version', 'sequence', 'command'), values):
        at, width = places[name]
        out[at:at + width] = value.to_bytes(width, 'little')
    out += data
    same("the checksum's place", places['checksum'][0] + len(data), len(out))
    return bytes(out) + ((checksum(out) + off) % 65536).to_bytes(places['checksum'][1], 'little')


@functools.cache
def stuffed(message, full):
    """The COBS form: each group up to a zero, or full."""
    out, at = b'', 0
    while True:
        end = message.find(0, at, at + full)
        run = message[at:at + full] if end < 0 else message[at:end]
        out += bytes([len(run) + 1]) + run
        at += len(run) + (end >= 0)
        if at == len(message) and end < 0:
            return out


class Page:
    """The tables, and messages, frames, records and images by their rules."""

    def __init__(self, found, words):
        self.found, self.words = found, words
        self.layout = layout(self.rows('Message'))
        self.magic, versions = (row[3] for row in self.rows('Message')[:2])
        self.versions = [number(word) for word in versions.split(' or ')]
        self.limits = {row[1]: number(row[0]) for row in self.rows('Limits')}
        self.commands = {named(row[1]): row for row in self.rows('Commands') if row[1] != 'none'}

    def rows(self, heading):
        return self.found[heading][1]

    def limit(self, words):
        if words not in self.limits:
            raise Difference(f'no limit "{words}"')
        return self.limits[words]

    def command(self, name):
        if name not in self.commands:
            raise Difference(f'no command {name}')
        return number(self.commands[name][0])

    def key(self, name):
        return next(number(row[0]) for row in self.rows('Keys') if row[1] == f'`{name}`')

    def message(self, version, sequence, command, data=b'', magic=0, off=0):
        """A message's bytes; magic is added to the right one by exclusive or, off to the checksum."""
        return laid_out(tuple(self.layout.items()), (number(self.magic) ^ magic, version, sequence, command), data, off)

    def form(self, message):
        return stuffed(message, self.limit('bytes of a full group'))

    def frame(self, *words, **more):
        return self.form(self.message(*words, **more)) + b'\0'

    def walk(self, form):
        """Of each byte of a form whether it is a code byte, and the offset in the message of it or of the zero behind its group; None where there is none."""
        full, out, at, offset = self.limit('bytes of a full group'), [], 0, 0
        while at < len(form):
            code = form[at]
            zero = code <= full and at + code < len(form)
            out += [('code', offset + code - 1 if zero else None)] + [('byte', offset + i) for i in range(code - 1)]
            offset, at = offset + code - 1 + zero, at + code
        if at != len(form):
            raise Difference('a code byte runs past the end of the form')
        return out, offset

    def reply(self, sent):
        """What a reply's frame says; None where nothing was sent."""
        if not sent:
            return None
        if sent[-1] != 0 or 0 in sent[:-1]:
            raise Difference(f'no frame: {shown(sent)}')
        places, length = self.walk(sent[:-1])
        message = bytearray(length)
        for (kind, offset), byte in zip(places, sent):
            if kind == 'byte':
                message[offset] = byte
        data, width = self.layout['data'][0], self.layout['checksum'][1]
        version, sequence, command = (int.from_bytes(message[at:at + wide], 'little') for at, wide in (self.layout[name] for name in ('version', 'sequence', 'command')))
        same('a reply, written again', self.message(version, sequence, command, bytes(message[data:-width])), bytes(message))
        return Reply(version, sequence, command, bytes(message[data:-width]))

    def request(self, name, version=1, sequence=0x70, **values):
        """A call that feeds a request of these values."""
        return 'f', 0, self.frame(version, sequence, self.command(name), packed(fields(self.commands[name][2]), values))

    def asked(self, name, before=(), version=1, sequence=0x55, start=None, **values):
        """The reply to a request that comes behind some calls."""
        return self.reply(supervised(*before, TAKE, self.request(name, version, sequence, **values), TAKE, start=start)[-1].out)

    def record(self, key, edition, value, mark=None, length=None, off=0):
        """A record of a saved image."""
        rows = self.rows('Saved image')[:-1]
        places = layout(rows)
        out = bytearray(places['value'][0])
        for name, filled in (('mark', octets(rows[0][3]) if mark is None else mark), ('key', key), ('edition', edition), ('length', len(value) if length is None else length)):
            at, width = places[name]
            filled = filled if isinstance(filled, bytes) else filled.to_bytes(width, 'little')
            if len(filled) != width:
                raise Difference(f'the {name} does not have {width} bytes')
            out[at:at + width] = filled
        out += value
        return bytes(out) + ((checksum(out) + off) % 65536).to_bytes(places['checksum'][1], 'little')

    def image(self, *records):
        offset, width, name, mark = self.rows('Saved image')[-1]
        same('the end mark', (0, len(octets(mark)), 'end'), (number(offset), number(width), name))
        return b''.join(records) + octets(mark)

    def rot(self, kind, payload, length=None, flip=0, protocol=None):
        """A root-of-trust message; flip is added to the right CRC by exclusive or."""
        rows = self.rows('Root-of-trust message')
        places = layout(rows)
        out = bytearray(places['payload'][0])

        def put(name, value):
            at, width = places[name]
            out[at:at + width] = value.to_bytes(width, 'little')
        put('protocol', number(rows[0][3]) if protocol is None else protocol)
        put('type', kind)
        put('length', len(payload) if length is None else length)
        put('crc', crc(bytes(out[:places['crc'][0]]) + payload) ^ flip)
        return bytes(out) + payload


@functools.cache
def crc(given):
    """The page's rule, bit by bit."""
    value = 0
    for byte in given:
        for bit in range(7, -1, -1):
            differs = (value >> 31) ^ (byte >> bit & 1)
            value = (value << 1) % (1 << 32) ^ 0x04c11db7 * differs
    return value ^ 0xffffffff


# ---- the checks, one for each table


def check_message(page):
    rows = page.rows('Message')
    same('the fields of a message', ['magic', 'version', 'sequence', 'command', 'data', 'checksum'], list(page.layout))
    same('the values of the others', ['any'] * 4, [row[3] for row in rows[2:]])
    for version in range(max(page.versions) + 3):
        reply = page.asked('STATUS', version=version)
        same(f'whether version {version} is served', version in page.versions, reply.command == number(page.commands['STATUS'][4]))
    for version, sequence, command, data in ((1, 1, 8, b''), (2, TOP - 1, 0x10, b'\3abc'), (0xfedcba98, ALL_ONES, 255, bytes(range(256)))):
        head = struct.pack('=IQB', version, sequence, command)
        same('a message that is written', page.frame(version, sequence, command, data), ran(('W', 0, head + data))[0].out)
        got = ran(('L', 0, page.frame(version, sequence, command, data)))[0]
        same('a message that is read', ((of_header('MESSAGE'), 0, version, sequence), bytes([command]) + data), (got.numbers, got.out))


def check_limits(page):
    longest = 'bytes of the longest '
    line_write = lambda data, version=1: ran(('W', 0, struct.pack('=IQB', version, ALL_ONES if version > 1 else 1, 1) + data))[0]
    reason = lambda given: page.reply(supervised(('f', 0, given), TAKE)[-1].out)
    zeros = lambda length: reason(page.form(bytes(length)) + b'\0').data
    failed = lambda name: bytes([of_header(f'REASON_{name}')])
    whole = lambda number, text: [(0, bytes(32), 1, bytes(text))] * number

    def shortest_message(n):
        same('an empty message', n, len(page.message(1, 1, 8)))
        same('a shorter one', failed('LENGTH'), zeros(n - 1))
        same('that one', failed('MAGIC'), zeros(n))

    def longest_message(n):
        same('that one', failed('MAGIC'), zeros(n))
        same('a longer one', failed('LENGTH'), zeros(n + 1))

    def longest_data(n):
        same('those and more', (0, TOO_LONG), (line_write(bytes(n)).result, line_write(bytes(n + 1)).result))

    def full_group(n):
        for length in (n, n + 1, 2 * n):
            data = b'\7' * length
            same('a form', page.frame(1, 1, 1, data), line_write(data).out)

    def longest_form(n):
        same('that one', failed('LENGTH'), reason(b'\1' * n + b'\0').data)
        same('a longer one', failed('FORM'), reason(b'\1' * (n + 1) + b'\0').data)

    def longest_frame(n):
        same('the frame without zeros', n, len(line_write(b'\x5a' * of_header('LONGEST_DATA'), 0x01010101).out))

    def longest_block(n):
        blocks = [len(page.asked('IMAGE_BLOCK', hash=VALUES['hash'], offset=at).data) for at in (0, len(IMAGE) - n, len(IMAGE) - n + 1)]
        same('blocks', [n, n, n - 1], blocks)

    def most_alerts(n):
        results = [answer.result for answer in supervised(*[('p', 1, b'x')] * (n + 1))]
        same('posts', [0] * n + [ALERTS_FULL], results)

    def longest_alert(n):
        same('posts', [0, TOO_LONG], [answer.result for answer in supervised(('p', 1, b'x' * n), ('p', 1, b'x' * (n + 1)))])

    def most_items(n):
        for count, accepted in ((n, True), (n + 1, False)):
            got = supervised(start=start_data(items=whole(min(count, 64), 1), count=count), accepted=False)
            same('a start with them', 0 if accepted else BAD_START, got)

    def longest_item(n):
        for length, accepted in ((n, True), (n + 1, False)):
            same('a start with one', 0 if accepted else BAD_START, supervised(start=start_data(items=whole(1, 64), item_length=length), accepted=False))

    def longest_image(n):
        sets = [page.request('KEY_SET', key=number(row[0]), value=b'v' * number(row[3])) for row in page.rows('Keys') if row[6] == 'yes']
        same('the image of the longest values', n, len(supervised(*sets, ('S',))[-1].out))

    def last_edition(n):
        image = lambda edition: ('R', 0, page.image(page.record(3, edition, b'')))
        results = [page.asked('KEY_SET', (image(edition),), key=3, value=b'').data[0] for edition in (n - 1, n)]
        same('sets below it and at it', [of_header('SET_STORED'), of_header('SET_LAST_EDITION')], results)

    def longest_payload(n):
        same('writes', [0, of_header('ROT_TOO_LONG')], [ran(('w', 1, bytes(length)))[0].result for length in (n, n + 1)])

    def longest_rot(n):
        same('the message', n, len(ran(('w', 1, bytes(of_header('ROT_LONGEST_PAYLOAD'))))[0].out))

    checks = {'bytes of the shortest message': shortest_message, longest + 'message': longest_message, longest + 'data': longest_data, 'bytes of a full group': full_group,
              longest + 'COBS form': longest_form, longest + 'frame, terminator included': longest_frame, longest + 'image block': longest_block,
              'alerts that wait': most_alerts, longest + 'alert text': longest_alert, 'inventory items': most_items, longest + 'item data': longest_item,
              longest + 'saved image': longest_image, 'the last edition': last_edition, longest + 'root-of-trust payload': longest_payload,
              longest + 'root-of-trust message': longest_rot}
    same('the limits', [row[1] for row in page.rows('Limits')], list(checks))
    for words, check in checks.items():
        try:
            check(page.limits[words])
        except Difference as difference:
            raise Difference(f'{words}: {difference}') from None


def check_checksum(page):
    for body, first, second, value in page.rows('Checksum'):
        library = ran(('C', 0, octets(body)))[0].numbers[0]
        same(f'the checksum of {body}', (number(first), number(second), number(value)), (library % 256, library // 256, library))
    frame = page.frame(1, 1, 8, off=0xffff - checksum(page.message(1, 1, 8)[:-2]))
    same('a checksum with bytes ff', of_header('REASON_CHECKSUM'), ran(('L', 0, frame))[0].numbers[1])


def ended(page, tail):
    """A frame whose message ends with the tail, of at least three bytes; sequence bytes are chosen so that its last two are the checksum."""
    command, data, wanted = tail[0], tail[1:-2], tail[-2:]
    at = page.layout['sequence'][0]
    body = page.message(1, 0, command, data)[:-2]
    first, second = checksum(body) % 256, checksum(body) // 256
    more, n = wanted[0] - first, len(body) - at
    low = (wanted[1] - second - (n - 1) * more) % 255
    sequence = low + 256 * ((more - low) % 255)
    same('the bytes at the end', page.message(1, sequence, command, data)[-len(tail):], tail)
    return sequence, command, data


def check_forms(page):
    for cell, form in page.rows('Frame'):
        given = octets(cell)
        pad = b'\5' * max(1, 2 - len(given))
        tail = pad + b'\0' + given
        sequence, command, data = ended(page, tail)
        written = ran(('W', 0, struct.pack('=IQB', 1, sequence, command) + data))[0].out
        ahead = page.form(page.message(1, sequence, command, data)[:-len(tail)] + pad)
        same(f'a frame that ends with {cell[:20]}', ahead + octets(form) + b'\0', written)
        got = ran(('L', 0, ahead + octets(form) + b'\0'))[0]
        same(f'that frame as it is read, {cell[:20]}', (of_header('MESSAGE'), bytes([command]) + data), (got.numbers[0], got.out))


def check_example(page, heading, frame):
    """Each byte of a frame: its place, what it is, and which byte of the message it stands for."""
    walked, length = page.walk(frame[:-1])
    walked = walked + [('end', None)]

    def field(offset):
        rest = length - page.layout['checksum'][0] - page.layout['checksum'][1]
        names = [name for name, (at, _) in page.layout.items() if at + rest * (name == 'checksum') <= offset]
        return names[-1] if not (names[-1] == 'data' and rest == 0) else 'checksum'
    at = 0
    for place, cell, kind, offset, name in page.rows(heading):
        same(f'{heading}: a place', number(place), at)
        for i, byte in enumerate(octets(cell)):
            known, where = walked[at]
            said = None if offset == 'none' else number(offset) + i
            same(f'{heading}: the byte at {at}', (bytes([byte]), kind, said, name), (frame[at:at + 1], known, where, 'none' if where is None else field(where)))
            at += 1
    same(f'{heading}: its length', at, len(frame))


def check_request_example(page):
    check_example(page, 'A request, byte by byte', ran(('W', 0, struct.pack('=IQB', 1, 1, of_header('COMMAND_STATUS'))))[0].out)


def check_reply_example(page):
    request = b''.join(octets(row[1]) for row in page.rows('A request, byte by byte'))
    same("document 01's L12", L12, request)
    plain = bytes([0x41]) + bytes(of_header('START_LENGTH') - 1)
    check_example(page, 'Its reply, run by run', supervised(('f', 0, request), TAKE, start=plain)[-1].out)


def scenarios(page):
    """For each command some requests: the calls before it, the values of its data, and those of its reply or None; then perhaps start data."""
    stored = lambda key, value: page.request('KEY_SET', key=key, value=value)
    block = lambda offset: IMAGE[offset:offset + 4096]
    looked = lambda key, most, **reply: {'key': key, 'maxresponse': most, 'reply': reply}
    lookups = [((), looked(0, 4, result=0, edition=0, value=b'pong')), ((), looked(0, 3, result=3)), ((), looked(1, 64, result=0, edition=0, value=IMAGE_ID)),
               ((), looked(2, 8, result=0, edition=0, value=struct.pack('<II', len(ITEMS), 0))), ((), looked(3, 9, result=2)), ((), looked(7, 9, result=1)),
               ((stored(4, b'x'), stored(4, bytes(range(256)) * 16)), looked(4, 4096, result=0, edition=2, value=bytes(range(256)) * 16)),
               ((stored(5, b''),), looked(5, 0, result=0, edition=1, value=b'')), ((stored(6, b'password'),), looked(6, 99, result=4))]
    items = [((), {'index': i, 'reply': {'result': result, 'name': name, 'type': kind, 'data': text if result == 0 else b''}})
             for i, (result, name, kind, text) in enumerate(ITEMS + [(1, bytes(32), 0, b'')])]
    sets = [((), {'key': key, 'value': value, 'reply': {'result': result}})
            for key, value, result in ((3, b'', 0), (3, bytes(256), 0), (3, bytes(257), 3), (0, b'', 2), (7, b'', 1), (6, b'short', 3), (5, bytes(4096), 0),
                                       (5, bytes(4103), 3))]
    return {
        'REBOOT': [((), {'reply': None})],
        'POWER_OFF': [((), {'reply': None})],
        'BSU': [((), {'reply': {'bsu': 0x41}}), ((), {'reply': {'bsu': 0x42}}, start_data(bsu=0x42))],
        'IDENTITY': [((), {'reply': {name: VALUES[name] for name in ('model', 'revision', 'serial')}})],
        'MAC': [((), {'reply': {name: VALUES[name] for name in ('base', 'count', 'stride')}})],
        'BOOT_FAILURE': [((), {'reason': 3, 'rest': b'ram', 'reply': None})],
        'PANIC': [((), {'cause': 0xca11, 'rest': b'stack', 'reply': {}})],
        'STATUS': [((('o', 0x155), ('p', 1, b'x')), {'reply': {'status': 3, 'options': 0x155}})],
        'START_ACKNOWLEDGED': [((), {'reply': {}})],
        'ALERT': [((), {'reply': {'action': 0, 'text': b''}}), ((('p', 255, bytes(range(256))),), {'reply': {'action': 255, 'text': bytes(range(256))}})],
        'IMAGE_BLOCK': [((), {'hash': VALUES['hash'], 'offset': at, 'reply': {'block': block(at)}}) for at in (0, 1, 904, 905, 4999, 5000, 5001, 1 << 63)]
        + [((), {'hash': VALUES['hash'][:-1] + b'\0', 'offset': 0, 'reply': {'block': b''}})],
        'KEY_LOOKUP': lookups,
        'INVENTORY': items,
        'KEY_SET': sets,
    }


def check_commands(page):
    known = scenarios(page)
    same('the commands', list(known), list(page.commands))
    results = collections.defaultdict(list)
    for reply, result, *_ in page.rows('Results'):
        results[number(reply)].append(number(result))
    for name, (command, _, given, lengths, reply, reply_name, first, first_lengths, second, second_lengths, told) in page.commands.items():
        same(f'COMMAND_{name}', number(command), of_header(f'COMMAND_{name}'))
        if reply == 'none':
            same(f'{name}: the cells of no reply', ['none'] * 6, [reply_name, first, first_lengths, second, second_lengths, told])
        else:
            same(f'REPLY_{reply_name}', number(reply), of_header(f'REPLY_{named(reply_name)}'))
            listed = results[number(reply)]
            same(f'{name}: its results', told if told == 'none' else list(range(span(told)[0], span(told)[1] + 1)), listed or 'none')
        for version in page.versions:
            check_lengths(page, name, fields(given), span(lengths), version)
            behind = fields(first)
            if version == 2 and second not in ('same', 'none'):
                behind = behind[:-1] + fields(second) + behind[-1:]
            seen = [check_exchange(page, name, version, reply, behind, *scenario) for scenario in known[name]]
            if reply != 'none':
                cell = second_lengths if version == 2 and second_lengths != 'same' else first_lengths
                same(f'{name}: the lengths of its reply in version {version}', span(cell), (min(seen), max(seen)))
        same(f'{name}: version 2 differs', second == 'same', second_lengths == 'same')
    same('the flags', [(1, 0), (0, 1)], [supervised(page.request(name), ('x',))[-1].numbers[:2] for name in ('REBOOT', 'POWER_OFF')])


def check_exchange(page, name, version, number_of_reply, behind, before, values, start=None):
    """Makes one request and compares its reply; how many bytes of data that has."""
    values = dict(values)
    wanted = values.pop('reply')
    got = page.asked(name, before, version, start=start, **values)
    if wanted is None:
        same(f'{name}: its reply', number_of_reply == 'none', got is None)
        return 0
    if got is None or number_of_reply == 'none':
        raise Difference(f'{name}: the library sent {got}, the page says {number_of_reply}')
    same(f'{name}: its reply in version {version}', Reply(version, 0x55 | TOP, number(number_of_reply), packed(behind, wanted)), got)
    return len(got.data)


def check_lengths(page, name, widths, lengths, version):
    """Data of a length that the page does not give earn the reason for it, and others none."""
    low, high = lengths
    most = page.limit('bytes of the longest data')
    fixed = sum(width or 0 for _, width in widths)
    same(f'{name}: the lengths of its data', lengths, (fixed, most if (None in dict(widths).values()) else fixed))
    for length in sorted({0, 1, low - 1, low, low + 1, high - 1, high, high + 1, most} & set(range(most + 1))):
        counted = page.reply(supervised(('f', 0, page.frame(version, 9, page.command(name), b'\xaa' * length)), TAKE)[-1].out)
        wrong = counted is not None and (counted.command, counted.data) == (of_header('REPLY_DECODE_FAILURE'), bytes([of_header('REASON_DATA')]))
        same(f'{name}: whether {length} bytes of data are right', low <= length <= high, not wrong)


def provoked(page):
    """For each result the requests that earn it: their command, the calls before, and the values."""
    stored = lambda key, value: page.request('KEY_SET', key=key, value=value)
    last = ('R', 0, page.image(page.record(3, LAST_EDITION, b'a')))
    beyond = len(page.rows('Keys'))
    look = lambda key, most, *before: ('KEY_LOOKUP', before, {'key': key, 'maxresponse': most})
    put = lambda key, value, *before: ('KEY_SET', before, {'key': key, 'value': value})
    item = lambda index: ('INVENTORY', (), {'index': index})
    return {
        'LOOKUP_VALUE': [look(0, 4), look(3, 3, stored(3, b'abc')), look(3, 0, stored(3, b''))],
        'LOOKUP_BAD_KEY': [look(beyond, 0), look(255, 65535)],
        'LOOKUP_NO_VALUE': [look(3, 0), look(4, 65535), look(5, 9)],
        'LOOKUP_TOO_LONG': [look(0, 3), look(1, 63), look(2, 7), look(3, 2, stored(3, b'abc'))],
        'LOOKUP_SET_ONLY': [look(6, 0), look(6, 65535), look(6, 65535, stored(6, b'password'))],
        'INVENTORY_ITEM': [item(0), item(1)],
        'INVENTORY_BAD_INDEX': [item(4), item(LAST_EDITION)],
        'INVENTORY_ABSENT': [item(2)],
        'INVENTORY_FAILED': [item(3)],
        'SET_STORED': [put(3, b''), put(4, b'abc', stored(4, b'abc')), put(6, b'password'), put(4, b'', last)],
        'SET_BAD_KEY': [put(beyond, b''), put(255, bytes(4103))],
        'SET_READ_ONLY': [put(0, b''), put(1, bytes(4103)), put(2, b'')],
        'SET_TOO_LONG': [put(3, bytes(257)), put(4, bytes(4097)), put(6, b'seven_7'), put(6, bytes(64)), put(3, bytes(257), last)],
        'SET_LAST_EDITION': [put(3, b'', last), put(3, bytes(256), last)],
    }


def check_results(page):
    known = provoked(page)
    rows = [(number(reply), number(result), named(name)) for reply, result, name, _ in page.rows('Results')]
    same('the results', ['BSU_A', 'BSU_B', *known], [name for *_, name in rows])
    for reply, result, name in rows:
        same(name, result, of_header(name))
        if name.startswith('BSU_'):
            got = page.asked('BSU', start=start_data(bsu=result))
            same(name, (reply, bytes([result])), (got.command, got.data))
            continue
        for version in page.versions:
            for command, before, values in known[name]:
                got = page.asked(command, before, version, **values)
                same(f'{name} in version {version}', (reply, result), (got.command, got.data[0]))
                if command == 'KEY_SET':
                    saved = supervised(*before, ('S',), page.request(command, version, **values), ('S',))
                    same(f'{name}: whether it stores', values['key'] == 6 or result == 0, values['key'] == 6 or saved[-3].out != saved[-1].out)
    units = [result for reply, result, name in rows if name.startswith('BSU_')]
    same('the units that a start takes', units, [bsu for bsu in range(256) if supervised(start=start_data(bsu=bsu), accepted=False) == 0])


def check_keys(page):
    rows = [(number(key), named(name), number(low), number(high), *words) for key, name, low, high, *words, _ in page.rows('Keys')]
    same('the keys', list(range(len(rows))), [row[0] for row in rows])
    for key, name, low, high, can_set, can_look, in_image in rows:
        same(name, key, of_header(name))
        for version in page.versions:
            looked = lambda most, *before, **more: page.asked('KEY_LOOKUP', before, version, key=key, maxresponse=most, **more).data
            put = lambda length: page.asked('KEY_SET', (), version, key=key, value=b'v' * length).data
            edition = [b'', bytes(4)][version - 1]
            if can_set == 'no':
                same(f'{name}: sets', [bytes([of_header('SET_READ_ONLY')])] * 2, [put(low), put(high + 1)])
                same(f'{name}: whether it is looked up', can_look, 'yes' if looked(high)[0] == 0 else 'no')
                if low == high:
                    same(f'{name}: its length', high, len(looked(65535)) - 1 - len(edition))
                else:
                    for length in (low, high):
                        same(f'{name} of {length} bytes', b'\0' + edition + b'i' * length, looked(length, start=start_data(image_id=b'i' * length)))
                    for length in [high + 1] + [low - 1] * (low > 0):
                        same(f'{name} of {length} bytes at a start', BAD_START, supervised(start=start_data(image_id=b'i' * length), accepted=False))
            elif can_set == 'yes':
                stored, wrong = bytes([of_header('SET_STORED')]), bytes([of_header('SET_TOO_LONG')])
                same(f'{name}: sets', [stored, stored, wrong] + [wrong] * (low > 0), [put(low), put(high), put(high + 1)] + [put(low - 1)] * (low > 0))
                edition = [b'', b'\1\0\0\0'][version - 1]
                for length in (low, high):
                    got = looked(length, page.request('KEY_SET', version, key=key, value=b'v' * length))
                    same(f'{name}: what a lookup hands out', b'\0' + edition + b'v' * length if can_look == 'yes' else bytes([of_header('LOOKUP_SET_ONLY')]), got)
            else:
                raise Difference(f'{name}: "{can_set}"')
        restored = ran(('i',), ('s', 0, start_data()), ('R', 0, page.image(page.record(key, 1, b'v' * low))))[-1].result
        same(f'{name}: whether an image holds it', {'yes': 0, 'no': of_header('RESTORE_BAD_KEY')}.get(in_image), restored)


def check_bits(page):
    rows = [(number(bit), named(name)) for bit, name, _ in page.rows('Bits')]
    at = {name: 1 << bit for bit, name in rows}
    for bit, name in rows:
        same(name, 1 << bit, of_header(name))
    status = lambda *before: struct.unpack('<QQ', page.asked('STATUS', before).data)
    signal = lambda *before: supervised(*before, ('g',))[-1].numbers[0]
    started, one, two = page.request('START_ACKNOWLEDGED'), ('p', 1, b'a'), (('p', 1, b'a'), ('p', 2, b'b'))
    alert, other = page.request('ALERT', sequence=1), page.request('ALERT', sequence=2)
    expected = [((), at['STATUS_RESTARTED']), ((started,), 0), ((started, one), at['STATUS_ALERTS']), ((started, one, alert), 0),
                ((started, *two, alert), at['STATUS_ALERTS']), ((started, *two, alert, alert), at['STATUS_ALERTS']), ((started, *two, alert, other), 0),
                ((one,), at['STATUS_RESTARTED'] | at['STATUS_ALERTS'])]
    for before, value in expected:
        same('the status', value, status(*before)[0])
        same('the line signal', value != 0, signal(*before) == 1)
    options = [value for name, value in at.items() if name.startswith('OPTION_')]
    for value in options:
        same('the options', value, status(('o', value))[1])
        same('the line signal, by options', 0, signal(started, ('o', value)))
    same('options', [0, BAD_VALUE], [supervised(('o', value))[0].result for value in (sum(options), 2 * max(options))])


def check_records(page):
    readers = {page.command('BOOT_FAILURE'): ('BOOT_FAILURE', 'b'), page.command('PANIC'): ('PANIC', 'n')}
    rows = [[number(cell) for cell in row] for row in page.rows('Records')]
    same('the commands of records', list(readers), [row[0] for row in rows])
    for command, width, longest, kept in rows:
        name, letter = readers[command]
        same(f'{name}: code and longest rest', width + longest, page.limit('bytes of the longest data'))
        same(f'{name}: none at first', (0, 0, 0, 0), supervised((letter,))[-1].numbers)
        code = 256 ** width - 2
        for length in (0, 1, kept - 1, kept, kept + 1, longest):
            rest = bytes(i % 251 for i in range(length))
            for version in page.versions:
                got = supervised(('f', 0, page.frame(version, 1, command, code.to_bytes(width, 'little') + rest)), (letter,))[-1]
                same(f'{name}: the record of {length} bytes', ((1, code, length, min(length, kept)), rest[:kept]), (got.numbers, got.out))


def check_alerts(page):
    """The page's sentences on alerts and on the retained reply; they have no table."""
    posts = [('p', 5, b'first'), ('p', 6, b'second'), ('p', 7, b'third')]
    ask = lambda sequence, version=1: page.request('ALERT', version, sequence)

    def replies(*calls):
        return [answer.out for each, answer in zip(calls, supervised(*posts, *calls)[3:]) if each == TAKE]

    def said(sent):
        return page.reply(sent).data
    again = replies(ask(1, 2), TAKE, ask(1), TAKE, page.request('STATUS', sequence=2), TAKE, ask(1), TAKE, ask(3), TAKE, ask(1), TAKE)
    same('the retained reply, sent again as first written', [again[0]] * 2, [again[1], again[3]])
    same('alerts under new numbers', [b'\5first', b'\6second', b'\7third'], [said(again[0]), said(again[4]), said(again[5])])
    for name in ('REBOOT', 'POWER_OFF'):
        same(f'an alert request behind {name}', b'\6second', said(replies(ask(1), TAKE, page.request(name, sequence=2), TAKE, ask(1), TAKE)[2]))
    same('an alert with action 0', BAD_VALUE, supervised(('p', 0, b''))[0].result)


def faulty(page, version):
    """For each test the frames that fail it, each with its sequence; the later ones of a test fail those behind it too."""
    sequence, status, unknown = 0x0123456789abcd, page.command('STATUS'), 0x0b
    beyond = max(page.versions) + 1
    full = page.limit('bytes of a full group')
    head = version, sequence, page.command('BOOT_FAILURE')
    filled = next(data for data in (bytes([0, byte]) + b'\7' * (full - 3) for byte in range(1, 256)) if 0 not in page.message(*head, data)[-full:])
    tight = page.frame(*head, filled)[:-1]
    same('a request whose last group is full', b'', supervised(('f', 0, tight + b'\0'), TAKE)[-1].out)
    frame = lambda v=version, s=sequence, c=status, data=b'', **more: (page.frame(v, s, c, data, **more), s)
    unnumbered = lambda form: (form + b'\0', None)
    longest = page.limit('bytes of the longest COBS form')
    yield [unnumbered(b'\1' * (longest + 1)), unnumbered(b'\2' * (longest + 1)), unnumbered(b'\1' * 9000)]
    yield [unnumbered(b'\2'), unnumbered(frame()[0][:-2]), unnumbered(b'\1' * (longest - 1) + b'\2')]
    yield [unnumbered(tight + b'\1'), unnumbered(b'\1' * (longest - full - 2) + b'\xff' + b'\7' * full + b'\1')]
    yield [unnumbered(b'\1'), *(unnumbered(page.form(bytes(n))) for n in (page.limit('bytes of the shortest message') - 1, page.limit('bytes of the longest message') + 1))]
    yield [frame(off=1), frame(off=256), frame(off=1, magic=1), frame(off=1, magic=1, v=beyond, s=sequence | TOP, c=unknown)]
    yield [frame(magic=1), frame(magic=1 << 31, v=beyond), frame(magic=255, v=beyond, s=sequence | TOP, c=unknown)]
    yield [frame(v=0), frame(v=beyond), frame(v=0xffffffff), frame(v=beyond, s=sequence | TOP, c=unknown), frame(v=beyond, data=b'\1')]
    yield [frame(s=sequence | TOP), frame(s=sequence | TOP, c=unknown), frame(s=sequence | TOP, data=b'\1'), frame(s=ALL_ONES)]
    yield [frame(c=c) for c in range(256) if c not in [page.command(name) for name in page.commands]]
    yield [frame(data=b'\1'), frame(c=page.command('KEY_LOOKUP'), data=bytes(2)), frame(c=page.command('KEY_LOOKUP'), data=bytes(4))]


def check_failures(page):
    rows = page.rows('Decode failures')
    same('the order of the tests', [number(row[0]) for row in rows], list(range(1, 11)))
    *given, reply, reply_name, told, length, second, second_length, reasons = page.rows('Commands')[-1]
    same('the last row of the commands', ['none'] * 4 + ['same'] * 2, [*given, second, second_length])
    same(reply_name, number(reply), of_header(f'REPLY_{named(reply_name)}'))
    same('the reasons', span(reasons), (min(number(row[1]) for row in rows), max(number(row[1]) for row in rows)))
    for version in page.versions:
        for (_, reason, name, _, sequence, versions), frames in zip(rows, faulty(page, version)):
            same(named(name), number(reason), of_header(named(name)))
            data = packed(fields(told), {'reason': number(reason)})
            same('the length of a failure\'s data', span(length), (len(data), len(data)))
            for frame, own in frames:
                before, after = ('S',), page.request('STATUS', version, 0x71)
                got = supervised(('p', 3, b'kept'), before, ('f', 0, frame), TAKE, before, after, TAKE)
                wanted = {'all ones': ALL_ONES, "request's": (own or 0) | TOP}.get(sequence)
                served = version if versions == "request's" else number(versions)
                same(f'{named(name)}: the reply to {frame[:20].hex(" ")}', Reply(served, wanted, number(reply), data), page.reply(got[3].out))
                same(f'{named(name)}: what it leaves', (got[1], 3), (got[4], page.reply(got[6].out).data[0]))


def check_sending(page):
    first, second = page.request('STATUS', sequence=1), page.request('MAC', sequence=2)
    silent = [page.request(name, sequence=2, **values) for name, values in (('REBOOT', {}), ('POWER_OFF', {}), ('BOOT_FAILURE', {'reason': 1, 'rest': b''}))]
    same('the commands without a reply', ['REBOOT', 'POWER_OFF', 'BOOT_FAILURE'], [name for name, row in page.commands.items() if row[4] == 'none'])
    old, new = (supervised(each, TAKE)[-1].out for each in (first, second))
    moved = {'none': [0], 'part': [1, 5, len(old) - 1], 'all': [len(old)]}
    frames = {'replied': [second], 'not replied': silent, 'empty': [('f', 0, b'\0'), ('f', 0, b'\0\0\0')]}
    same('the rows', [(taken, frame) for frame in frames for taken in moved], [(row[0], row[1]) for row in page.rows('What goes out and when')])
    for taken, frame, out in page.rows('What goes out and when'):
        for room in moved[taken]:
            words = {'nothing': b'', 'reply': new, **{'none': {'old reply': old}, 'part': {'rest of the old reply': old[room:]}, 'all': {}}[taken]}
            for each in frames[frame]:
                got = supervised(first, ('t', room), each, TAKE)[-1].out
                same(f'{taken} taken, then {frame}', b''.join(words[word] if word in words else octets(word) for word in out.split(', ')), got)


def check_image(page):
    rows = page.rows('Saved image')
    same('the fields of a record', ['mark', 'key', 'edition', 'length', 'value', 'checksum', 'end'], [row[2] for row in rows])
    same('the values of the others', ['any'] * 5, [row[3] for row in rows[1:-1]])
    stored = lambda key, value: page.request('KEY_SET', key=key, value=value)
    saved = supervised(stored(5, b'old'), stored(5, bytes(range(256))), stored(3, b''), stored(6, b'password'), ('S',))[-1].out
    same('a saved image', page.image(page.record(3, 1, b''), page.record(5, 2, bytes(range(256)))), saved)
    image = page.image(page.record(3, 0xa1b2c3d4, b'x'), page.record(4, 0, b''), page.record(5, 7, bytes(4096)))
    got = supervised(stored(5, b'old'), ('R', 0, image), ('S',))
    same('a restored image, saved again', (0, image), (got[1].result, got[2].out))
    look = page.asked('KEY_LOOKUP', (('R', 0, image),), 2, key=3, maxresponse=9).data
    same('a lookup behind it', b'\0' + 0xa1b2c3d4.to_bytes(4, 'little') + b'x', look)


def check_image_examples(page):
    images = {'no setting': supervised(('S',))[-1].out, 'one setting': supervised(page.request('KEY_SET', key=3, value=b'a'), ('S',))[-1].out}
    same('the examples of images', list(images), [row[1] for row in page.rows('Image examples')])
    for cell, words in page.rows('Image examples'):
        same(f'the image of {words}', octets(cell), images[words])


def check_image_faults(page):
    places = layout(page.rows('Saved image')[:-1])
    first, third = page.record(3, 1, b'ab'), page.record(5, 9, b'c')
    image = page.image(first, third)
    longest = {number(row[0]): number(row[3]) for row in page.rows('Keys') if row[6] == 'yes'}
    others = [key for key in range(256) if key not in longest]
    end = octets(page.rows('Saved image')[-1][3])
    rest = lambda name, value=b'': len(first) + places[name][0] + len(value) * (name == 'checksum')

    def behind(name, made_of):
        """A fault in a first and in a second record, with its offset."""
        return [(page.image(made_of(3)), rest(name, b'ab') - len(first)), (page.image(first, made_of(5)), rest(name, b'ab'))]
    known = {
        'RESTORE_BAD_MARK': ('mark', behind('mark', lambda key: page.record(key, 1, b'ab', mark=b'KW'))
                             + behind('mark', lambda key: page.record(254, 1, bytes(9), mark=b'\0\0')) + [(first + b'EK', len(first)), (b'KF', 0)]),
        'RESTORE_BAD_KEY': ('key', [case for other in others for case in behind('key', lambda key: page.record(other, 1, b'ab', length=60000, off=1))]
                            + [(page.image(page.record(key, 1, b''), page.record(again, 1, b'')), len(page.record(key, 1, b'')) + places['key'][0])
                               for key, again in ((3, 3), (4, 3), (5, 3), (4, 4), (5, 5), (5, 4))]),
        'RESTORE_TOO_LONG': ('length', [(page.image(page.record(key, 1, bytes(most + 1), off=off)), places['length'][0]) for key, most in longest.items() for off in (0, 1)]),
        'RESTORE_BAD_CHECKSUM': ('checksum', [case for off in (1, 255, 256, 65535) for case in behind('checksum', lambda key: page.record(key, 1, b'ab', off=off))]),
        'RESTORE_CUT_SHORT': ("the image's end", [(image[:cut], cut) for cut in range(len(image))] + [(first + b'\xff', len(first) + 1)]),
        'RESTORE_BYTES_AFTER': ('behind the end mark', [(image + more, len(image)) for more in (b'\0', end, image)] + [(end + b'\7', len(end))]),
    }
    rows = page.rows('Image faults')
    same('the faults', list(known), [named(row[1]) for row in rows])
    for fault, name, _, field in rows:
        words, cases = known[named(name)]
        same(named(name), (number(fault), field), (of_header(named(name)), words))
        for given, offset in cases:
            before, got, after = supervised(page.request('KEY_SET', key=4, value=b'kept'), ('S',), ('R', 0, given), ('S',))[1:]
            same(f'{named(name)} of {given[:20].hex(" ")}', (number(fault), offset), (got.result, got.numbers[0]))
            same(f'{named(name)}: what it leaves', before, after)
    for key, most in longest.items():
        same(f'key {key} at its longest', 0, supervised(('R', 0, page.image(page.record(key, 1, bytes(most)))))[0].result)


def check_rot(page):
    rows = page.rows('Root-of-trust message')
    same('the fields of a message', ['protocol', 'type', 'length', 'crc', 'payload'], [row[2] for row in rows])
    same('the values of the others', ['any'] * 4, [row[3] for row in rows[1:]])
    same('the width of the payload', 'n', rows[-1][1])
    same('the header', layout(rows)['payload'][0], of_header('ROT_HEADER_LENGTH'))
    for payload in (b'', b'\0', bytes(range(256)) * 2):
        message = page.rot(1, payload)
        same('a message that is written', message, ran(('w', 1, payload))[0].out)
        for more in (b'', b'\0\0', b'\xff'):
            got = ran(('r', 0, message + more))[0]
            same('a message that is read', (0, (of_header('ROT_MESSAGE'), 1, len(payload)), payload), (got.result, got.numbers[:3], got.out))
    for given in (b'\0', b'\0\7', bytes(600), b'\0' + page.rot(1, b'x')[1:]):
        got = ran(('r', 0, given))[0]
        same('protocol 0', (0, (of_header('ROT_NOTHING'), 0, 0)), (got.result, got.numbers[:3]))


def check_types(page):
    rows = [(number(kind), named(name), words) for kind, name, words, _ in page.rows('Types')]
    same('the types', list(range(1, 10)), [kind for kind, *_ in rows])
    answer = next(kind for kind, name, _ in rows if name == 'ROT_ECHO_RESPONSE')
    for kind, name, words in rows:
        same(name, kind, of_header(name))
        for payload in (b'', b'\x09', bytes(range(200)), bytes(512)):
            same(f'{name}, written', page.rot(kind, payload), ran(('w', kind, payload))[0].out)
            got = ran(('r', 0, page.rot(kind, payload)))[0]
            echo = page.rot(answer, payload)
            wanted = {'handed out': ((of_header('ROT_MESSAGE'), kind, len(payload)), payload), 'answered': ((of_header('ROT_ECHOED'), 0, len(echo)), echo)}.get(words)
            same(f'{name}, read', (0, wanted), (got.result, (got.numbers[:3], got.out)))


def check_crc(page):
    for given in (b'', b'\0', b'\x80', b'123456789', bytes(range(256)) * 2):
        same('a CRC', crc(given), ran(('c', 0, given))[0].numbers[0])
    same('the echo messages', ['echo request', 'its echo response'], [row[1] for row in page.rows('CRC')])
    request, response = (octets(row[0]) for row in page.rows('CRC'))
    same('the answer to the echo request', (0, response), (lambda got: (got.result, got.out))(ran(('r', 0, request))[0]))
    same('the echo request, written', request, ran(('w', of_header('ROT_ECHO_REQUEST'), request[8:]))[0].out)
    got = ran(('r', 0, response))[0]
    same('the echo response, read', (0, of_header('ROT_ECHO_RESPONSE')), (got.result, got.numbers[1]))


def check_refusals(page):
    most, protocol = page.limit('bytes of the longest root-of-trust payload'), number(page.rows('Root-of-trust message')[0][3])
    kinds = [number(row[0]) for row in page.rows('Types')]
    wrong = [kind for kind in range(256) if kind not in kinds]
    cut = page.rot(1, b'abcde')
    known = {
        'ROT_NO_INPUT': ([b''], []),
        'ROT_BAD_PROTOCOL': ([bytes([other]) + rest for other in range(1, 256) if other != protocol for rest in (b'', cut[1:])], []),
        'ROT_SHORT_HEADER': ([cut[:n] for n in range(1, 8)] + [b'\1\0\xff\xff\0\0\0'], []),
        'ROT_TOO_LONG': ([page.rot(1, bytes(most + 1)), page.rot(0, b'', length=most + 1, flip=1), page.rot(1, b'', length=65535)],
                         [(1, bytes(most + 1)), (0, bytes(most + 1))]),
        'ROT_CUT_SHORT': ([cut[:-1], cut[:8], page.rot(0, b'abc', length=4, flip=1), page.rot(1, bytes(most - 1), length=most)], []),
        'ROT_BAD_CRC': ([page.rot(kind, b'abc', flip=1 << bit) for kind in (0, 1, 2, 10) for bit in (0, 9, 31)], []),
        'ROT_BAD_TYPE': ([page.rot(kind, b'abc') for kind in wrong], [(kind, bytes(length)) for kind in wrong for length in (0, most)]),
    }
    rows = page.rows('Refusals')
    same('the refusals', list(known), [named(row[1]) for row in rows])
    same('their order', sorted(number(row[0]) for row in rows), [number(row[0]) for row in rows])
    for refusal, name, reads, writes, _ in rows:
        inputs, messages = known[named(name)]
        same(named(name), number(refusal), of_header(named(name)))
        same(f'{named(name)}: reader and writer', (reads, writes), ('yes', 'yes' if messages else 'no'))
        for given in inputs:
            same(f'{named(name)}, read: {given[:12].hex(" ")}', number(refusal), ran(('r', 0, given))[0].result)
        for kind, payload in messages:
            same(f'{named(name)}, written: {kind}', number(refusal), ran(('w', kind, payload))[0].result)


def check_complete(page):
    """Each number of the wire that the header names stands in a table; no cell that is for readers alone has a number."""
    names = {f'COMMAND_{name}' for name in page.commands} | {f'REPLY_{named(row[5])}' for row in page.rows('Commands') if row[5] != 'none'}
    for heading, (columns, rows) in page.found.items():
        if heading != 'Commands' and 'Name' in columns:
            names |= {named(row[columns.index('Name')]) for row in rows}
        for row in rows:
            if heading in PROSE and re.search(r'\d', row[columns.index(PROSE[heading])]):
                raise Difference(f'{heading}: a number among words: {row}')
    wire = re.compile(r'(COMMAND|REPLY|KEY|LOOKUP|SET|INVENTORY|STATUS|OPTION|BSU|REASON|RESTORE|ROT)_(?!HEADER|LONGEST|NOTHING|MESSAGE|ECHOED)')
    listed = {name for name in constants() if wire.match(name)}
    same('names on the page alone and in the header alone', ([], []), (sorted(names - listed), sorted(listed - names)))


def sized(cell, length):
    """A list of fields with its length."""
    return cell if cell == 'none' else f'{cell} ({length} byte{"s" * (length != "1")})'


def mirrored(page):
    """The comment of each constant of the wire by the page's rows."""
    out = {}
    for _, name, data, length, _, reply, first, first_length, second, second_length, results in page.rows('Commands'):
        if name != 'none':
            out[f'COMMAND_{named(name)}'] = f'request data: {sized(data, length)}; reply: ' + ('none' if reply == 'none' else f'OATCASTLE_REPLY_{named(reply)}')
        if reply != 'none':
            *ahead, last = first.split(', ')
            later = '' if second == 'same' else f'; in version 2: {sized(", ".join([*ahead, second, last]), second_length)}'
            out[f'REPLY_{named(reply)}'] = f'data: {sized(first, first_length)}{later}' + ('' if results == 'none' else f'; {fields(first)[0][0]} {results}')
    for _, name, least, most, can_set, can_look, in_image, value in page.rows('Keys'):
        can = [word for word, yes in (('set', can_set), ('looked up', can_look), ('saved', in_image)) if yes == 'yes']
        out[named(name)] = f'{value}; {least if least == most else f"{least} to {most}"} bytes; {", ".join(can)}'
    for _, _, name, fails, *_ in page.rows('Decode failures'):
        out[named(name)] = f'{out[named(name)]}; {fails}' if named(name) in out else fails
    out.update({named(name): when for _, _, name, when in page.rows('Results')})
    out.update({named(name): meaning for _, name, meaning in page.rows('Bits')})
    out.update({named(name): f'{when}; at the offset: {field}' for _, name, when, field in page.rows('Image faults')})
    out.update({named(name): f'{read}; payload: {payload}' for _, name, read, payload in page.rows('Types')})
    out.update({named(name): when for _, name, *_, when in page.rows('Refusals')})
    return out


def check_comments(page):
    for name, words in mirrored(page).items():
        same(f'the comment of OATCASTLE_{name}', words, page.words.get(name))


CHECKS = {
    'Message': check_message, 'Limits': check_limits, 'Checksum': check_checksum, 'Frame': check_forms, 'A request, byte by byte': check_request_example,
    'Its reply, run by run': check_reply_example, 'Commands': check_commands, 'Results': check_results, 'Keys': check_keys, 'Bits': check_bits, 'Records': check_records,
    'Alerts': check_alerts, 'Decode failures': check_failures, 'What goes out and when': check_sending, 'Saved image': check_image, 'Image examples': check_image_examples,
    'Image faults': check_image_faults, 'Root-of-trust message': check_rot, 'Types': check_types, 'CRC': check_crc, 'Refusals': check_refusals, '': check_complete, 'comments': check_comments,
}


# The checks that are of no one table.
BESIDE = {'', 'Alerts', 'comments'}


def compared(found, words, first=''):
    """Makes every check, that of one table first; the first difference, or None."""
    try:
        page = Page(found, words)
        for heading in sorted(CHECKS, key=lambda heading: heading != first):
            CHECKS[heading](page)
    except Difference as difference:
        return str(difference)
    except (KeyError, ValueError, OverflowError, StopIteration) as error:
        return f'{type(error).__name__}: {error}'
    return None


# ---- planted changes


def changes(column, cell, others):
    """Other contents of a cell: each number one more and one less, each byte another; words as another row of that column has them."""
    if column in OCTETS or re.fullmatch(r'[0-9a-f]{2}( [0-9a-f]{2})*', cell) and column == 'Value':
        for match in re.finditer(r'(?<!\*)\b[0-9a-f]{2}\b', cell):
            yield f'{cell[:match.start()]}{int(match.group(), 16) ^ 1:02x}{cell[match.end():]}'
        numbers = re.finditer(r'(?<=\*)\d+', cell)
    else:
        numbers = re.finditer(r'0x[0-9a-f]+|\d[\d,]*\d|\d', cell)
    for match in numbers:
        value, text = int(match.group().replace(',', ''), 0), match.group()
        for other in (value + 1, value - 1):
            if other >= 0:
                yield cell[:match.start()] + (f'0x{other:0{len(text) - 2}x}' if text.startswith('0x') else f'{other:,}') + cell[match.end():]
    if not re.search(r'\d', cell):
        yield from [other for other in others if other != cell][:2]


def planted(found):
    """Each change of a cell, the table that it is in and what it is."""
    for heading, (columns, rows) in found.items():
        for at, row in enumerate(rows):
            for place, cell in enumerate(row):
                first = 'comments' if PROSE.get(heading) == columns[place] else heading
                for new in changes(columns[place], cell, sorted({other[place] for other in rows})):
                    changed = [*rows[:at], [*row[:place], new, *row[place + 1:]], *rows[at + 1:]]
                    yield first, f'{heading}, row {at + 1}, {columns[place]}: {cell} as {new}', {**found, heading: (columns, changed)}


def main():
    if sys.argv[1:]:
        sys.exit(__doc__)
    made(LIBRARY)
    found, words = tables(PAGE.read_text()), comments(HEADER)
    missing = set(found) ^ (set(CHECKS) - BESIDE)
    if missing:
        sys.exit(f'wire: tables without a check, or checks without a table: {sorted(missing)}')
    difference = compared(found, words)
    if difference:
        sys.exit(f'wire: {difference}')
    rows = sum(len(rows) for _, rows in found.values())
    mirrors = list(mirrored(Page(found, words)))
    print(f'wire: {len(found)} tables of docs/WIRE.md, {rows} rows, as the library has them; {len(mirrors)} comments of the header as the rows; {ran.cache_info().currsize} lists of calls')
    count, missed = 0, []
    for heading, what, changed in planted(found):
        count += 1
        if compared(changed, words, heading) is None:
            missed.append(what)
    for name in mirrors:
        count += 1
        if compared(found, {**words, name: words[name] + ' too'}, 'comments') is None:
            missed.append(f'another comment of OATCASTLE_{name}')
    for what in missed:
        print(f'wire: not seen: {what}')
    print(f'wire: {count - len(missed)} of {count} planted changes seen')
    sys.exit(1 if missed or not count else 0)


if __name__ == '__main__':
    main()
