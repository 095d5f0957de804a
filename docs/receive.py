#!/usr/bin/env python3
"""Draws docs/receive.svg: how a received byte goes through the files, and where 12 and each reason are decided.
Every file and function that the picture names is looked for in crates/, and every reason where the picture has it decided.
Assumes sources as `rt fmt` lays them out: a function ends with a } at the line's begin.

usage: docs/receive.py write | check"""
import pathlib
import re
import sys

sys.dont_write_bytecode = True
import drawing
from drawing import BLUE, GREEN, GREY, INK, LINE, PAPER, RED, ROSE, SAND

CRATES = pathlib.Path(__file__).resolve().parent.parent / 'crates'
PAD, SIZE, STEP, TAG = 12, 12, 17, 34


class Row:
    """A line of a box: what is decided there, if anything, and the words; `function` has `mark` in its body where it decides that."""

    def __init__(self, words, tag=None, function=None, mark=None):
        self.words, self.tag, self.function, self.mark = words, tag, function, mark


class Box:
    def __init__(self, file, fill, x, wide, *rows):
        self.file, self.fill, self.x, self.wide, self.rows, self.y = file, fill, x, wide, rows, 0

    def lines(self):
        """Each row with its lines."""
        return [(row, drawing.wrapped(row.words, SIZE, self.wide - 2 * PAD - (TAG if row.tag else 0))) for row in self.rows]

    @property
    def high(self):
        return 34 + sum(STEP * len(lines) + 4 for _, lines in self.lines())

    @property
    def bottom(self):
        return self.y + self.high

    @property
    def right(self):
        return self.x + self.wide


LEFT, LEFT_WIDE, RIGHT, RIGHT_WIDE = 58, 440, 578, 452
RECEIVE = Box(
    'responder/src/receive.rt', BLUE, LEFT, LEFT_WIDE,
    Row('receive() takes a whole piece, step() up to one 00.'),
    Row('are_valid() of responder/src/stores.rt: a lent part is too short, or holds a value that is not allowed', 12, 'step', 'Outcome::Refused'),
    Row("It asks is_valid() of line/src/reader.rt for the reader's part."),
    Row('It asks outbox_is_valid(), factory_is_valid(), settings_are_valid() and registers_are_valid() of supervisor/src/valid.rt.'))
READER = Box(
    'line/src/reader.rt', GREEN, RIGHT, RIGHT_WIDE,
    Row('read() takes the bytes up to a 00; append() keeps them.'),
    Row('finish_frame() looks at a frame once its 00 is there. An empty frame ends here, without a reply.'),
    Row('finish_frame(): more than 4,140 bytes ahead of the 00', 1, 'finish_frame', 'Failure::Form'),
    Row("finish_form(): a code byte runs past the frame's end, by decoded_length() of line/src/cobs.rt", 1, 'finish_form', 'Failure::Form'),
    Row('finish_form(): fewer than 19 or more than 4,123 bytes', 3, 'finish_form', 'Failure::Length'),
    Row('decode_frame() decodes in place, by decode() of line/src/cobs.rt.'),
    Row('inspect(): another checksum, by checksum_of_first() of line/src/sums.rt', 2, 'inspect', 'Failure::Checksum'),
    Row('inspect(): another magic', 4, 'inspect', 'Failure::Magic'))
COLLECT = Box(
    'line/src/reader.rt', GREEN, RIGHT, RIGHT_WIDE,
    Row("Another way in: collect() takes bytes ahead of a 00 as they come, and touches the reader's part alone."),
    Row("collect(): is_valid() says no to the reader's part", 12, 'collect', 'Refusal::BadState'))
ANSWER = Box(
    'responder/src/receive.rt', BLUE, LEFT, LEFT_WIDE,
    Row('answer_frame() hands a good message on. head_and_reason() has the reason of a failure.'),
    Row("Behind a set of key 6, wipe_passphrase() of responder/src/wiping.rt clears the reader's part."))
REQUESTS = Box(
    'responder/src/requests.rt', BLUE, LEFT, LEFT_WIDE,
    Row('respond(): is_served() says no, the version is neither 1 nor 2', 5, 'respond', 'REASON_VERSION'),
    Row('respond(): the top bit of the sequence is set', 6, 'respond', 'REASON_SEQUENCE'),
    Row('respond(): responder/src/commands.rt has no such command', 3, 'respond', 'REASON_LENGTH'),
    Row('respond(): the command does not allow so many bytes of data', 7, 'respond', 'REASON_DATA'),
    Row('serve() picks the handler of the command.'))
HANDLERS = (
    Box('responder/src/answers.rt', BLUE, LEFT, 214, Row('send_value(), send_block() and others only reply.')),
    Box('responder/src/settings.rt', BLUE, LEFT + 226, 214, Row('set_key() stores a value of keys 3 to 6.')),
    Box('responder/src/records.rt', BLUE, LEFT, 214, Row('ask_for(), panic(), boot_failure() write registers.')),
    Box('responder/src/alert.rt', BLUE, LEFT + 226, 214, Row('alert() takes the oldest, or sends the last again.')))
SENDING = Box(
    'responder/src/sending.rt', BLUE, LEFT, LEFT_WIDE,
    Row('send() makes a reply, fail() a decode failure with its reason, send_none() none.'),
    Row('set_pending() drops what is unsent. A 00 that is owed goes first.'))
WRITER = Box(
    'line/src/writer.rt', GREEN, RIGHT, RIGHT_WIDE,
    Row('write(): assemble() puts the message together, encode() of line/src/cobs.rt its form, straight into the outbox.'))
OUTBOX = Box(
    'supervisor/src/outbox.rt', SAND, RIGHT, RIGHT_WIDE,
    Row('take() moves what is pending, as far as the room goes.'),
    Row("take(): the outbox is not valid", 12, 'take', 'Refusal::BadState'))
BOXES = (RECEIVE, READER, COLLECT, ANSWER, REQUESTS, *HANDLERS, SENDING, WRITER, OUTBOX)


# ---- The names

def read(path):
    """A source's text; nothing where it is gone."""
    file = CRATES / path
    return file.read_text() if file.exists() else None


def body(text, name):
    """A function's text from its name on; nothing where it is gone."""
    match = re.search(rf'^(?:pub(?:\(crate\))? )?fn {name}[(<].*?^}}', text or '', re.M | re.S)
    return match.group(0) if match else None


def named(box):
    """The files and functions that a box names: (file, function), the function of another file behind `of`."""
    yield box.file, None
    for row in box.rows:
        for listed, other in re.findall(r'((?:\w+\(\)(?:, | and )?)+)(?: of (\S+\.rt))?', row.words):
            yield from ((other or box.file, name) for name in re.findall(r'(\w+)\(\)', listed))
        if row.function:
            yield box.file, row.function


def reasons(read):
    """What the sources decide: each reason with the file, the function and the mark of its place."""
    numbers = dict(re.findall(r'const (REASON_\w+): u8 = (\d+);', read('line/src/numbers.rt') or ''))
    answers = body(read('responder/src/receive.rt'), 'head_and_reason') or ''
    turned = {f'Failure::{kind}': constant for kind, constant in re.findall(r'Failure::(\w+)(?:\(\w+\))? => \(.*?numbers::(REASON_\w+)', answers)}
    for file in ('line/src/reader.rt', *(f'responder/src/{path.name}' for path in sorted((CRATES / 'responder/src').glob('*.rt')))):
        text = read(file) or ''
        for function in re.findall(r'^(?:pub(?:\(crate\))? )?fn (\w+)', text, re.M):
            told = body(text, function) or ''
            if file == 'line/src/reader.rt':
                for mark in re.findall(r'\bFailure::\w+', told):
                    yield int(numbers.get(turned.get(mark), 0)), file, function, mark
            elif function != 'head_and_reason':
                for mark in re.findall(r'\bREASON_\w+', told):
                    yield int(numbers.get(mark, 0)), file, function, mark


def faults(read=read, boxes=BOXES):
    """What the picture names and the tree has not, and reasons that the picture has elsewhere than the code."""
    for box in boxes:
        for file, function in named(box):
            if read(file) is None:
                yield f'receive.svg: crates/{file} is gone'
            elif function and body(read(file), function) is None:
                yield f'receive.svg: {function} is not in crates/{file}'
    drawn = {(row.tag, box.file, row.function, row.mark) for box in boxes for row in box.rows if row.tag and row.tag != 12}
    for place in sorted(drawn ^ set(reasons(read))):
        yield f'receive.svg: reason {place[0]} in {place[2]} of crates/{place[1]} ({place[3]}) is only in {"the picture" if place in drawn else "the code"}'
    for box in boxes:
        for row in box.rows:
            if row.tag == 12 and row.mark not in (body(read(box.file), row.function) or ''):
                yield f'receive.svg: {row.function} of crates/{box.file} does not refuse'


# ---- The picture

def tag(number, x, y):
    refuses = number == 12
    yield f'<rect x="{x}" y="{y - 13}" width="26" height="17" rx="4" fill="{RED if refuses else ROSE}" stroke="{RED}"/>'
    yield drawing.text(x + 13, y, str(number), 12, PAPER if refuses else RED, True, 'middle')


def told(box):
    yield drawing.box(box.x, box.y, box.wide, box.high, box.fill)
    yield drawing.text(box.x + PAD, box.y + 20, box.file, 13, bold=True)
    y = box.y + 40
    for row, lines in box.lines():
        if row.tag:
            yield from tag(row.tag, box.x + PAD, y)
        for line in lines:
            yield drawing.text(box.x + PAD + (TAG if row.tag else 0), y, line, SIZE, INK if row.tag else GREY)
            y += STEP
        y += 4


def place():
    """Sets where each box stands; gives the picture's height."""
    RECEIVE.y = 128
    READER.y = 128
    ANSWER.y = RECEIVE.bottom + 40
    COLLECT.y = READER.bottom + 46
    REQUESTS.y = ANSWER.bottom + 34
    for number, box in enumerate(HANDLERS):
        box.y = (REQUESTS.bottom + 34 if number < 2 else HANDLERS[number - 2].bottom + 12)
    SENDING.y = HANDLERS[3].bottom + 34
    WRITER.y = SENDING.y - 74
    OUTBOX.y = WRITER.bottom + 40
    return max(SENDING.bottom, OUTBOX.bottom) + 56


def arrows():
    middle = LEFT + LEFT_WIDE / 2
    lane = 30
    yield drawing.arrow([(middle, 106), (middle, RECEIVE.y)])
    yield drawing.arrow([(RECEIVE.right, RECEIVE.y + 40), (READER.x, RECEIVE.y + 40)])
    turn = ANSWER.y + 22
    yield drawing.arrow([(READER.x, turn), (ANSWER.right, turn)])
    yield drawing.arrow([(middle, ANSWER.bottom), (middle, REQUESTS.y)])
    yield drawing.arrow([(middle, REQUESTS.bottom), (middle, HANDLERS[0].y - 6)])
    yield drawing.arrow([(middle, HANDLERS[3].bottom + 6), (middle, SENDING.y)])
    for box in (ANSWER, REQUESTS):
        yield drawing.arrow([(box.x, box.y + 24), (lane, box.y + 24), (lane, SENDING.y + 24), (SENDING.x, SENDING.y + 24)], stroke=RED, name='r')
    yield drawing.arrow([(SENDING.right, SENDING.y + 24), (WRITER.x - 34, SENDING.y + 24), (WRITER.x - 34, WRITER.y + 24), (WRITER.x, WRITER.y + 24)])
    out = WRITER.x + RIGHT_WIDE / 2
    yield drawing.arrow([(out, COLLECT.y), (out, READER.bottom)])
    yield drawing.arrow([(out, WRITER.bottom), (out, OUTBOX.y)])
    yield drawing.arrow([(out, OUTBOX.bottom), (out, OUTBOX.bottom + 24)])


def drawn():
    height, middle, out = place(), LEFT + LEFT_WIDE / 2, WRITER.x + RIGHT_WIDE / 2
    width = RIGHT + RIGHT_WIDE + 28
    lines = drawing.head(width, height, 'How a received byte goes through the files',
                         'Boxes for the files of the supervisor and of the line layer, in the order in which a frame goes through them. Marks tell where 12 and each reason are decided.')
    lines += [f'<defs>{drawing.tip()}{drawing.tip("r", RED)}</defs>', drawing.text(20, 28, 'How a received byte goes through the files', 16)]
    lines.append(drawing.text(20, 50, 'Tests run from the top to the bottom, and the first that fails speaks. Files are named from crates/ on.', 12, GREY))
    lines += [*tag(12, 20, 76), drawing.text(54, 76, 'the call is refused as 12, and changes nothing', 12)]
    lines += [*tag(5, 370, 76), drawing.text(404, 76, 'a reason: the frame is answered by 0x02 with this number, on the red way', 12)]
    lines += arrows()
    lines.append(drawing.text(middle, 102, "the caller's piece of bytes", 12, anchor='middle'))
    for box in BOXES:
        lines += told(box)
    lines.append(drawing.text(middle + 10, ANSWER.bottom + 22, 'a good message', 12))
    lines.append(drawing.text(out + 10, READER.bottom + 28, 'what a frame has so far', 12))
    lines.append(drawing.text(out, OUTBOX.bottom + 42, "the caller's room, then the wire", 12, anchor='middle'))
    return '\n'.join(lines + ['</svg>']) + '\n'


def main():
    found = list(faults())
    if sys.argv[1:] == ['check'] and found:
        sys.exit('\n'.join(found))
    drawing.serve('receive.svg', drawn, __doc__)


if __name__ == '__main__':
    main()
