#!/usr/bin/env python3
"""Draws docs/state.svg: the lent parts of both ends, field by field. Offsets and lengths are worked out from the constants of the sources,
and compared with the tables of docs/STATE.md.
Assumes constants on one line, `pub const NAME: usize = EXPRESSION;`, and a table for each part in docs/STATE.md.

usage: docs/state.py write | check"""
import pathlib
import re
import sys

sys.dont_write_bytecode = True
import drawing
from drawing import BLUE, DEEP_BLUE, DEEP_GREEN, GREEN, GREY, SAND

HERE = pathlib.Path(__file__).resolve().parent
FILES = {'limits': 'line/src/limits.rt', 'reader': 'line/src/reader.rt', 'supervisor': 'supervisor/src/layout.rt', 'requester': 'requester/src/layout.rt'}
FILLS = (BLUE, DEEP_BLUE, GREEN, DEEP_GREEN, SAND)
READER = ('reader', 'reader', 'STATE_LENGTH', 'The line reader', [('how many', '0'), ("the frame's bytes", 'FRAME_OFFSET')])
# of each part: its name, the file of its constants, its length, its heading in docs/STATE.md, and each field with its offset
SUPERVISOR = (
    READER,
    ('outbox', 'supervisor', 'OUTBOX_LENGTH', 'Outbox', [
        ('from', 'OUTBOX_FROM_OFFSET'), ('to', 'OUTBOX_TO_OFFSET'), ('00 owed', 'OUTBOX_TERMINATOR_OWED_OFFSET'), ('pending bytes', 'OUTBOX_BYTES_OFFSET')]),
    ('factory', 'supervisor', 'FACTORY_LENGTH', 'Factory store', [
        ('BSU', 'BSU_OFFSET'), ('identity', 'IDENTITY_OFFSET'), ('addresses', 'MAC_OFFSET'), ('hash', 'HASH_OFFSET'),
        ('image ID, its length first', 'IMAGE_ID_LENGTH_OFFSET'), ('64 items', 'ITEMS_OFFSET'), ('how many', 'ITEM_COUNT_OFFSET'),
        ('version', 'INVENTORY_VERSION_OFFSET'), ('"pong"', 'PONG_OFFSET')]),
    ('settings', 'supervisor', 'SETTINGS_LENGTH', 'Settings store', [('key 3', '0'), ('key 4', 'KEY_4_OFFSET'), ('key 5: withdrawn keys', 'KEY_5_OFFSET'), ('key 6: passphrase', 'KEY_6_OFFSET')]),
    ('registers', 'supervisor', 'REGISTERS_LENGTH', 'Registers', [
        ('status', 'STATUS_OFFSET'), ('options', 'OPTIONS_OFFSET'), ('reboot', 'REBOOT_OFFSET'), ('power off', 'POWER_OFF_OFFSET'), ('boot failure', 'BOOT_FAILURE_OFFSET'),
        ('panic', 'PANIC_OFFSET'), ('8 alerts, how many first', 'ALERT_COUNT_OFFSET'), ('retained reply', 'RETAINED_OFFSET')]),
)
MAIN = (
    READER,
    ('requester', 'requester', 'REQUESTER_LENGTH', "The main processor's part", [
        ('newest number', 'NUMBER_OFFSET'), ('recovery', 'RECOVERY_OFFSET'), ('to go out', 'UNSENT_OFFSET'), ('kept', 'KEPT_OFFSET'), ('command', 'COMMAND_OFFSET'),
        ('length', 'LENGTH_OFFSET'), ('its data', 'DATA_OFFSET')]),
)
GROUPS = (('The supervisor', SUPERVISOR), ("The main processor's end", MAIN))
NOTES = {'settings': 'Each key: held 1, edition 4, length 2, then its value.'}
MARGIN, LEFT, ROW, HIGH = 20, 122, 74, 42


def constants(file, known):
    """The values of a file's constants, which may name those of `limits`."""
    found = dict(known)
    for name, told in re.findall(r'^(?:pub(?:\(crate\))? )?const (\w+): \w+ = ([^;]+);', (HERE.parent / 'crates' / FILES[file]).read_text(), re.M):
        found[name] = eval(told.replace('u32::MAX', '2 ** 32 - 1').replace('limits::', '').replace(' as usize', '').replace('/', '//'), {'__builtins__': {}}, found)
    return found


def parts(group):
    """Each part with its length, and its fields with offset and width."""
    limits = constants('limits', {})
    for name, file, length, heading, fields in group:
        values = constants(file, limits)
        places = [eval(told, {'__builtins__': {}}, values) for _, told in fields] + [values[length]]
        yield name, heading, values[length], [(label, at, after - at) for (label, _), at, after in zip(fields, places, places[1:])]


def documented():
    """Under each heading of docs/STATE.md, its text."""
    sections = re.split(r'^##+ ', (HERE / 'STATE.md').read_text(), flags=re.M)
    return {section.split('\n')[0]: section for section in sections}


def undocumented():
    """The lengths and offsets that docs/STATE.md does not have."""
    sections = documented()
    for _, group in GROUPS:
        for name, heading, length, fields in parts(group):
            text = next((text for title, text in sections.items() if title.startswith(heading)), '')
            if f'{length:,} bytes' not in text.split('\n')[0]:
                yield f'{name}: {length:,} bytes'
            for label, at, _ in fields:
                if not re.search(rf'^\| {at:,}(?: \+ [^|]*)? \||\bat {at:,}\b', text, re.M):
                    yield f'{name}: {label} at {at:,}'


def need(label, at, width):
    """A cell is as wide as its words, and a little wider the more bytes it has."""
    return round(14 + max(drawing.wide(label, 12), drawing.wide(f'{width:,}', 11), 8 * len(bin(width))))


def row(name, length, fields, y):
    yield drawing.text(MARGIN, y + 17, name, 14, bold=True)
    yield drawing.text(MARGIN, y + 34, f'{length:,} bytes', 11, GREY)
    x = LEFT
    for number, (label, at, width) in enumerate(fields):
        wide = need(label, at, width)
        yield drawing.box(x, y, wide, HIGH, FILLS[number % len(FILLS)], 0)
        yield drawing.text(x + 7, y + 18, label, 12)
        yield drawing.text(x + 7, y + 35, f'{width:,}', 11, GREY)
        yield drawing.text(x + 1, y - 4, f'{at:,}', 11, GREY)
        x += wide
    if name in NOTES:
        yield drawing.text(x + 14, y + 26, NOTES[name], 11, GREY)


def drawn():
    y, lines, right = 58, [], 0
    for title, group in GROUPS:
        told = list(parts(group))
        total = sum(length for _, _, length, _ in told)
        y += 24
        lines.append(drawing.text(MARGIN, y, f'{title}: {len(told)} parts, together {total:,} bytes', 14, bold=True))
        y += 30
        for name, _, length, fields in told:
            lines += row(name, length, fields, y)
            note = 20 + drawing.wide(NOTES[name], 11) if name in NOTES else 0
            right = max(right, LEFT + sum(need(*field) for field in fields) + note)
            y += ROW
    width = int(right + MARGIN)
    top = drawing.head(width, y - 6, 'The lent parts of both ends', 'The five parts of the supervisor and the two of the main processor, each as a row of fields with offsets and widths.')
    top += [drawing.text(MARGIN, 26, 'The lent parts, field by field', 16),
            drawing.text(MARGIN, 48, 'Above a field: its offset in the part. In it: its name, and how many bytes it has. Fields are not drawn to scale.', 12, GREY)]
    return '\n'.join(top + lines + ['</svg>']) + '\n'


def main():
    missing = list(undocumented())
    if sys.argv[1:] == ['check'] and missing:
        sys.exit('\n'.join(f'state: docs/STATE.md has no {told}' for told in missing))
    drawing.serve('state.svg', drawn, __doc__)


if __name__ == '__main__':
    main()
