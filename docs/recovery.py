#!/usr/bin/env python3
"""Draws docs/recovery.svg: the frames of one recovery on a time line, out of a run of tests/both.
Assumes that the static library is built, and what tests/both/run assumes.

usage: docs/recovery.py draw | check

draw: builds the simulation, and takes the first seed in whose run such a recovery comes early
check: compares the drawing with its seed's run, by the simulation that tests/both/run built last"""
import html
import pathlib
import re
import subprocess
import sys

HERE = pathlib.Path(__file__).resolve().parent
FILE = HERE / 'recovery.svg'
ROOT = HERE.parent
sys.path.insert(0, str(ROOT / 'tests'))
sys.dont_write_bytecode = True
import drawing
from common import made
from drawing import DEEP_BLUE, GREY, INK, ORANGE, RED, SAND
REQUESTS = 2500
MAIN, SUPERVISOR, WIDTH, TOP = 376, 726, 996, 116
ASKS = {'0e': 'look up the withdrawn-key list', '08': 'fetch the status', '0a': 'fetch an alert', '09': 'acknowledge the start'}


def lines(seed):
    """What the run of that seed wrote down of such a recovery; nothing where it has none."""
    run = subprocess.run([str(ROOT / 'target/both/run'), '--recovery', str(seed), str(REQUESTS)], capture_output=True, text=True)
    return [] if run.returncode else [(int(turn), words) for turn, words in (line.split(' ', 1) for line in run.stdout.splitlines())]


def of(events, start):
    """The turn and what follows these words, in order."""
    return [(turn, words[len(start):].split()) for turn, words in events if words.startswith(start)]


def exchanged(events):
    """The frames of each end, every one of which is read, in order: the turn and the words of what was put out, and of what was read."""
    return [list(zip(of(events, f'{sender} puts '), of(events, f'{other} reads '))) for sender, other in (('main', 'supervisor'), ('supervisor', 'main'))]


def rows(events):
    """Where each turn stands: further down by the turns between, within bounds, so that labels have room; below a frame that came at once, more."""
    turns = sorted({turn for turn, _ in events})
    at_once = {put for frames in exchanged(events) for (put, _), (read, _) in frames if put == read}
    place, found = TOP, {}
    for before, turn in zip([turns[0]] + turns, turns):
        place += min(max(8 * (turn - before), 48 if before in at_once else 30), 48) if turn > before else 0
        found[turn] = place
    return found


def said(command, data):
    """A reply in words."""
    if command == '06':
        return f'status {int.from_bytes(bytes.fromhex(data[:16]), "little"):x}'
    return bytes.fromhex(data)[1:].decode()


class Drawing:
    def __init__(self, place):
        self.place, self.parts, self.notes = place, [], []

    def text(self, x, y, words, fill=INK, anchor='start', more=''):
        self.parts.append(f'<text x="{x}" y="{y}" fill="{fill}" text-anchor="{anchor}"{more}>{html.escape(words, False)}</text>')

    def note(self, side, turn, words, fill=INK):
        self.notes.append((side, turn, words, fill))

    def place_notes(self):
        """Each beside its processor's line, below those of the turns before it."""
        used = {}
        for side, turn, words, fill in sorted(self.notes, key=lambda note: note[1]):
            used[side] = y = max(self.place[turn] + 4, used.get(side, 0) + 16)
            self.text(MAIN - 18 if side == 'main' else SUPERVISOR + 28, y, words, fill, 'end' if side == 'main' else 'start')

    def frame(self, sender, put, read, words, damaged=False):
        """An arrow from the turn in which a frame was put out to the one in which its 00 was read."""
        begin, end = (MAIN + 8, SUPERVISOR - 8) if sender == 'main' else (SUPERVISOR - 8, MAIN + 8)
        top, bottom = self.place[put], self.place[read] + (12 if put == read else 0)
        colour, dashes, tip = (RED, ' stroke-dasharray="5 4"', 'r') if damaged else (INK, '', 'a')
        self.parts.append(f'<line x1="{begin}" y1="{top}" x2="{end}" y2="{bottom}" stroke="{colour}" stroke-width="1.4"{dashes} marker-end="url(#{tip})"/>')
        if sender == 'main':
            self.text(begin + 8, top - 4, words, colour, more=' font-size="12"')
        else:
            self.note('supervisor', put, words)

    def band(self, x, width, begin, end, fill):
        self.parts.append(f'<rect x="{x}" y="{begin}" width="{width}" height="{end - begin}" fill="{fill}" stroke="{GREY}" stroke-width="0.6"/>')


def frames(drawing, events):
    """The arrows."""
    asked = set()
    requests, replies = exchanged(events)
    for (put, (number, command, *_)), (read, _) in requests:
        drawing.frame('main', put, read, f'{number}: {ASKS[command]}' if number not in asked else f'{number} again, the same bytes')
        asked.add(number)
    for (put, (number, command, data)), (read, heard) in replies:
        drawing.frame('supervisor', put, read, f'replies to {number}: {said(command, data)}', heard[0] == 'failed')


def handed(drawing, events):
    """What the main processor's end does with each reply, by what the run wrote down behind its reading."""
    for (turn, words), (_, then) in zip(events, events[1:]):
        if words.startswith('main reads failed'):
            drawing.note('main', turn, 'damaged on the wire, a test fails', RED)
        elif words.startswith('main reads '):
            kind, _, rest = then.partition(' ')
            served = 'no bit is left to serve' if rest == '0' else 'an alert waits'
            found = {'status': f'hands out status {rest}: {served}', 'alert': f'hands out {rest}', 'answer': f'hands out the answer: {rest}'}
            drawing.note('main', turn, found.get(kind, 'not under the outstanding number: dropped'))


def sides(drawing, events):
    """What goes on at either end, and the bands beside their lines."""
    place = drawing.place
    first, last = min(place), max(place)
    interrupt, end = of(events, 'interrupt')[0][0], of(events, 'status ')[-1][0]
    bottom = place[last] + 12
    for x in (MAIN, SUPERVISOR):
        drawing.band(x - 1, 2, TOP - 16, bottom + 14, GREY)
    drawing.band(MAIN - 6, 12, place[first], bottom, DEEP_BLUE)
    drawing.band(MAIN - 6, 12, place[interrupt], place[end], SAND)
    (on, _), (off, _) = of(events, 'signal ')
    drawing.band(SUPERVISOR + 10, 8, place[on], place[off], ORANGE)
    for turn, words in of(events, 'post '):
        drawing.note('supervisor', turn, f'posts {" ".join(words)}: line signal on')
    drawing.note('supervisor', off, 'no alert waits: line signal off')
    drawing.note('main', first, 'a request by the caller')
    drawing.note('main', interrupt, 'line signal: an interrupt begins a recovery')
    for turn, y in place.items():
        drawing.text(36, y + 4, str(turn - first), GREY, 'end', ' font-size="11"')
    return bottom + 30


def head(seed, height):
    legend = ((DEEP_BLUE, 'waiting for an answer'), (SAND, 'in a recovery'), (ORANGE, 'line signal on'))
    lines = drawing.head(WIDTH, height, 'The frames of one recovery on a time line',
                         'Two time lines, one for each processor. A damaged reply is asked for again, and an alert interrupts the lookup. The lookup then goes out anew.')
    lines += [
        f'<defs>{drawing.tip("a", INK)}{drawing.tip("r", RED)}</defs>',
        drawing.text(12, 26, f'One recovery, out of the run of tests/both with seed {seed}', 16),
        drawing.text(12, 46, "Down: turns of the simulation, not to scale. A number is the request's; its reply carries it with the top bit set.", 12, GREY)]
    x = 12
    for fill, words in legend:
        lines += [f'<rect x="{x}" y="58" width="14" height="14" fill="{fill}" stroke="{GREY}"/>', drawing.text(x + 22, 70, words, 12)]
        x += 46 + round(drawing.wide(words, 12))
    return lines + [drawing.text(x, 92, words, bold=True, anchor='middle') for x, words in ((MAIN, 'main processor'), (SUPERVISOR, 'supervisor'))]


def drawn(seed, events):
    drawing = Drawing(rows(events))
    height = sides(drawing, events)
    frames(drawing, events)
    handed(drawing, events)
    drawing.place_notes()
    return '\n'.join(head(seed, height) + drawing.parts + ['</svg>', ''])


def main():
    if sys.argv[1:] == ['draw']:
        # any run of it builds it
        subprocess.run(['bash', str(ROOT / 'tests/both/run'), '0', '0'], check=True, stdout=subprocess.DEVNULL)
        seed = next(seed for seed in range(1, 1000) if lines(seed))
        FILE.write_text(drawn(seed, lines(seed)))
    elif sys.argv[1:] == ['check']:
        made('target/both/run')
        seed = re.search(r'with seed (\d+)', FILE.read_text())[1]
        events = lines(seed)
        if not events or FILE.read_text() != drawn(seed, events):
            sys.exit('docs/recovery.svg is not what docs/recovery.py draws')
    else:
        sys.exit(__doc__)


main()
