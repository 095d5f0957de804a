#!/usr/bin/env python3
"""Compiles and runs every snippet: the blocks ```c and ```rust of README.md and bindings/rust/README.md, and the blocks @code of the
headers. Each runs on frames with spare 00s, damaged frames and further frames around them, cut at every place. What it hands out and sends
is compared with what the papers say, and with the replay program.
One with a main reads standard input; any other has a driver tests/snippets/NAME.c or NAME.rs for a function NAME of it, and one without is an error.
Then each mistake of MISTAKES is put into its snippet, and must be seen.
Assumes cc, rustc, crates/replay/out/replay and crates/oatcastle/out/liboatcastle.a.

usage: tests/snippets.py"""
import os
import re
import subprocess
import sys

from audit import L10, L12, MAGIC, checksum, stuffed
from common import LIBRARY, ROOT, made

OUT = ROOT / 'target/snippets'
DRIVERS = ROOT / 'tests/snippets'
REPLAY = 'crates/replay/out/replay'
DEFINED = {'c': r'^(?:static )?\w+ \**(\w+)\([^;{]*\)\n\{', 'rs': r'^fn (\w+)'}
# What a snippet must not do: the file that it stands in and its language, what is replaced in it, and by what.
MISTAKES = {
    'the rest of a piece is dropped': [
        ('README.md', 'rs', 'while !piece.is_empty() {\n        let received', '{\n        let received'),
        ('README.md', 'rs', 'stdin().read(room)', 'Ok(stdin().read(room)?.min(9))'),
        ('README.md', 'c', 'while (length > 0) {', 'if (length > 0) {'),
        ('include/oatcastle_parts.h', 'c', 'while (length > 0) {', 'if (length > 0) {'),
        ('bindings/rust/README.md', 'rs', 'while !piece.is_empty() {', '{'),
    ],
    'a part of a reply is not sent': [
        ('README.md', 'rs', 'stdout().write_all(bytes)', 'stdout().write_all(&bytes[..bytes.len() / 2])'),
    ],
    'a lost frame is not asked for again': [
        ('bindings/rust/README.md', 'rs', 'main.interrupt()?;', ''),
    ],
    'an alert is dropped': [
        ('bindings/rust/README.md', 'rs', 'alerts.push(message.data.to_vec());', ''),
    ],
    'a broken frame is not asked for again': [
        ('README.md', 'rs', 'wire.extend_from_slice(main.send(&mut [0; LONGEST_FRAME])?);', ''),
        ('include/oatcastle_parts.h', 'c', 'send(out, put.length);', '(void)send;'),
    ],
    'the answer is not given to the caller': [
        ('README.md', 'rs', 'Handed::Answer(message) => answer = Some((message.command, message.data.to_vec())),', 'Handed::Answer(_) => answer = None,'),
        ('include/oatcastle_parts.h', 'c', '            handed(&got, data);', '            (void)handed;'),
    ],
}

# ---- streams


def frame(sequence, command, data=b'', version=1, off=0):
    """A frame with its 00; the checksum is off by so much."""
    body = MAGIC + version.to_bytes(4, 'little') + sequence.to_bytes(8, 'little') + bytes([command]) + data
    return stuffed(body + ((checksum(body) + off) % 65536).to_bytes(2, 'little')) + b'\0'


def reply(number, command, data, **more):
    return frame(number | 1 << 63, command, data, **more)


ASKED, ANSWER = (0x0e, bytes((0, 4, 0))), (0x0a, b'\0pong')
RIGHT, LONG = reply(1, *ANSWER), b'\7' * 4141
OTHER = reply(2, *ANSWER)
# Grounds to send the same bytes again.
GROUNDS = [reply(1, *ANSWER, off=1), RIGHT[:9] + b'\0', RIGHT[9:], b'\1\0', reply(1, *ANSWER, version=2), frame(1, *ANSWER), reply(1, 2, b'\3'), reply((1 << 64) - 1, 2, b'\1')]


def cuts(stream):
    """The stream whole, byte by byte, and cut once: at every place, or of a long one at places near its frames' ends."""
    yield [stream]
    yield [stream[at:at + 1] for at in range(len(stream))]
    places = range(1, len(stream)) if len(stream) < 300 else [at for at in range(1, len(stream)) if at < 40 or len(stream) - at < 90 or 4130 < at < 4150]
    for at in places:
        yield [stream[:at], stream[at:]]


def said(answer, sent, alerts=()):
    """A line as a driver of `hear` prints it, where each alert comes before the answer."""
    return ''.join(f'alert {text.hex()} ' for text in alerts) + f'answer {answer[0]:02x} {answer[1].hex()} sent {b"".join(sent).hex()}'


def heard():
    """Of each line for a driver of `hear` what it must print."""
    request, lines = frame(1, *ASKED), {}
    streams = {b'\0' * spare + RIGHT: 0 for spare in (0, 1, 2, 7)}
    streams.update({OTHER + RIGHT: 0, RIGHT + RIGHT: 0, RIGHT + OTHER[:11]: 0, b'\0' + RIGHT + b'\0' + GROUNDS[0] + b'\0': 0, LONG + b'\0' + RIGHT: 1})
    streams.update({ground + b'\0' * spare + RIGHT: 1 for ground in GROUNDS for spare in (0, 2)})
    streams[b'\0'.join(GROUNDS[:3]) + OTHER + RIGHT + b'\0'] = 3
    for stream, times in streams.items():
        for pieces in cuts(stream):
            lines[' '.join(piece.hex() for piece in pieces)] = said(ANSWER, [request] * (1 + times))
    status = [reply(number, 6, bits.to_bytes(8, 'little') + bytes(8)) for number, bits in ((2, 2), (4, 0))]
    recovery = b'\0' + status[0] + reply(3, 7, b'\1fan') + GROUNDS[0] + status[1] + RIGHT + reply(5, *ANSWER)
    sent = [request, frame(2, 8), frame(3, 10), frame(4, 8), frame(4, 8), frame(5, *ASKED)]
    for pieces in cuts(recovery):
        lines['interrupt ' + ' '.join(piece.hex() for piece in pieces)] = said(ANSWER, sent, [b'\1fan'])
    return lines


def replayed(stream):
    """What the supervisor sends, by the replay program."""
    return subprocess.run([ROOT / REPLAY], input=stream, stdout=subprocess.PIPE, check=True).stdout


def captures():
    """Streams for the supervisor: spare 00s, frames that fail for each reason, requests, and an unfinished tail."""
    damaged = [L10, L12[:-3] + b'\x07\x66\0', frame(3, 8, b'\1'), frame(1 << 63, 8), frame(3, 8, version=3), frame(3, 0x55), reply(3, 8, b'', off=1)]
    yield L12
    yield b'\0' + L12
    yield b''.join(b'\0' + bad + L12 for bad in damaged) + b'\0\0'
    yield frame(4, 0x10, b'\3' + bytes(range(200))) + frame(5, 0x0e, b'\3\xff\0') + L12[:7] + b'\0' + frame(6, 4) + L12[:9]
    yield LONG + b'\0' + L12


def served():
    """Of each line for a driver of `serve` what it must print."""
    return {' '.join(piece.hex() for piece in pieces): replayed(stream).hex() for stream in captures() for pieces in cuts(stream)}


def given():
    """Of each standard input for a program what it must write; spare 00s move the ends of its reads to every place of the stream."""
    return {b'\0' * spare + stream: replayed(stream) for stream in captures() for spare in range(64)}


# ---- snippets


def blocks(file, mark, pattern):
    """The blocks of a file; ends the run where a mark of it begins none of them."""
    text = (ROOT / file).read_text()
    found = re.findall(pattern, text, re.M | re.S)
    if len(re.findall(mark, text, re.M)) != len(found):
        sys.exit(f'snippets: {file} has a block that this cannot read')
    return found


def snippets():
    """Of each snippet its file, language and text."""
    for file in ('README.md', 'bindings/rust/README.md'):
        for language, text in blocks(file, r'^\s*```\w+', r'^```(c|rust)\n(.*?)^```$'):
            yield file, {'c': 'c', 'rust': 'rs'}[language], text
    for file in sorted(str(header.relative_to(ROOT)) for header in (ROOT / 'include').glob('*.h')):
        for text in blocks(file, '@code', r'^ \* @code\n(.*?)^ \* @endcode$'):
            yield file, 'c', f'#include "{os.path.basename(file)}"\n' + re.sub(r'^ \* ?', '', text, flags=re.M)


def run(*words):
    done = subprocess.run(words, cwd=ROOT, capture_output=True, text=True)
    if done.returncode:
        sys.exit(f'snippets: {" ".join(map(str, words))}\n{done.stdout}{done.stderr}')


def driver(file, language, text):
    """The name of the function that a driver calls; main where the snippet is a program."""
    names = re.findall(DEFINED[language], text, re.M)
    known = [name for name in names if name == 'main' or (DRIVERS / f'{name}.{language}').exists()]
    if 'main' in known:
        return 'main'
    if len(known) != 1:
        sys.exit(f'snippets: a snippet of {file} has no driver; it defines {names}')
    return known[0]


def built(place, language, text, name):
    """The snippet with its driver as a program."""
    behind = [] if name == 'main' else [(DRIVERS / f'{name}.{language}').read_text()] + [(DRIVERS / 'hex.rs').read_text()] * (language == 'rs')
    source, program = OUT / f'{place}.{language}', OUT / place
    source.write_text('\n'.join([text] + behind))
    if language == 'c':
        run(os.environ.get('CC', 'cc'), '-std=c99', '-O1', '-Wall', '-Wextra', '-Werror', '-Iinclude', source, LIBRARY, '-o', program)
    else:
        run('rustc', '--edition', '2021', '-D', 'warnings', '--extern', f'oatcastle={OUT / "liboatcastle.rlib"}', '-L', 'native=crates/oatcastle/out', source, '-o', program)
    return program


def differences(program, name, cases):
    """How many of the cases the program gets wrong, and the first of them."""
    if name == 'main':
        ran = {data: subprocess.run([program], input=data, capture_output=True) for data in cases}
        wrong = [data.hex() for data, wanted in cases.items() if (ran[data].returncode, ran[data].stdout) != (0, wanted)]
    else:
        done = subprocess.run([program], input='\n'.join(cases), capture_output=True, text=True)
        lines = done.stdout.splitlines() + [''] * len(cases)
        wrong = [line for line, got in zip(cases, lines) if got != cases[line]] + ['its end'] * (done.returncode != 0)
    return len(wrong), wrong[:1]


def planted(found, cases):
    """Puts each mistake into its snippet; ends the run where one is not seen."""
    count = 0
    for what, edits in MISTAKES.items():
        for file, language, old, new in edits:
            texts = [text for at, tongue, text in found if (at, tongue) == (file, language) and text.count(old) == 1]
            if len(texts) != 1:
                sys.exit(f'snippets: "{what}" has no place in {file}')
            name = driver(file, language, texts[0])
            text = texts[0].replace(old, new)
            wrong, _ = differences(built('planted', language, '#![allow(unused)]\n' * (language == 'rs') + text, name), name, cases[name])
            if wrong == 0:
                sys.exit(f'snippets: "{what}" in {file} was not seen')
            count += 1
    return count


def main():
    made(LIBRARY, REPLAY)
    OUT.mkdir(parents=True, exist_ok=True)
    run('rustc', '--edition', '2021', '-O', '--crate-type', 'rlib', '--crate-name', 'oatcastle', '--out-dir', OUT, 'bindings/rust/src/lib.rs', '-L', 'native=crates/oatcastle/out',
        '-l', 'static=oatcastle')
    cases = {'hear': heard(), 'ping': heard(), 'serve': served(), 'main': given()}
    found = list(snippets())
    for place, (file, language, text) in enumerate(found):
        name = driver(file, language, text)
        wrong, first = differences(built(f'{place}', language, text, name), name, cases[name])
        if wrong:
            sys.exit(f'snippets: the one of {file} with {name} is wrong on {wrong} of {len(cases[name])} streams, first on {first[0][:400]}')
        print(f'snippets: {file}, {name} ({language}): {len(cases[name])} streams as expected')
    print(f'snippets: {planted(found, cases)} planted mistakes seen')


if __name__ == '__main__':
    main()
