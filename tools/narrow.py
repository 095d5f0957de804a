#!/usr/bin/env python3
"""Breaks the lines of crates/*/{src,specs,proofs} that are wider than 140 columns: usage: tools/narrow.py [CRATE..]
- A `use` with a list becomes several of the same module.
- A comment goes on in the next line.
- Any other line is broken at a blank of the least depth in brackets, ahead of an operator where there is one, and goes on four columns deeper.
Nothing is proved here: check the crates that it names."""
import pathlib
import re
import sys

ROOT = pathlib.Path(__file__).resolve().parent.parent
WIDTH = 140
USE = re.compile(r'^((?:ghost )?(?:pub )?use [^{}]+\.\{)(.*)(\};?)$')
COMMENT = re.compile(r'^( *(?:--|//) )(.*)$')


def parts_of(names, front, back):
    """A list of names in as few lines as hold it, none much longer than the others."""
    count = 2
    while True:
        most = sum(len(name) + 2 for name in names) // count + 12
        lines, now = [], []
        for name in names:
            if now and len(', '.join([*now, name])) > most:
                lines.append(now)
                now = []
            now.append(name)
        lines.append(now)
        told = [front + ', '.join(line) + back for line in lines]
        if all(len(line) <= WIDTH for line in told):
            return told
        count += 1


def wrapped(front, words):
    lines = [front]
    for word in words.split():
        longer = lines[-1] + word if lines[-1] == front else f'{lines[-1]} {word}'
        if len(longer) > WIDTH and lines[-1] != front:
            lines.append(front + word)
        else:
            lines[-1] = longer
    return lines


def places(line, indent):
    """The blanks of a line outside a comment and strings, with their depth in brackets."""
    depth, text = 0, False
    for at, sign in enumerate(line):
        if sign == '"':
            text = not text
        if text or at < indent:
            continue
        if line.startswith(('-- ', '// '), at) and line[at - 1] == ' ':
            return
        depth += (sign in '({[') - (sign in ')}]')
        if sign == ' ':
            yield at, depth


# what may begin a line, the loosest first; behind a comma or a semicolon is as good as ahead of the second
RANKS = [{'→'}, {'×'}, {'≡', '≤', '<'}, {'∙', '++', '∷', '+', '&&', '||', '$'}]


def worth(line, at, depth):
    """How good a blank is to break at: less is better."""
    after, before = line[at + 1:].split(' ', 1)[0], line[at - 1]
    rank = next((rank for rank, signs in enumerate(RANKS) if after in signs), 1 if before in ',;' else len(RANKS))
    rank += 2 * (after in ('where', '=') or after[:1] in ')}]' or len(line) - at < 12)
    return depth, rank, -at


def broken(line):
    """A line of code in parts."""
    indent = len(line) - len(line.lstrip())
    found = [(at, depth) for at, depth in places(line, indent) if indent + 30 < at <= WIDTH]
    if not found:
        return [line]
    at = min(worth(line, at, depth) for at, depth in found)[2] * -1
    rest = ' ' * (indent + 4) + line[at + 1:].lstrip()
    return [line[:at].rstrip(), *(broken(rest) if len(rest) > WIDTH else [rest])]


def narrow(line):
    match = USE.match(line)
    if match:
        return parts_of([name.strip() for name in match.group(2).split(',')], match.group(1), match.group(3))
    match = COMMENT.match(line)
    return wrapped(*match.groups()) if match else broken(line)


def main():
    named = set(sys.argv[1:])
    changed = {}
    for path in sorted(path for part in ('src', 'specs', 'proofs') for path in ROOT.glob(f'crates/*/{part}/**/*') if path.suffix in ('.antt', '.rt')):
        crate = path.relative_to(ROOT).parts[1]
        lines = path.read_text().split('\n')
        if named and crate not in named or all(len(line) <= WIDTH for line in lines):
            continue
        path.write_text('\n'.join(part for line in lines for part in (narrow(line) if len(line) > WIDTH else [line])))
        changed[crate] = changed.get(crate, 0) + sum(len(line) > WIDTH for line in lines)
    print('narrow: ' + ', '.join(f'{crate} {count}' for crate, count in changed.items()))


main()
