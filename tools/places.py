#!/usr/bin/env python3
"""Counts the places of src/ and proofs/ where an older form of the language may stand, a point of docs/DESIGN-PASS.md each:
  1  enums of the repository's own, and constants that number kinds or refusals
  2  functions whose bodies are one but for types, sizes, constants and names
  3  loops that count an index by hand
  4  functions that compare, choose or convert two numbers, and calls of them
  5  functions with five parameters or more, and three parameters that travel through three functions or more
  6  records with an array and a count beside it
  7  choices by a number or a byte which step to run
  8  answers of a file that stand there three times or more
A place that is found is not always one to change: the page says of each what became of it.
Assumes the layout of crates.txt, and code as `rt fmt` lays it out.

usage: tools/places.py [POINT]     the counts, or the places of a point with file and line"""
import collections
import pathlib
import re
import sys

ROOT = pathlib.Path(__file__).resolve().parent.parent
INTEGER = r'(?:u8|u16|u32|u64|usize)'


class Function:
    def __init__(self, path, line, name, parameters, result, body):
        self.path, self.line, self.name, self.parameters, self.result, self.body = path, line, name, parameters, result, body

    def at(self):
        return f'{self.path}:{self.line}: {self.name}'


def sources():
    for path in sorted(ROOT.glob('crates/*/src/*.rt')):
        yield path.relative_to(ROOT), path.read_text().splitlines()


def block(lines, first):
    """The lines of a block, whose first line opens it, without that line and the one that shuts it."""
    indent = len(lines[first]) - len(lines[first].lstrip())
    last = next(i for i in range(first + 1, len(lines)) if lines[i].startswith(' ' * indent + '}'))
    return lines[first + 1:last]


def functions():
    for path, lines in sources():
        for i, line in enumerate(lines):
            found = re.match(r'\s*(?:#\[.*\] )?(?:pub(?:\(crate\))? )?(?:extern "C" )?fn (\w+)', line)
            if not found:
                continue
            indent = len(line) - len(line.lstrip())
            opens = next((j for j in range(i, len(lines)) if lines[j] == ' ' * indent + '{' or (j == i and line.endswith(' {'))), None)
            if opens is None:
                continue
            head = ' '.join(lines[i:opens + 1])
            inner = re.split(r'\bfn \w+(?:<[^(]*>)?\(', head, maxsplit=1)[1]
            inner = re.split(r'\)(?: ->| requires| ensures| where|\s*\{|\s*$)', inner)[0]
            parameters = re.findall(r'(?:^|, ?|\s)(?:mut )?(\w+): ([^,]+(?:\[[^\]]*\])?)', inner)
            result = re.search(r'\) -> (.*?)(?: requires| ensures| where|\s*\{)', head)
            yield Function(path, i + 1, found.group(1), parameters, result.group(1) if result else '', block(lines, opens))


def enums():
    for path, lines in sources():
        for i, line in enumerate(lines):
            found = re.match(r'\s*(?:pub(?:\(crate\))? )?enum (\w+)', line)
            if found:
                variants = re.findall(r'^\s*(\w+(?:\(.*?\))?)(?: = \d+)?,', '\n'.join(block(lines, i)), re.M)
                yield f'{path}:{i + 1}: enum {found.group(1)} {{ {", ".join(variants)} }}'


def numbers():
    """Constants of one value each, as u8, u32 or u64, where three or more stand in a file."""
    for path, lines in sources():
        found = [(i + 1, line) for i, line in enumerate(lines) if re.match(r'\s*(?:pub(?:\(crate\))? )?const [A-Z0-9_]+: u(?:8|32|64) = (?:0x)?[0-9a-f]+;', line)]
        if len(found) > 2:
            yield from (f'{path}:{i}: {line.strip()}' for i, line in found)


def shape(function):
    """A body without what twins differ in."""
    text = ' '.join(line.split('//')[0].strip() for line in function.body)
    text = re.sub(r'\bb"[^"]*"', 'TEXT', text)
    text = re.sub(r'\b(?:0x[0-9a-f]+|\d+)(?:u8|u16|u32|u64|usize)?\b', 'N', text)
    text = re.sub(rf'\b{INTEGER}\b', 'T', text)
    text = re.sub(r'\b(?:\w+::)*[A-Z][A-Z0-9_]+\b', 'C', text)
    text = re.sub(r'\b(?:\w+::)*[A-Z]\w+(?:::\w+)?\b', 'V', text)
    return re.sub(r'\b([a-z_]+?)_?\d+\b', r'\1', re.sub(r'\b(\w+)\(', lambda m: re.sub(r'_?(?:u?\d+|T)$', '', m.group(1)) + '(', text))


def twins():
    groups = collections.defaultdict(list)
    for f in functions():
        text = shape(f)
        names = {name: f'p{i}' for i, (name, _) in enumerate(f.parameters)}
        text = re.sub(r'\b(\w+)\b', lambda m: names.get(m.group(1), m.group(1)), text)
        if len(text) >= 30:
            groups[text].append(f)
    for group in groups.values():
        if len(group) > 1:
            yield ', '.join(f.at() for f in group)


def loops():
    for path, lines in sources():
        for i, line in enumerate(lines):
            if re.match(r'\s*(?:while|loop)\b', line) and line.endswith('{') and any(re.match(r'\s*\w+ [+-]= 1;', each) for each in block(lines, i)):
                yield f'{path}:{i + 1}: {line.strip()}'


def by_hand():
    for f in functions():
        text = ' '.join(line.strip() for line in f.body)
        if (re.fullmatch(rf'\w+ as {INTEGER}', text) or re.fullmatch(r'if .* \{ [\w -]+ \} else \{ [\w -]+ \}', text)
                or re.fullmatch(r'if (?:\w+ == 0|\w+ < \w+) \{ return \w+(?: [+-] \w+)?; \} .{1,24}', text)):
            yield f.at()
    for path, lines in sources():
        for i, line in enumerate(lines):
            if re.search(r'\boctets::(?:min|wide|byte_at|word_at)\(|(?<![\w.:])smaller\(', line) and not re.match(r'\s*pub', line):
                yield f'{path}:{i + 1}: {line.strip()}'


def together():
    """The largest sets of three names or more that stand in the parameters of three functions or more of a crate."""
    found = collections.defaultdict(lambda: collections.defaultdict(list))
    for f in functions():
        found[f.path.parts[1]][frozenset(name for name, _ in f.parameters)].append(f)
    for crate, sets in found.items():
        shared = set()
        for a in sets:
            for b in sets:
                if len(a & b) > 2:
                    shared.add(a & b)
        for group in sorted(shared, key=lambda g: (-len(g), sorted(g))):
            holders = [f for names, fs in sets.items() if group <= names for f in fs]
            if len(holders) > 2 and not any(group < other and len([f for names, fs in sets.items() if other <= names for f in fs]) > 2 for other in shared):
                yield f'crates/{crate}: {", ".join(sorted(group))} in {", ".join(f.name for f in holders)}'


def wide():
    yield from (f'{f.at()} takes {len(f.parameters)}' for f in functions() if len(f.parameters) > 4)
    yield from together()


def counted():
    for path, lines in sources():
        for i, line in enumerate(lines):
            if re.match(r'\s*(?:pub(?:\(crate\))? )?struct \w+.*\{$', line):
                text = '\n'.join(block(lines, i))
                if re.search(r': \[', text) and re.search(r'\b(?:\w*_count|written|kept|length|used): usize', text):
                    yield f'{path}:{i + 1}: {line.strip()}'


def choices():
    for path, lines in sources():
        for i, line in enumerate(lines):
            if re.match(r'\s*match (?:fields::key|key|part|command|kind|step|number|byte|reason)\b', line) or re.match(r'\s*if (?:key|step) == ', line):
                yield f'{path}:{i + 1}: {line.strip()}'


def repeated():
    for path in sorted(ROOT.glob('crates/*/proofs/**/Answers.antt')):
        answers = re.findall(r'^[^\s:]+ c =[ \n]*((?:.*\n)(?:[ \t]+.*\n)*)', path.read_text() + '\n', re.M)
        for text, count in collections.Counter(re.sub(r'c\.[\w-]+', 'c.X', ' '.join(a.split())) for a in answers).items():
            if count > 2:
                yield f'{path.relative_to(ROOT)}: {count} times {text[:80]}'


POINTS = {'1': (('enums', enums), ('numbers for kinds, refusals and the like', numbers)), '2': (('groups of twins', twins),),
          '3': (('loops that count by hand', loops),), '4': (('choices, comparisons and conversions by hand, and calls of them', by_hand),),
          '5': (('functions with five parameters or more, and groups of parameters', wide),), '6': (('records with a count beside an array', counted),),
          '7': (('choices of a step', choices),), '8': (('answers that repeat', repeated),)}


def main():
    for point, kinds in POINTS.items():
        if sys.argv[1:] and point != sys.argv[1]:
            continue
        for words, places in kinds:
            found = list(places())
            print(f'{point}: {len(found)} {words}')
            if sys.argv[1:]:
                print('\n'.join('    ' + place for place in found))


if __name__ == '__main__':
    main()
