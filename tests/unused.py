#!/usr/bin/env python3
"""Lists the imports that their file does not use, and the definitions and laws of specs/ and proofs/ that nothing cites: no other place in the crates, and
no document. docs/CLAIMS.md names the statements that are there for readers. The check fails where it finds any.
Assumes the layout of crates.txt, and uses as `rt fmt` lays them out.

usage: tests/unused.py [fix]

fix: takes the unused imports out of their files, and lists only what is left"""
import pathlib
import re
import sys
from collections import Counter

ROOT = pathlib.Path(__file__).resolve().parent.parent
sys.path.insert(0, str(ROOT / 'docs'))
import sources  # noqa: E402

# what parts words: blanks, brackets, and the punctuation of both languages
BREAKS = re.compile(r'(?:[\s(){}\[\],;.λ"]|::|(?<!&)&(?!&)|<\'a>)+')
# names that are signs, as words
SIGNS = {'[]': 'nil-sign', '!': 'bang-sign'}
USE = re.compile(r'^(ghost )?use ([^;{\n]+?)(?:(?:\.|::)\{([^}]*)\})?;?$', re.M)
HEAD = re.compile(r'^( *)(?:abbrev |unfoldable |pub )*([^\s(){}:=]+) :(?= )', re.M)
# a record's fields are used where it is
RECORD = re.compile(r'^( *)(?:pub )?record .*(?:\n\1    .*)*?where\n(?:\1  .*\n)*', re.M)
# what the kit looks up by its name: an answer to a goal, an invariant or a measure of a loop
BY_NAME = re.compile(r'^ *(?:abbrev |unfoldable |pub )*(\S+) : goal\.\1$', re.M)
PROOFS = ('Answers.antt', 'Invariants.antt')


def uncommented(text):
    return re.sub(r'(^|\s)(--|//) .*$', r'\1', text, flags=re.M)


def words(text):
    """The words of a text, a name with dots (List.map) and a field (s .size) taken apart."""
    for sign, word in SIGNS.items():
        text = text.replace(sign, f' {word} ')
    return Counter(BREAKS.split(text))


def pieces(name):
    """What an operator's name is written as: ◌+◌ as +, a name as itself."""
    if name in SIGNS:
        return [SIGNS[name]]
    return [piece for piece in name.split('◌') if piece]


def names_of(listed):
    return [name.strip() for name in listed.split(',') if name.strip()]


def spoken(item, path):
    """The name under which an import is used."""
    if ' as ' in item:
        return item.split(' as ')[1].strip()
    return item


def unused_imports(path, text):
    """The imports of a file that it does not use: (the whole line, the item or None)."""
    body = words(bounds_apart(without_uses(text)) if path.suffix == '.rt' else without_uses(text))
    for match in USE.finditer(text):
        module, listed = match.group(2), match.group(3)
        if path.suffix == '.rt' and not match.group(1):
            module = module.replace('::', '.')
        if listed is None:
            name = spoken(module, path).split('.')[-1]
            if not all(body[piece] for piece in pieces(name)):
                yield match.group(0), None
            continue
        for item in names_of(listed):
            if not all(body[piece] for piece in pieces(spoken(item, path))):
                yield match.group(0), item


def without(line, items):
    """A use without some of its items; nothing where none is left."""
    match = USE.match(line)
    if None in items:
        return ''
    left = [item for item in names_of(match.group(3)) if item not in items]
    return line.replace('{' + match.group(3) + '}', '{' + ', '.join(left) + '}') if left else ''


def repaired(text, found):
    for line in dict.fromkeys(line for line, _ in found):
        new = without(line, [item for other, item in found if other == line])
        text = text.replace(line + '\n', new + '\n' if new else '', 1)
    return text


def bounds_apart(code):
    """Code with its type parameters apart from what bounds them: <R: Read> as R: Read."""
    return re.sub(r'(?<=\w)[<>]|[<>](?=\w)', ' ', code)


def without_uses(text):
    return USE.sub('', uncommented(text))


def uncited(texts):
    """The names that stand at the head of a definition or a law, and nowhere else."""
    everywhere = Counter()
    for text in texts.values():
        everywhere += words(without_uses(text))
    documents = words(' '.join(path.read_text() for path in (ROOT / 'docs').glob('*.md')).replace('`', ' '))
    for path, text in texts.items():
        # an element of a record of statements is there for readers
        if path.suffix != '.antt' or path.name == 'Proved.antt':
            continue
        bare = uncommented(text)
        by_name = set(BY_NAME.findall(bare)) if path.name in PROOFS else set()
        for match in HEAD.finditer(RECORD.sub('', bare)):
            name = match.group(2)
            if name in by_name or name in ('use', 'record', 'data', 'let', 'in', 'where'):
                continue
            own = len(re.findall('^' + match.group(1) + r'(?:abbrev |unfoldable |pub )*' + re.escape(name) + r'(?= |$)', bare, re.M))
            if all(everywhere[piece] <= own for piece in pieces(name)) and not all(documents[piece] for piece in pieces(name)):
                yield path, name


def main():
    fix = sys.argv[1:] == ['fix']
    if sys.argv[1:] and not fix:
        sys.exit(__doc__)
    texts = {path: path.read_text() for path in sources.crate_files()}
    wrong = []
    for path, text in texts.items():
        found = [] if re.search(r'^pub use|^pub mod', text, re.M) and path.name == 'Lib.antt' else list(unused_imports(path, text))
        if fix and found:
            path.write_text(repaired(text, found))
            texts[path] = path.read_text()
            continue
        wrong += [f'{path.relative_to(ROOT)}: {item or line} is imported and not used' for line, item in found]
    wrong += [f'{path.relative_to(ROOT)}: nothing cites {name}' for path, name in uncited(texts)]
    print('\n'.join(wrong + [f'unused: {len(texts)} files, {len(wrong)} unused imports, definitions and laws']))
    sys.exit(1 if wrong else 0)


main()
