#!/usr/bin/env python3
"""Prints what must be believed for a claim, a promise or a record: every definition of this repository that its statement rests on, at any
remove. Each comes once, callee after caller, with file and line and its own lines. Then come the words that could not be resolved, and last
how many definitions and lines that is.
Comments are not counted. Works from the sources (docs/sources.py); names of the kit's libraries are not listed.
Assumes that the crates check.

usage: docs/reading.py NAME            a claim (never_replaced), a record (Item7), a definition (judge), a public function (line::reader::read)
       docs/reading.py CRATE.NAME      where several crates have the name (supervisor_claims.NumberDue, requester_claims.cut)
       docs/reading.py CRATE.RECORD.NAME    where several records of a crate have it (claims.Item6.line)
       docs/reading.py --total NAME    the last line alone
       docs/reading.py --records       CLAIMS.md's list: each record of statements, how much each rests on, and its fields
       docs/reading.py --records check | write    whether CLAIMS.md has that list; puts it there"""
import re
import sys
import textwrap

import sources

WIDTH = 140


def functions(source):
    """The public functions of a file of Rattle: name, line, and the text of its contract."""
    text = '\n'.join(source.bare)
    for match in re.finditer(r'^ *pub (?:extern "C" )?fn (\w+)(.*?)^ *\{$', text, re.M | re.S):
        yield match.group(1), text[:match.start()].count('\n') + 1, match.group(2)


def bound(contract):
    """A contract's parameters and the words of its language, as a telescope."""
    names = re.findall(r'(\w+): ', contract.split('ensures')[0])
    return '(' + ' '.join(['result', *names, *(f'«{name}»' for name in names)]) + ' : Type)'


def promises(found):
    """Each public function as an item whose text is its contract, under its path: line::reader::read."""
    for module, source in found.files.items():
        if source.path.suffix == '.rt':
            parts = module.split('.')
            front = '::'.join([parts[0]] + [part for part in parts[2:] if part not in ('lib', 'main')])
            for name, first, contract in functions(source):
                last = first + contract.count('\n')
                told = '\n'.join(sources.ensured(contract))
                yield f'{front}::{name}', sources.Item(name, 'law', True, module, source.path, first, last, told, [bound(contract)], [])


def statements(found):
    """The records of statements, of which some crate's proofs/Proved has an element."""
    for module, file in found.files.items():
        if module.endswith('.proofs.Proved'):
            for item in file.items:
                record = found.resolved(file, item.told.split(' : ', 1)[-1].strip())
                if isinstance(record, sources.Item) and record.kind == 'record':
                    yield record


def fields_of(record):
    """The fields of a record of statements, each as an item of its own: its type."""
    for match in re.finditer(r'^  pub (\S+) : (.*(?:\n {4}.*)*)$', record.told, re.M):
        first = record.first + record.told[:match.start()].count('\n')
        yield sources.Item(match.group(1), 'law', True, record.module, record.path, first, first + match.group(2).count('\n'), match.group(2), [], [])


def parts_of(name):
    """The crate, the record and the last word of a name; '' where it has none."""
    words = name.split('.') if '::' not in name else [name]
    return (words[0] if len(words) > 1 else '', words[1] if len(words) == 3 else '', words[-1])


def named(found, name):
    """The items that a name may mean: claims as fields of records of statements first, then records and other items of specs/, then laws, then functions."""
    crate, within, last = parts_of(name)
    items = [item for item in found.items() if not crate or item.module.split('.')[0] == crate]
    claims = [field for record in statements(found) if record in items and within in ('', record.name) for field in fields_of(record) if field.name == last]
    kinds = (claims, [item for item in items if item.name == last and item.defines], [item for item in items if item.name == last],
             [item for path, item in promises(found) if path == last or path.split('::')[-1] == last])
    return next((kind for kind in kinds if kind), [])


def rest(found, start):
    """Every definition that an item rests on, callee after caller, and the words not resolved, each with its place."""
    order, unknown, seen = [], [], set()

    def visit(item):
        seen.add(item.key)
        known, words = found.rests(item)
        unknown.extend(f'{item.place}: {word}' for word in dict.fromkeys(words))
        for other in reversed(known):
            if other.key not in seen:
                visit(other)
        order.append(item)

    visit(start)
    return order[-2::-1], unknown


def record_list(found):
    """An item for each record of statements: its crate and file, the definitions and lines that it rests on, and its fields."""
    for record in sorted(statements(found), key=lambda item: item.place.split(':')[0]):
        order, _ = rest(found, record)
        fields = ', '.join(f'`{field.name}`' for field in fields_of(record))
        yield (f'- `{record.name}` ({record.place.split(":")[0].removesuffix(".antt")}) rests on {len(order)} definitions, {sum(item.lines for item in order)} lines. '
               f'Statements: {fields}.')


def records_block(text):
    """The list of records in the text of CLAIMS.md: from the section's first item to the next section."""
    return re.search(r'^## The records\n.*?\n\n(- .*?)(?=\n\n)', text, re.M | re.S).group(1)


def records(found, what):
    """Prints the list; or compares it with CLAIMS.md's, or puts it there."""
    told = '\n'.join('\n'.join(textwrap.wrap(line, WIDTH, subsequent_indent='  ', break_long_words=False, break_on_hyphens=False)) for line in record_list(found))
    if not what:
        print(told)
        return 0
    path = sources.ROOT / 'docs' / 'CLAIMS.md'
    text = path.read_text()
    old = records_block(text)
    if what == ['write']:
        path.write_text(text.replace(old, told))
        return 0
    print(f'reading: the list of records in docs/CLAIMS.md is {"up to date" if old == told else "not what docs/reading.py --records prints"}')
    return 0 if old == told else 1


def same(found, items):
    """Whether items say the same: fields of two records with one type, its words standing for the same definitions."""
    return len({(re.sub(r'\b[A-Z]\w*\.', '', item.told.strip()), frozenset(other.key for other in found.rests(item)[0])) for item in items}) < 2


def several(found, name):
    """Where a name is more than one thing: the names to take instead, by crate or, where that is not enough, by crate and record."""
    if same(found, named(found, name)):
        return []
    last = parts_of(name)[2]
    names = {f'{item.module.split(".")[0]}.{last}' for item in named(found, name)}
    within = [f'{record.module.split(".")[0]}.{record.name}.{last}' for record in statements(found) if last in [field.name for field in fields_of(record)]]
    return sorted(one for word in names for one in ([word] if same(found, named(found, word)) else [full for full in within if full.startswith(word.split('.')[0] + '.')]))


def main():
    sys.setrecursionlimit(10000)
    words = sys.argv[1:]
    if words[:1] == ['--records'] and words[1:] in ([], ['check'], ['write']):
        sys.exit(records(sources.Sources(), words[1:]))
    total = words[:1] == ['--total']
    words = words[1:] if total else words
    if len(words) != 1 or words[0].startswith('-'):
        sys.exit(__doc__)
    found = sources.Sources()
    items = named(found, words[0])
    if not items:
        sys.exit(f'reading: nothing is named {words[0]}')
    if several(found, words[0]):
        sys.exit(f'reading: {words[0]} is several things; take one of ' + ', '.join(several(found, words[0])))
    order, unknown = rest(found, items[0])
    if not total:
        print(f'{items[0].place}: {items[0].name}')
        for item in order:
            print(f'{item.place}: {item.name}, {item.lines}')
        for place in unknown:
            print(f'not resolved: {place}')
    print(f'{words[0]}: {len(order)} definitions, {sum(item.lines for item in order)} lines' + (f', {len(unknown)} words not resolved' if unknown else ''))


if __name__ == '__main__':
    main()
