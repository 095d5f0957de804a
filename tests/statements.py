#!/usr/bin/env python3
"""Holds what is claimed to its form:
- specs/ of a crate has definitions and statements alone: no law, no proof text, no import of proofs/;
- a file of statements (Demand.., Item.., BothEnds) has records of statements, and proofs/ exactly one element of each, with a proof for each field;
- every name that docs/CLAIMS.md gives exists, and every name in snake case (`take_promise`) that another document gives;
- each row of `did`, of `local_row` and of `main_did` cites the definition, with the arguments, of the first `ensures` of the call that it
  stands for.
  These are in specs/Histories and specs/LocalCalls of supervisor_claims, and in specs/Histories of requester_claims.
  A row of `local_row` cites all that this definition settles, and may change the part that it leaves, else nothing;
- a public function of a library that hands out a part of lent bytes has an `ensures` on where it begins (`.ref_ptr`).
Assumes the sources as `rt fmt` lays them out (docs/sources.py).

usage: tests/statements.py            prints what is wrong, or how much was compared
       tests/statements.py planted    plants a mistake of each kind, which must be seen"""
import pathlib
import re
import sys

ROOT = pathlib.Path(__file__).resolve().parent.parent
sys.path.insert(0, str(ROOT / 'docs'))
import reading  # noqa: E402
import sources  # noqa: E402

CLAIMS = ROOT / 'docs' / 'CLAIMS.md'
# the other documents that give names; CHANGES has those of its time
DOCUMENTS = ('README.md', *(f'docs/{name}.md' for name in ('PROMISES', 'DECISIONS', 'DEVELOPING', 'STATE', 'CHECKSUM', 'FIRMWARE', 'BOTH_ENDS', 'PASSPHRASE')))
STATEMENTS = re.compile(r'^(Demand\d+|Item\d+|BothEnds|Claims)$')
# names in snake case of other languages
OTHERS = {'size_t', 'find_package', 'non_exhaustive'}
# words of a proof, which no definition has
PROOF = re.compile(r'(?<![\w.-])(rw|simp|omega|cc|refl|absurd|search|unfolding|grind|subst)(?![\w-])')
# the definitions that have a row for each call: module and name
DID = {'supervisor_claims': [('Histories', 'did'), ('LocalCalls', 'local_row')], 'requester_claims': [('Histories', 'main_did')]}
# each call of these: the public functions that it stands for, and the names that their parameters have in the row
ROWS = {
    'supervisor_claims': {
        'start': (['supervisor::start::start'], {'«data»': 'd'}),
        'receive': (['responder::receive::receive'], {}),
        'step': (['responder::receive::step'], {}),
        'take': (['supervisor::outbox::take'], {}),
        'post': (['supervisor::alerts::post'], {}),
        'set_options': (['supervisor::options::set_options'], {}),
        'lookup': (['supervisor::keys::lookup_result', 'supervisor::keys::lookup'], {}),
        'edition': (['supervisor::keys::edition'], {}),
        'signal': (['supervisor::registers::signal'], {}),
        'flags': (['supervisor::registers::flags'], {}),
        'read_record': (['supervisor::registers::record', 'supervisor::registers::record_bytes'], {'kind': 'k'}),
        'save': (['saving::save::save'], {'out': 'room'}),
        'restore': (['saving::restore::restore'], {}),
    },
    'requester_claims': {
        'start': (['requester::start::start'], {}),
        'request': (['requester::sending::request'], {'«data»': 'd', 'out': 'room'}),
        'interrupt': (['requester::recovery::interrupt'], {}),
        'send': (['requester::sending::send'], {'out': 'room'}),
        'receive': (['requester::receive::receive'], {}),
        'state': (['requester::state::state'], {}),
    },
}


def specs_files(found):
    return [file for module, file in found.files.items() if module.split('.')[1] == 'specs']


# ---- Definitions and statements alone

def laws_in_specs(found):
    for file in specs_files(found):
        for item in file.items:
            if not item.defines:
                yield f'{item.place}: {item.name} is a law in specs/'
        for number, line in enumerate(file.bare, 1):
            if PROOF.search(line) and not sources.USE.match(line.rstrip()):
                yield f'{file.path.relative_to(ROOT)}:{number}: proof text in specs/: {line.strip()}'
            if re.match(r'^(pub )?use Rattle\.\w+\.proofs\b', line) and sources.canonical(line.split('use ', 1)[1]):
                yield f'{file.path.relative_to(ROOT)}:{number}: specs/ names proofs/'


# ---- Records and their elements

def records(found):
    """The records of statements: those of the files of statements that take no parameter."""
    return [item for file in specs_files(found) if STATEMENTS.match(file.path.stem) for item in file.items
            if item.kind == 'record' and re.match(r'^pub record \S+ : Type \d where', item.told)]


def elements(found, record):
    """The items of the crate's proofs/ whose type is the record, with the fields that each gives."""
    for module, file in found.files.items():
        if module.split('.')[:2] == [record.module.split('.')[0], 'proofs']:
            for item in file.items:
                if item.told.split(' : ', 1)[-1].strip() == record.name and found.resolved(file, record.name) is record:
                    body = '\n'.join(file.bare[item.first:file.end(item.first - 1, 0)])
                    yield item, set(re.findall(r'(?:[{;]|^)\s*([^\s(){}=;]+) =(?=\s)', body.partition('record {')[2], re.M))


def record_faults(found):
    for record in records(found):
        fields = {field.name for field in reading.fields_of(record)}
        given = list(elements(found, record))
        if len(given) != 1:
            yield f'{record.place}: {record.name} has {len(given)} elements in proofs/'
        for item, proved in given:
            yield from (f'{record.place}: {record.name} has no proof of {name} in {item.place}' for name in sorted(fields - proved))


# ---- Names of CLAIMS.md

def known_names(found):
    """Names that a document may give: of specs/, of public laws, of functions and types in Rattle and methods that they call, of C functions and
    structs, of the wrapper's functions, of crates, modules and edits."""
    items = [item for item in found.items() if item.public or item.module.split('.')[1] == 'specs']
    names = {name for item in items for name in [item.name, *item.inner]}
    names |= {name for item in items if item.kind == 'record' for name in re.findall(r'^ +(?:pub )?([^\s:]+) :', item.told, re.M)}
    for module, file in found.files.items():
        names |= set(module.split('.'))
        if file.path.suffix == '.rt':
            code = '\n'.join(file.bare)
            names |= set(re.findall(r'\b(?:fn|struct|enum|const|mod) (\w+)', code)) | set(re.findall(r'\.(\w+)\(', code))
    names |= {path.stem for path in [*ROOT.glob('crates/*/must-fail/*.edit'), *ROOT.glob('tests/mutants/*/*.edit')]}
    names |= {name for header in ROOT.glob('include/*.h') for name in re.findall(r'\boatcastle_\w+', header.read_text())}
    names |= {name for path in ROOT.glob('bindings/rust/src/*.rs') for name in re.findall(r'\bfn (\w+)', path.read_text())}
    return names | OTHERS | {'ensures', 'requires', 'rt'}


def unknown_names(found, text):
    known = known_names(found)
    for number, line in enumerate(text.split('\n'), 1):
        for name in re.findall(r'`([^`]+)`', line):
            words = [word for word in re.split(r'::|[\s./]', name.removesuffix('.antt')) if word]
            if not all(word in known for word in words) and not (ROOT / name.split(' ')[0]).exists():
                yield f'docs/CLAIMS.md:{number}: nothing is named {name}'


def unknown_words(found, documents):
    """Of other documents, the names in snake case, as definitions have them; of a word with a capital inside there is none."""
    known = known_names(found)
    for path, text in documents.items():
        for number, line in enumerate(text.split('\n'), 1):
            for name in re.findall(r'`([a-z]+[A-Z]\w*|[a-z][a-z\d]*_\w+)`', line):
                if name not in known:
                    yield f'{path}:{number}: nothing is named {name}'


# ---- Rows of calls

def plain(words):
    """A call's text with the lent bytes by their names: room.now, room.old and p.room as room, the parts of one end as p."""
    text = re.sub(r'(\S+)\.(?:now|old)(?![\w.])', r'\1', words)
    text = re.sub(r'(?<![\w.])p\.(\w+)', r'\1', text)
    return re.sub(r'\((?:main_)?parts [^()]*\)', 'p', text).split()


def promised(found, path, names):
    """The right side of a function's first `ensures`: the definition that it cites, and its arguments."""
    item = dict(reading.promises(found))[path]
    words = plain(item.told.split('\n')[0].split(' ≡ ')[1])
    return found.resolved(found.files[item.module], words[0]), [names.get(word, word) for word in words[1:]]


def row_calls(found, file, row):
    """The calls of definitions of the promises in a row: every name behind a module of Calls or Receive that takes arguments."""
    for match in re.finditer(r'(?<![\w.])([A-Z]\w*\.[a-z]\w*)((?: [^\s()]+)*)', row):
        yield found.resolved(file, match.group(1)), plain(match.group(2).split(' in ')[0])


def row_of(found, crate, call):
    """The file and the definition that have a call's row, and the row's text; None where there is none."""
    for module, name in DID[crate]:
        file = found.files[f'{crate}.specs.{module}']
        match = re.search(rf'^{name} (?:p )?\(?{call}\b[^=]*= ?(.*(?:\n  .*)*)$', file.own[name].told, re.M)
        if match:
            return file, file.own[name], match.group(1)
    return None


def field_of(row, name):
    """A field of a row that is a record, else the whole row."""
    match = re.search(rf'^  {name} = (.*(?:\n {{4}}.*)*);$', row, re.M)
    return ' '.join((match.group(1) if match else row).split())


def settled(found, definition):
    """The names of what a definition settles: the fields of the record that it gives; none where it gives no record."""
    record = found.resolved(found.files[definition.module], definition.told.split('\n')[0].rsplit('→', 1)[-1].strip())
    return [field.name for field in reading.fields_of(record)] if getattr(record, 'kind', '') == 'record' else []


def row_faults(found, count):
    for crate, rows in ROWS.items():
        for call, (functions, names) in rows.items():
            place = row_of(found, crate, call)
            if not place:
                yield f'crates/{crate}/specs: no definition has a row {call}'
                continue
            file, did, row = place
            promise, wanted = field_of(row, 'promise'), [promised(found, path, names) for path in functions]
            count[0] += len(wanted)
            if list(row_calls(found, file, promise)) != wanted:
                yield f'{did.place}: the row {call} of {did.name} is not what {" and ".join(functions)} promise'
            if did.name != 'local_row':
                continue
            given = [name for definition, _ in wanted for name in settled(found, definition)]
            yield from (f'{did.place}: the row {call} of {did.name} leaves {name} out' for name in given if not re.search(rf'(?<![\w.])(?!p\.)\w+\.{name}(?![\w.-])', promise))
            changes = [name for name in given if name in ('outbox', 'settings', 'registers')] or ['nothing']
            if re.match(r'Change\.(\w+)', field_of(row, 'change')).group(1) not in changes:
                yield f'{did.place}: the row {call} of {did.name} may change another part than its promise leaves'


# ---- Parts and their places

def parts_without_place(found):
    for module, file in found.files.items():
        if file.path.suffix == '.rt' and (ROOT / 'crates' / module.split('.')[0] / 'src' / 'lib.rt').exists():
            for name, line, contract in reading.functions(file):
                if re.search(r'\) -> [^\n]*&', contract) and 'result.ref_ptr ≡ ' not in contract:
                    yield f'{file.path.relative_to(ROOT)}:{line}: {name} hands out a part and does not say where it begins'


def faults(found, text, count, documents=None):
    others = documents or {path: (ROOT / path).read_text() for path in DOCUMENTS}
    return [*laws_in_specs(found), *record_faults(found), *unknown_names(found, text), *unknown_words(found, others), *row_faults(found, count), *parts_without_place(found)]


# ---- Planted mistakes

def changed(found, module, old, new):
    """Sources with one text replaced in one file."""
    file = found.files[module]
    text = '\n'.join(file.lines)
    if text.count(old) < 1:
        sys.exit(f'statements: {module} has no {old!r}')
    return sources.Sources({file.path: text.replace(old, new, 1)})


def planted():
    found, text = sources.Sources(), CLAIMS.read_text()
    if faults(found, text, [0]):
        sys.exit('statements: there are faults that nobody planted')
    table = 'supervisor_claims.specs.LocalCalls'
    mistakes = {
        'a field with no proof': (changed(found, 'line_claims.specs.Demand3', '  pub cut : LineCut\n', '  pub cut : LineCut\n  pub cut_twice : LineCut\n'), text),
        'a record with no element': (changed(found, 'line_claims.proofs.Proved', 'pub item-12 : LineItem12', 'pub item-12 : LineItem6'), text),
        'a law in specs': (changed(found, 'line_claims.specs.Loans', '-- at most one', 'pub same : (n : ℕ) → ℕ\nsame n = n\n\n-- at most one'), text),
        'proof text in specs': (changed(found, 'line_claims.specs.Loans', 'fewer published n = min', 'fewer published n = rw min'), text),
        'specs that name proofs': (changed(found, 'line_claims.specs.Loans', 'use Rattle.octets.specs.Bytes.', 'use Rattle.octets.proofs.Each.{each-take}\nuse Rattle.octets.specs.Bytes.'), text),
        'a name misspelt': (found, text.replace('`hands_out`', '`hand_outs`', 1)),
        'rows exchanged': (changed(found, table, 'Calls.post_promise p.registers action text', 'Calls.options_promise p.registers action'), text),
        'arguments of a row exchanged': (changed(found, table, 'Calls.lookup_result_promise p.factory p.settings', 'Calls.lookup_result_promise p.settings p.factory'), text),
        'a row of did exchanged': (changed(found, 'supervisor_claims.specs.Histories', 'Receive.receive_promise image p piece', 'Receive.step_promise image p piece'), text),
        'a row that leaves out what is settled': (changed(found, table, 't.room t.outbox', 't.room []'), text),
        'a row with another change': (changed(found, table, 'change = Change.settings image', 'change = Change.nothing'), text),
        'a part without its place': (changed(found, 'supervisor.src.keys', 'result.ref_ptr ≡ lookup_place', 'result.now ≡ lookup_place'), text),
    }
    missed = [name for name, (sources_then, text_then) in mistakes.items() if not faults(sources_then, text_then, [0])]
    older = {'docs/PROMISES.md': (ROOT / 'docs/PROMISES.md').read_text().replace('`take_promise`', '`takePromise`', 1)}
    mistakes['a name with a capital inside in another document'] = None
    missed += [] if faults(found, text, [0], older) else ['a name with a capital inside in another document']
    misspelt = {'docs/PROMISES.md': (ROOT / 'docs/PROMISES.md').read_text().replace('`take_promise`', '`takes_promise`', 1)}
    mistakes['a name misspelt in another document'] = None
    missed += [] if faults(found, text, [0], misspelt) else ['a name misspelt in another document']
    for name in missed:
        print(f'statements: not seen: {name}')
    print(f'statements: {len(mistakes) - len(missed)} of {len(mistakes)} planted mistakes seen')
    return 1 if missed else 0


def main():
    if sys.argv[1:] == ['planted']:
        sys.exit(planted())
    if sys.argv[1:]:
        sys.exit(__doc__)
    found, count = sources.Sources(), [0]
    wrong = faults(found, CLAIMS.read_text(), count)
    held = records(found)
    print('\n'.join(wrong + [f'statements: {len(held)} records of {sum(len(list(reading.fields_of(record))) for record in held)} statements, {count[0]} promises held to rows, '
                             f'{len(wrong)} faults']))
    sys.exit(1 if wrong or not held else 0)


if __name__ == '__main__':
    main()
