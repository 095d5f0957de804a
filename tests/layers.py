#!/usr/bin/env python3
"""Checks that the crates above the line layer, `line_claims` too, name of it only what its public contracts rest on:
  - its public types;
  - the modules of its specs that the `ensures` of a public function cites, and those that these import. specs/ReaderLayout, which says
    where the bytes of a frame stand in the reader's state, is not among them;
  - the files of laws in its proofs whose public statements name only such modules and files. The public statements of a file are the types
    of its `pub` names and its `pub` definitions whole. The parameters of the modules that they stand in, and what else of the file these
    name, are among them. What a proof cites is its own affair;
  - its records of statements with their proofs (specs/Item.., proofs/Proved).
They unfold none of these definitions that the layout stands in, and none of these that is an `abbrev` names the layout. So another layout
leaves them as they are. What breaks this is printed with its place, and the check fails.
Checks too:
  - In no crate the modules of the code, or those of specs/, stand in a cycle by what each names of the others.
  - No crate with code depends on a crate of claims.
  - The code of `plain`, the second reader, names nothing of the line layer's code.
Assumes the layout of crates.txt, and uses, paths and contracts as `rt fmt` lays them out.

usage: tests/layers.py            prints what is wrong, or how much was looked at
       tests/layers.py planted    plants names of the layout, cycles, and code of the line layer in `plain`, which must be seen"""
import functools
import pathlib
import re
import sys

ROOT = pathlib.Path(__file__).resolve().parent.parent
sys.path.insert(0, str(ROOT / 'docs'))
import sources  # noqa: E402

LINE = ROOT / 'crates' / 'line'
LAYOUT = 'specs.ReaderLayout'
# Rattle.line.specs.Reader; a name in the module may follow
NAME = re.compile(r'Rattle\.line(?![\w-])((?:\.[\w-]+)*)')


def module(path):
    """The module that a path leads to, as specs.Reader."""
    parts = path.split('.')[1:]
    return '.'.join(parts[:4] if parts[1:2] == ['declared'] else parts[:2])


def named(text):
    """The modules of line that a text names."""
    return {module(path) for path in NAME.findall(text)}


def public_files():
    """Line's public modules: name and text."""
    names = re.findall(r'^pub mod (\w+);', (LINE / 'src' / 'lib.rt').read_text(), re.M)
    return [(name, (LINE / 'src' / f'{name}.rt').read_text()) for name in ['lib'] + names]


def public_types():
    return {f'specs.declared.{name}.{kind}' for name, text in public_files() for kind in re.findall(r'^pub (?:struct|enum) (\w+)', text, re.M)}


def cited(text):
    """The modules of line's specs whose names stand in an `ensures` of a public function."""
    uses = re.findall(r'^ghost use (Rattle\.line(?![\w-])[^;{]*)\.\{(.*)\};$', text, re.M)
    found = set()
    for function, head in re.findall(r'^ *pub fn (\w+)(.*?)(?<!record )\{$', text, re.M | re.S):
        words = set(re.findall(r'[^\s(){},;]+', ' '.join(sources.ensured(head))))
        modules = {name for path, names in uses if words.intersection(names.split(', ')) for name in named(path)}
        if not modules:
            sys.exit(f'layers: the contract of line\'s public function {function} cites no definition of line')
        found |= modules
    return found


def public_specs(files):
    found = set().union(*(cited(text) for _, text in public_files()))
    rest = list(found)
    while rest:
        more = named(files.get(rest.pop(), '')) - found - {LAYOUT}  # a declared type has no file
        found |= more
        rest += more
    return found | public_types()


# ---- What a file says: its declarations, and the modules of line that they name

def line_files():
    """Line's files of specs and of laws, by module."""
    return {f'{part}.{path.stem}': path.read_text() for part in ('specs', 'proofs') for path in LINE.glob(f'{part}/*.antt') if path.stem != 'Lib'}


def imports(text):
    """The names that a text imports of line, each with its module and its name there; a module's own name stands for all of it."""
    found = {}
    for path, names, alias in re.findall(r'^(?:ghost )?use (Rattle\.line(?![\w-])[^\s{;]*?)(?:\.\{(.*)\})?(?: as (\S+?))?;?$', text, re.M):
        for name in filter(None, names.split(', ')):
            there, _, here = name.partition(' as ')
            found[here or there] = (module(path[len('Rattle.line'):]), there)
        if not names:
            found[alias or path.split('.')[-1]] = (module(path[len('Rattle.line'):]), '')
    return found


def words(text):
    """The names in a text, without those that it binds and what is read of these (x.f)."""
    text = re.sub(r'(^|\s)-- .*$', '', text, flags=re.M)
    bound = {name for names in re.findall(r'[({]([^(){}:;=→]+) : |λ ([^.(]+)\.', text) for name in ' '.join(names).split()}
    return [word for word in re.findall(r'[^\s(){},;]+', text) if not bound & {word, word.partition('.')[0]}]


def reaches(text, known):
    """What of line a text names by these imports: modules and names."""
    for word in words(text):
        head, _, rest = word.lstrip('.').partition('.')
        if head in known:
            yield known[head][0], known[head][1] or rest.split('.')[0]


DECLARED = re.compile(r'((?:abbrev |unfoldable )?)((?:pub )?)((?:record |data )?)(\S+) (?:\(.*\) )?:')


def declarations(text):
    """Each declaration of a file: its name, whether it is `pub`, its kind, its statement and its body, the statement with the parameters of the
    modules that it stands in. Of a record or of a data type all is statement; of a law the body is its proof."""
    chunks = []  # a line and those deeper behind it
    for line in re.sub(r'^ *-- .*$', '', text, flags=re.M).splitlines():
        indent = len(line) - len(line.lstrip())
        if not line.strip() or line.startswith('use '):
            continue
        if chunks and indent > chunks[-1][0] and not re.match(r' *module _.* where$', '\n'.join(chunks[-1][1]), re.S):
            chunks[-1][1].append(line)
        else:
            chunks.append((indent, [line]))
    found, around = {}, []
    for indent, lines in chunks:
        whole = '\n'.join(lines).strip()
        around = [(at, telescope) for at, telescope in around if at < indent]
        if whole.startswith('module _'):
            around.append((indent, whole))
            continue
        told = DECLARED.match(whole)
        if told and not whole.startswith('unfolding'):
            kind, pub, data, name = told.groups()
            found[name] = {'pub': bool(pub), 'kind': (kind or data).strip(), 'statement': '\n'.join([telescope for _, telescope in around] + [whole]), 'body': ''}
        elif not whole.startswith('unfolding') and whole.split()[0] in found:
            found[whole.split()[0]]['body'] += whole + '\n'
    return found


def stated_modules(text):
    """The modules of line that the public statements of a file name."""
    declared, known = declarations(text), imports(text)
    rest, seen, found = [name for name in declared if declared[name]['pub']], set(), set()
    while rest:
        name = rest.pop()
        if name in seen:
            continue
        seen.add(name)
        said = declared[name]['statement'] + (declared[name]['body'] if declared[name]['kind'] else '')
        found |= {other for other, _ in reaches(said, known)}
        rest += [name for word in words(said) for name in {word, word.partition('.')[0]} if name in declared]
    return found


def public_proofs(specs, files):
    stated_by = {name: stated_modules(text) for name, text in files.items() if name.startswith('proofs.')}
    found = set(stated_by)
    while True:
        less = {name for name in found if stated_by[name] - specs - found}
        if not less:
            return found
        found -= less


def over_layout(specs, files):
    """The definitions of the public specs that the layout stands in, with their kinds."""
    return {(name, definition): told['kind'] for name in specs if name in files for definition, told in declarations(files[name]).items()
            if LAYOUT in {other for other, _ in reaches(told['statement'] + told['body'], imports(files[name]))}}


def stated():
    """The modules of line's records of statements, and of their elements."""
    return {f'specs.{path.stem}' for path in LINE.glob('specs/Item*.antt')} | {'proofs.Proved'}


def crates_above():
    """The crates that depend on line, over others too."""
    depends = dict(re.findall(r'^(\w+)(?: [^:\n]*)?:(.*)$', (ROOT / 'crates.txt').read_text(), re.M))
    found = {'line'}
    while True:
        more = {name for name in depends if found.intersection(depends[name].split())} - found
        if not more:
            return found - {'line'}
        found |= more


# ---- Cycles between the modules of a crate

def texts_of(folder):
    """The modules of a folder, by name, as texts without comments."""
    return {path.stem: re.sub(r'(^|\s)(--|//) .*$', '', path.read_text(), flags=re.M) for path in folder.iterdir() if path.suffix in ('.antt', '.rt')}


def own_names(text):
    """The first name behind each `crate::`; definitions and proofs, which an attribute names so, are none."""
    yield from re.findall(r'\bcrate::(?!specs::|proofs::)(\w+)', text)
    for inside in re.findall(r'\bcrate::\{((?:[^{}]|\{[^{}]*\})*)\}', text):
        yield from re.findall(r'(?:^|,)\s*(\w+)', re.sub(r'\{[^{}]*\}', '', inside))


def code_names(texts):
    """What each module of code names of the others: `crate::head` in any module, alone or in braces (`crate::{head, limits::LONGEST}`), or `head::` in
    the root, which declares it. What is `crate::` and no module is the root's."""
    root = 'main' if 'main' in texts else 'lib'
    found = {name: {other if other in texts else root for other in own_names(text)} for name, text in texts.items()}
    found[root] |= {other for other in re.findall(r'(?<!::)\b(\w+)::', texts[root]) if other in texts}
    return found


def specs_names(crate, texts):
    """What each module of specs/ names of the others in its uses."""
    return {name: set(re.findall(rf'^(?:pub )?use Rattle\.{crate}\.specs\.(\w+)', text, re.M)) & set(texts) for name, text in texts.items()}


def reached(names, start):
    found, rest = set(), [start]
    while rest:
        more = names[rest.pop()] - found
        found |= more
        rest += more
    return found


def cycles(names):
    """The sets of modules that name each other, over others too."""
    ahead = {name: reached(names, name) for name in names}
    return {frozenset(other for other in ahead[name] if name in ahead[other]) for name in names if name in ahead[name]}


def crate_modules():
    """For each crate: its name, and what its modules of code and of specs/ are, and how what they name is read."""
    for crate in sorted((ROOT / 'crates').iterdir()):
        yield crate.name, 'src', texts_of(crate / 'src'), code_names
        if (crate / 'specs').exists():
            yield crate.name, 'specs', texts_of(crate / 'specs'), functools.partial(specs_names, crate.name)


# ---- The second reader, and claims below code

def calls_of_line(texts):
    """The modules of some code that name code of the line layer."""
    return sorted(name for name, text in texts.items() if re.search(r'\bline::|^\s*use line\b', text, re.M))


def on_claims(listed):
    """The crates with code that depend on a crate of claims, by the text of crates.txt."""
    for name, others in re.findall(r'^(\w+)(?: [^:\n]*)?:(.*)$', listed, re.M):
        claims = [other for other in others.split() if other.endswith('_claims')]
        if claims and not re.search(r'(^|_)claims$', name):
            yield f'crates.txt: {name} depends on {", ".join(claims)}'


def code_faults(texts, listed):
    return [f'crates/plain/src/{name}.rt names code of the line layer' for name in calls_of_line(texts)] + list(on_claims(listed))


def planted_layout():
    """Names of the layout in memory: of its module, of a law on it, of a definition that it stands in, and by a law or an abbreviation that becomes public."""
    above, files = files_above(), line_files()
    path = 'crates/supervisor_claims/proofs/calls/StepClaim.antt'
    received, reader = files['proofs.Received'], files['specs.Reader']
    plants = {
        'the module': ({**above, path: above[path] + '\nuse Rattle.line.specs.ReaderLayout.{received_count}'}, files),
        'the module by its name': ({**above, path: above[path] + '\nuse Rattle.line.specs.ReaderLayout as Layout'}, files),
        'a law on it': ({**above, path: above[path] + '\nuse Rattle.line.proofs.State.{count-counted}'}, files),
        'a definition unfolded': ({**above, path: above[path] + '\nunfolding LineReader.pushed'}, files),
        'the same on a second line': ({**above, path: above[path] + '\nunfolding LineReader.read_piece\n    LineReader.data_promise'}, files),
        'a public law on it': (above, {**files, 'proofs.Received': received.replace('\ncounted-each :', '\npub counted-each :')}),
        'a public abbreviation of a law file': (above, {**files, 'proofs.Received': received + '\nabbrev pub at : List ℕ → ℕ\nat s = received_count s\n'}),
        'a law by a private abbreviation': (above, {**files, 'proofs.Received': received + '\nabbrev at : List ℕ → ℕ\nat s = received_count s\n\npub law : (s : List ℕ) → at s ≡ 0\n'}),
        'an abbreviation of the promise': (above, {**files, 'specs.Reader': reader.replace('unfoldable pub pushed :', 'abbrev pub pushed :')}),
    }
    if internal_names(above, files)[1]:
        return len(plants), ['layers: the layout is named without a plant']
    return len(plants), [f'layers: the layout is not seen: {what}' for what, (texts, line) in plants.items() if not internal_names(texts, line)[1]]


def planted():
    """Cycles in memory: between two modules of code, over a third, with the root, and in specs/."""
    folders = {(crate, part): (texts, read) for crate, part, texts, read in crate_modules()}
    plants = [('requester', 'src', 'progress', 'use crate::hearing;'), ('requester', 'src', 'progress', 'use crate::{\n    layout::KEPT_OFFSET,\n    hearing,\n};'),
              ('responder', 'src', 'sending', 'use crate::receive::Stepped;'),
              ('line_cases', 'src', 'print', 'use crate::run_all;'), ('responder', 'specs', 'Commands', 'use Rattle.responder.specs.Receive.{step_outcome}')]
    missed = []
    for crate, part, name, line in plants:
        texts, read = folders[crate, part]
        if cycles(read(texts)) or not cycles(read({**texts, name: line + '\n' + texts[name]})):
            missed.append(f'layers: not seen: {line} in {name} of {crate}')
    plain, listed = folders['plain', 'src'][0], (ROOT / 'crates.txt').read_text()
    others = [({**plain, 'lib': plain['lib'] + '\nuse line::reader;'}, listed), ({**plain, 'lib': plain['lib'] + '\nfn f() { line::reader::tail(s); }'}, listed),
              (plain, listed.replace('\nplain: line', '\nplain: line_claims line'))]
    missed += [f'layers: not seen: mistake {n} in plain' for n, (texts, crates) in enumerate(others, 1) if not code_faults(texts, crates)]
    layouts, unseen = planted_layout()
    missed += unseen
    count = len(plants) + len(others) + layouts
    print('\n'.join(missed + [f'layers: {count - len(missed)} of {count} planted names of the layout, cycles and mistakes in plain seen']))
    sys.exit(1 if missed else 0)


def files_above():
    """The files of the crates above line, by their paths."""
    return {str(path.relative_to(ROOT)): path.read_text() for crate in sorted(crates_above()) for path in sorted((ROOT / 'crates' / crate).rglob('*'))
            if path.suffix in ('.antt', '.rt') and 'out' not in path.relative_to(ROOT).parts}


def unfolded(text):
    """The lines of a text that unfold definitions, with their numbers."""
    lines = text.splitlines()
    for number, line in enumerate(lines, 1):
        if line.lstrip().startswith('unfolding '):
            deep = len(line) - len(line.lstrip())
            more = [other for other in lines[number:number + 1] if len(other) - len(other.lstrip()) > deep + 2]
            yield number, ' '.join([line] + more)


def internal_names(above, files):
    """How many names of line's modules the crates above it have, and what they name or unfold that is internal to line, with its place."""
    specs = public_specs(files)
    public = specs | public_proofs(specs, files) | stated()
    held = over_layout(specs, files)
    count, wrong = 0, [f'crates/line/{name.replace(".", "/")}.antt: the abbrev {definition} names the layout' for (name, definition), kind in held.items() if kind == 'abbrev']
    for path, text in above.items():
        known = imports(text)
        for number, line in enumerate(text.splitlines(), 1):
            for name in named(line):
                count += 1
                if name not in public:
                    wrong.append(f'{path}:{number}: {name or "the whole"} is internal to line')
        for number, line in unfolded(text):
            wrong += [f'{path}:{number}: {definition} is unfolded, in which the layout stands' for name, definition in reaches(line, known) if (name, definition) in held]
    return count, wrong


def main():
    if sys.argv[1:] == ['planted']:
        planted()
    if sys.argv[1:]:
        sys.exit(__doc__)
    count, wrong = internal_names(files_above(), line_files())
    modules, circular = 0, []
    for crate, part, texts, read in crate_modules():
        modules += len(texts)
        circular += [f'crates/{crate}/{part}: {", ".join(sorted(cycle))} stand in a cycle' for cycle in cycles(read(texts))]
    others = code_faults(texts_of(ROOT / 'crates' / 'plain' / 'src'), (ROOT / 'crates.txt').read_text())
    print('\n'.join(wrong + circular + others + [f'layers: {count} names of line\'s modules in the crates above it, {len(wrong)} of them internal; {modules} modules, {len(circular)} cycles; '
                                                   f'{len(others)} names of the line layer in plain, or of claims below code']))
    sys.exit(1 if wrong or circular or others or not count or not modules else 0)


main()
