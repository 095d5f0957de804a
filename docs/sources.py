"""The definitions, laws and contracts of crates/, as their sources have them. Each item of a file of antt has its place, its text and the
names that it rests on.
Assumes the layout of crates.txt, and files as `rt fmt` lays them out: an import on one line, an item's lines indented deeper than its head."""
import pathlib
import re

ROOT = pathlib.Path(__file__).resolve().parent.parent
CRATES = ROOT / 'crates'

PATH = re.compile(r'Rattle\.(\w+)((?:\.[^\s.{};]+)*)')
USE = re.compile(r'^(ghost )?(pub )?use ([^;{]+?)(?: as (\S+?))?(?:\.\{([^}]*)\})?;?$')
HEAD = re.compile(r'^( *)((?:(?:abbrev|unfoldable|pub) )*)(record|data|ruleset)? ?(?:\{)?([^\s(){}:=.,;]+)(?=[ \n]|$)')
SIGNATURE = re.compile(r'^( *)((?:(?:abbrev|unfoldable|pub) )*)([^\s(){}:=.,;]+) :(?= |$)')
TYPE = re.compile(r'^( *)((?:(?:abbrev|unfoldable|pub) )*)(record|data|ruleset) (\S+)')
MODULE = re.compile(r'^( *)module _ ?(.*)$')
# words of the language and of tactics
WORDS = set('data record deriving module where use mod pub package using open as unfoldable abbrev axiom unfold unfolding ruleset mutual infix infixl infixr elim let in do '
            'λ ∀ Type Unit → × ≡ ← = : rw simp search grw grind cc omega subst cap refl tt absurd _ | ⊥ ⊤ .'.split())
# A crate's folder for what the kit builds has copies of the sources.
BUILT = ('out', 'target')
TOKEN = re.compile(r'«[^»]*»|"(?:[^"\\]|\\.)*"|[^\s(){},;"]+|[(){},;]')
DEFINES = ('record', 'data', 'abbrev', 'unfoldable')


class Item:
    """One definition or law: its name, kind, module and place, and its text without comments.
    `told` is what a reader must read of it: the whole of a definition, of a law its statement."""

    def __init__(self, name, kind, public, module, path, first, last, told, around, inner):
        self.name, self.kind, self.public, self.module = name, kind, public, module
        self.path, self.first, self.last = path, first, last
        self.told, self.around, self.inner = told, around, inner

    @property
    def place(self):
        return f'{self.path.relative_to(ROOT)}:{self.first}'

    @property
    def key(self):
        return f'{self.module}.{self.name}'

    @property
    def defines(self):
        return self.kind in DEFINES

    @property
    def lines(self):
        """How many lines a reader must read, without comments and empty lines."""
        return sum(1 for line in self.told.split('\n') if line.strip())


def uncommented(line):
    return re.sub(r'(^|\s)(--|//) .*$|^\s*--$', r'\1', line)


def canonical(path):
    """The module of this repository that an import's path leads to, as line.specs.Reader; None for one of the kit, whose std is under Rattle too."""
    match = PATH.match(path)
    return match.group(1) + match.group(2) if match and (CRATES / match.group(1)).is_dir() else None


def ensured(head):
    """What each `ensures` of a contract says, in one line; `head` is a function's text between its name and its body."""
    found = re.findall(r'^ *ensures (?:\w+ )?\{(.*?)\}$(?=\s*(?:(?:requires|ensures) (?:\w+ )?\{|\Z))', head, re.M | re.S)
    return [' '.join(text.split()) for text in found]


def crate_files():
    """The files of antt and of Rattle of every crate, without what the kit builds beside them."""
    return [path for path in sorted(CRATES.rglob('*')) if path.suffix in ('.antt', '.rt') and not set(BUILT) & set(path.relative_to(CRATES).parts)]


class File:
    """A file of antt or of Rattle: its module, its imports, its items."""

    def __init__(self, path, text=None):
        self.path = path
        self.lines = (path.read_text() if text is None else text).split('\n')
        self.bare = [uncommented(line) for line in self.lines]
        parts = path.relative_to(CRATES).with_suffix('').parts
        self.module = '.'.join(parts)
        self.names, self.aliases, self.reexports = {}, {}, {}
        self.imports()
        self.items = list(self.parsed()) if path.suffix == '.antt' else []
        self.own = {}
        for item in self.items:
            self.own.setdefault(item.name, item)
            for name in item.inner:
                self.own.setdefault(name, item)

    def imports(self):
        for line in self.bare:
            match = USE.match(line.rstrip())
            if not match:
                continue
            _, public, path, alias, listed = match.groups()
            module = canonical(path)
            if listed is None:
                self.aliases[alias or path.split('.')[-1]] = module
                continue
            for name in (name.strip() for name in listed.split(',')):
                said = name.split(' as ')[-1].strip()
                self.names[said] = (module, name.split(' as ')[0].strip())
                if public:
                    self.reexports[said] = (module, name.split(' as ')[0].strip())

    def parsed(self):
        """The items in order. A head at some indentation owns the deeper lines behind it; a `module _` holds its telescope around the items in it."""
        at, around = 0, []
        while at < len(self.bare):
            line = self.bare[at]
            depth = len(line) - len(line.lstrip())
            if not line.strip() or USE.match(line.rstrip()) or re.match(r'^ *(pub )?(mod|open) ', line):
                at += 1
                continue
            around = [(deep, text) for deep, text in around if deep < depth]
            end = self.end(at, depth)
            if MODULE.match(line):
                stop = next(n for n in range(at, len(self.bare)) if self.bare[n].rstrip().endswith('where'))
                around.append((depth, ' '.join(self.bare[at:stop + 1]).replace('module _', '').rsplit('where', 1)[0]))
                at = stop + 1
                continue
            yield self.item(at, end, [text for _, text in around])
            at = end

    def end(self, at, depth):
        """Where the item that begins here ends: behind its deeper lines and, of a function, its clauses."""
        match = SIGNATURE.match(self.bare[at])
        name = match and match.group(3)
        last = at
        for n in range(at + 1, len(self.bare)):
            line = self.bare[n]
            if not line.strip():
                continue
            deep = len(line) - len(line.lstrip())
            clause = name and deep == depth and (re.match(r'\s*(unfolding( |$)|[})])', line) or re.match(r'\s*' + re.escape(name) + r'(?=[ =]|$)', line))
            if deep <= depth and not clause:
                break
            last = n
        return last + 1

    def item(self, first, end, around):
        text = self.bare[first:end]
        match = TYPE.match(text[0])
        if match:
            words, kind, name = match.group(2).split(), match.group(3), match.group(4)
            if kind == 'data':
                inner = [m.group(1) for m in (re.match(r'^\s+(?:pub )?([^\s:(){}]+) :', line) for line in text[1:]) if m]
            else:
                inner = []
            return Item(name, kind, 'pub' in words, self.module, self.path, first + 1, end, '\n'.join(text), around, inner)
        match = SIGNATURE.match(text[0])
        if not match:
            raise SystemExit(f'{self.path.relative_to(ROOT)}:{first + 1}: cannot read: {text[0]}')
        words, name = match.group(2).split(), match.group(3)
        kind = next((word for word in words if word in DEFINES), 'law')
        told = text if kind != 'law' else self.statement(text, name)
        return Item(name, kind, 'pub' in words, self.module, self.path, first + 1, first + len(told) if kind == 'law' else end, '\n'.join(told), around, [])

    @staticmethod
    def statement(text, name):
        """A law's lines up to its proof."""
        for n, line in enumerate(text[1:], 1):
            if re.match(r'\s*unfolding( |$)', line) or re.match(r'\s*' + re.escape(name) + r'(?=[ =]|$)', line) and '=' in ' '.join(text[n:]):
                return text[:n]
        return text


def binders(text):
    """The names that a text binds, each with the place of its first binding: (x y : T), {x : T}, λ x y., let x =, a record's fields, names behind a `where`."""
    found = {}
    forms = ((r'[({]([^(){}:;,]+?) : ', 1), (r'λ ([^.]*)\.', 1), (r'\blet ([^\s:=]+) [:=]', 1), (r'^ +(?:pub )?([^\s(){}:=]+) : ', 1))
    for form, group in forms:
        for match in re.finditer(form, text, re.M):
            for name in re.sub(r':[^(){}]*|[(){},]', ' ', match.group(group)).split():
                found[name] = min(found.get(name, len(text)), match.start())
    return found


def fields(text):
    """The names that stand ahead of = in a record or a named argument: { x = .., ; y = .. }."""
    return {match.start(1) for match in re.finditer(r'(?:[{;]|^)\s*([^\s(){}:=;,]+) =(?=\s)', text, re.M)}


def clause_variables(item):
    """The functions behind a definition's `where`, and the arguments of its and their clauses."""
    within = set(re.findall(r'^ +([^\s(){}:=]+) : ', item.told, re.M)) if item.kind in ('abbrev', 'unfoldable') else set()
    found = set(within)
    for line in item.told.split('\n')[1:]:
        words = line.split()
        if words and words[0] in within | {item.name} and '=' in words:
            found |= set(re.sub(r'[(){},=]', ' ', ' '.join(words[1:words.index('=')])).split())
    return found


class Sources:
    """Every file of crates/, and what a name in one of them stands for; `texts` has other texts for some paths."""

    def __init__(self, texts=()):
        texts = dict(texts)
        self.files = {file.module: file for file in (File(path, texts.get(path)) for path in crate_files())}

    def items(self):
        return [item for file in self.files.values() for item in file.items]

    def found(self, module, name):
        """The item under a name in a module, behind re-exports too; the module's name where it is a type that a file of Rattle declares."""
        seen = set()
        while (module, name) not in seen:
            seen.add((module, name))
            file = self.files.get(module)
            if file is None:
                return self.declared(module, name)
            if name in file.own:
                return file.own[name]
            if name not in file.reexports:
                return None
            module, name = file.reexports[name]
            if module is None:
                return 'kit'
        return None

    def declared(self, module, name):
        """A struct or an enum of Rattle, whose meaning the check writes in specs.declared."""
        parts = module.split('.')
        if 'declared' not in parts:
            return None
        crate, within = parts[0], [part for part in parts[parts.index('declared') + 1:] if part != 'TheVariants']
        source = self.files.get('.'.join([crate, 'src'] + (within[:-1] or ['lib'])))
        for n, line in enumerate(source.bare if source else []):
            if re.match(r'^(?:pub(?:\(crate\))? )?(?:struct|enum) ' + re.escape(within[-1]) + r'\b', line):
                stop = next((k for k in range(n, len(source.bare)) if source.bare[k].startswith('}') or source.bare[k].endswith(';')), n)
                return Item(within[-1], 'data', True, '.'.join([crate, 'specs', 'declared'] + within), source.path, n + 1, stop + 1, '', [], [])
        return None

    def resolved(self, file, word):
        """What a word in a file stands for: an item; 'kit' for a name of the kit; None where it is neither."""
        if word in file.names:
            module, name = file.names[word]
            return 'kit' if module is None else self.found(module, name)
        if word in file.own:
            return file.own[word]
        front, dot, back = word.partition('.')
        if not dot:
            return None
        if front in file.aliases:
            # a constructor behind its type: Calls.Report.refused
            return 'kit' if file.aliases[front] is None else self.found(file.aliases[front], back.partition('.')[0])
        return self.resolved(file, front)

    def bound(self, file, item, text):
        """The names that an item binds, each from which place on; in a clause's head a constructor's name is that constructor."""
        found = binders(text)
        for name in clause_variables(item) if item.kind != 'law' else ():
            target = self.resolved(file, name)
            if not (isinstance(target, Item) and target.name != name or target == 'kit'):
                found[name] = 0
        return found

    def rests(self, item):
        """The items that an item's text names, in order, and the words that stand for nothing known."""
        file = self.files.get(item.module)
        if file is None:
            return [], []
        text = '\n'.join(item.around + [item.told])
        local, ahead = self.bound(file, item, text), fields(text)
        known, unknown = [], []
        for match in TOKEN.finditer(text):
            word = match.group(0).rstrip('.')
            if not word or word in WORDS or word in '(){},;' or word[0] in '."' or match.start() in ahead or word[0].isdigit():
                continue
            # a projection is written tight: of r.f and s.now what is bound is r and s
            if min(local.get(name, len(text)) for name in (word, word.partition('.')[0])) <= match.start():
                continue
            target = self.resolved(file, word) or self.operator(file, word)
            if target is None:
                unknown.append(word)
            elif target != 'kit' and target.key != item.key and target.key not in [other.key for other in known]:
                known.append(target)
        return known, unknown

    def operator(self, file, word):
        """An operator by its sign: + for ◌+◌."""
        for name in (f'◌{word}◌', f'{word}◌', f'◌{word}'):
            if name in file.names or name in file.own:
                return self.resolved(file, name)
        return None
