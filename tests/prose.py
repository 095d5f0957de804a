#!/usr/bin/env python3
"""Holds the documents to what makes them easy to read:
- no sentence has more than 25 words. A sentence ends at . ! or ? alone, or where its paragraph, list item, heading or table cell ends. A code span is one word;
- no line of a document's source is wider than 140 columns, but for code and rows of tables. No cell of a table is wider than 300 characters;
- docs/GLOSSARY.md has an entry for each abbreviation in capitals, each sample (L12), and each word of WORDS that a document uses;
- every entry of the glossary is used by some other document;
- docs/README.md has each document's minutes, at 200 words a minute.
Prints each fault, then for each document its longest sentence and widest cell, its wide lines and its words without an entry. Any fault
fails the check.
EXCEPTIONS has what an older document is allowed: exactly so many faults of a kind, so that the number can only fall.
Assumes Markdown as these documents have it: fenced code, code indented by four behind an empty line, tables with a | at both ends.

usage: tests/prose.py            prints what is wrong, and the counts
       tests/prose.py planted    plants a fault of each kind, in memory alone, which must be seen
       tests/prose.py write      puts the minutes into docs/README.md"""
import pathlib
import re
import sys

ROOT = pathlib.Path(__file__).resolve().parent.parent
MOST_WORDS, WIDEST_LINE, WIDEST_CELL, WORDS_A_MINUTE = 25, 140, 300, 200
GLOSSARY, OVERVIEW = 'docs/GLOSSARY.md', 'docs/README.md'
SENTENCES, CELLS, LINES, UNKNOWN = (f'sentences of more than {MOST_WORDS} words', f'cells wider than {WIDEST_CELL} characters',
                                    f'lines wider than {WIDEST_LINE} columns', 'words without an entry in the glossary')
UNUSED, MINUTES = 'entries of the glossary that no document uses', 'documents without their minutes'
# what an older document is allowed: exactly so many faults of a kind
EXCEPTIONS = {}
# words that the papers or this project use in a sense of their own; the glossary has each that a document uses
WORDS = ' '.join('''
    document 01, document 02, source document 003, demand, item, impostor, sentence, message, body, magic, sequence, form, code byte, full
    group, frame, empty frame, overlong, tail, checksum, piece, cut, capture, reason, line layer, root of trust, echo request, supervisor,
    main processor, local call, start data, identity, inventory, key, setting, edition, maxresponse, result, withdrawn-key list,
    passphrase, record, boot failure, panic, alert, retained, pending, owed, line signal, wipe, image, image block, probe list, address
    plan, stride, counter block, requester, outstanding, newest number, answer, ground, resend, anew, recovery, fetch, original, put out,
    handed out, carried out, part, published length, lent, loan, room, outbox, factory store, settings store, registers, valid, sound,
    view, refusal, promise, contract, meaning, verdict, claim, record of statements, law, hypothesis, quick loop, kit, crate, crate
    of claims, gate, edit, mutant, model, differential test, trace, yardstick, far end, programs of cases, tap, mark, tick, judged, accused, stale
'''.split()).split(', ')
# names in capitals that are no abbreviations: files, documents, constants and variables
NO_ABBREVIATIONS = {'ECHOED', 'LINE', 'NULL', 'PATH', 'README', 'TARGET', 'VERSION', 'WIRE'}
# what stands for a code span, and how a list item begins
CODE, ITEM = '\N{REPLACEMENT CHARACTER}', re.compile(r'(?:[-*]|\d+\.) +')


def documents():
    """Every Markdown file of the repository but those of wip/ and of what is built: its path from the root, and its text."""
    paths = [path.relative_to(ROOT) for path in sorted(ROOT.rglob('*.md'))]
    return {path.as_posix(): (ROOT / path).read_text(encoding='utf-8') for path in paths if not {'target', 'out', '.shadow'} & set(path.parts) and path.parts[0] != 'wip'}


def prose_lines(text):
    """The lines that are no code, each with its number. An indented list item is no code."""
    fenced, code, behind_empty = False, False, True
    for number, line in enumerate(text.split('\n'), 1):
        if line.lstrip().startswith('```'):
            fenced = not fenced
            continue
        code = line.startswith('    ') and (code or behind_empty and not ITEM.match(line.strip())) or code and not line.strip()
        behind_empty = not line.strip()
        if not fenced and not code:
            yield number, line


def bare(text):
    """A text with each code span as one word, and links by their words."""
    text = re.sub(r'(`+)(?!`).*?(?<!`)\1(?!`)', CODE, text)
    return re.sub(r'!?\[([^\]]*)\]\([^)]*\)', r'\1', text)


def cells_of(row):
    """The cells of a table's row; a | in a code span or behind a backslash ends none."""
    hidden = re.sub(r'`[^`]*`|\\\|', lambda match: '\0' * len(match.group(0)), row.strip().strip('|'))
    at, cells = 0, []
    for part in hidden.split('|'):
        cells.append(row.strip().strip('|')[at:at + len(part)].strip())
        at += len(part) + 1
    return [cell for cell in cells if cell.strip('-: ')]


def blocks(text):
    """Paragraphs, list items, headings and cells, each as (line, text, whether a cell)."""
    current, first = [], 0
    for number, line in [*prose_lines(text), (0, '')]:
        stripped = line.strip()
        begins = ITEM.match(stripped)
        if current and (not stripped or begins or stripped.startswith(('|', '#'))):
            yield first, ' '.join(current), False
            current = []
        if stripped.startswith('|'):
            for cell in cells_of(stripped):
                yield number, cell, True
        elif stripped.startswith('#'):
            yield number, stripped.lstrip('# '), False
        elif stripped:
            first = first if current else number
            current.append(stripped[begins.end():] if begins else stripped)


def sentences(block):
    """A block's sentences: a . ! or ? ends one, with what closes behind it, where a space follows."""
    text = re.sub(r'\b(e\.g|i\.e|etc|vs)\.', r'\1', bare(block))
    return [part for part in re.split(r'(?<=[.!?])["\')*_\]]*\s+', text) if part.strip()]


def length(sentence):
    return sum(bool(re.search(r'\w', word) or CODE in word) for word in sentence.split())


def entries(texts):
    """The words of the glossary: what stands in bold at the start of an item or a row."""
    found = re.findall(r'^(?:[-*] |\| ?)\*\*(.+?)\*\*', texts.get(GLOSSARY, ''), re.M)
    return [word for entry in found for word in re.split(r', | or ', entry)]


def pattern(word):
    """Where a word stands: whole, in any case if it has no capital, its plural too."""
    flags = 0 if re.search(r'[A-Z]', word) else re.I
    return re.compile(rf'(?<![\w`-]){re.escape(word)}(?:s|es)?(?![\w-])', flags)


def unknown_words(name, text, known):
    """The words of a document that want an entry and have none, each with its first line."""
    if name == GLOSSARY:
        return
    seen = set()
    wanted = [(word, pattern(word)) for word in WORDS if word not in known]
    for number, block, _ in blocks(text):
        plain = bare(block)
        found = {word for word, form in wanted if form.search(plain)}
        found |= {word for word in re.findall(r'(?<![\w./-])[A-Z][A-Z0-9]*[A-Z](?![\w/-]|\.\w)', plain) if word not in known and word not in NO_ABBREVIATIONS}
        found |= {word for word in re.findall(r'(?<![\w./-])L\d+\b', plain) if not any(re.match(r'L\d+', entry) for entry in known)}
        for word in sorted(found - seen):
            seen.add(word)
            yield number, word


def minutes(text):
    """How long a document takes to read, without its code."""
    count = sum(length(bare(block)) for _, block, _ in blocks(text))
    return max(1, round(count / WORDS_A_MINUTE))


def told_minutes(texts):
    """The rows of docs/README.md that give minutes: path and number."""
    for match in re.finditer(r'^\| `([^`]+\.md)` \|.*\| (\d+) \|$', texts.get(OVERVIEW, ''), re.M):
        yield match.group(1), int(match.group(2))


def faults(texts):
    """Each kind's faults: document, and what to print."""
    found = {kind: [] for kind in (SENTENCES, CELLS, LINES, UNKNOWN, UNUSED, MINUTES)}
    known = set(entries(texts))
    for name, text in texts.items():
        tables = {number for number, line in prose_lines(text) if line.strip().startswith('|')}
        prose = {number for number, _ in prose_lines(text)} - tables
        for number, line in enumerate(text.split('\n'), 1):
            if number in prose and len(line) > WIDEST_LINE:
                found[LINES].append((name, f'{name}:{number}: a line of {len(line)} columns'))
        for number, block, cell in blocks(text):
            if cell and len(block) > WIDEST_CELL:
                found[CELLS].append((name, f'{name}:{number}: a cell of {len(block)} characters: {block[:60]}..'))
            for sentence in sentences(block):
                if length(sentence) > MOST_WORDS:
                    found[SENTENCES].append((name, f'{name}:{number}: a sentence of {length(sentence)} words: {sentence.replace(CODE, "`..`")}'))
        found[UNKNOWN] += [(name, f'{name}:{number}: no entry in the glossary: {word}') for number, word in unknown_words(name, text, known)]
    others = '\n'.join(bare(block) for name, text in texts.items() if name != GLOSSARY for _, block, _ in blocks(text))
    found[UNUSED] += [(GLOSSARY, f'{GLOSSARY}: no document uses {word}') for word in entries(texts) if not pattern(word).search(others)]
    told = dict(told_minutes(texts))
    for name, text in texts.items():
        if name != OVERVIEW and told.get(name) != minutes(text):
            found[MINUTES].append((name, f'{OVERVIEW}: {name} takes {minutes(text)} minutes, and {told.get(name, "none")} are given'))
    return found


def refused(found, exceptions=None):
    """What fails the check: every fault that no exception allows, and every exception that is not used up."""
    exceptions, printed = EXCEPTIONS if exceptions is None else exceptions, []
    for kind, each in found.items():
        for name in sorted({name for name, _ in each} | {name for name, other in exceptions if other == kind}):
            mine, allowed = [text for other, text in each if other == name], exceptions.get((name, kind), 0)
            if len(mine) > allowed:
                printed += mine + ([f'{name}: {len(mine)} {kind}, and {allowed} are allowed'] if allowed else [])
            elif len(mine) < allowed:
                printed.append(f'{name}: {len(mine)} {kind}; lower the {allowed} of EXCEPTIONS to that')
    return printed


def counts(texts):
    """A line for each document."""
    known = set(entries(texts))
    for name, text in texts.items():
        longest = max((length(sentence) for _, block, _ in blocks(text) for sentence in sentences(block)), default=0)
        widest = max((len(block) for _, block, cell in blocks(text) if cell), default=0)
        wide = sum(1 for other, _ in faults({name: text})[LINES])
        yield f'{name}: longest sentence {longest}, widest cell {widest}, wide lines {wide}, words without an entry {len(list(unknown_words(name, text, known)))}'


def planted(texts):
    """A fault of each kind fails the check, alone; a plant in a document changes its minutes at most."""
    name, many = 'docs/WIRE.md', ' '.join(['word'] * MOST_WORDS)
    glossary = re.sub(r'^- \*\*edition\*\*.*\n', '', texts[GLOSSARY], flags=re.M)
    plants = {
        'a long sentence': (SENTENCES, name, f'{texts[name]}\nOne {many}.\n'),
        'a long sentence that colons and semicolons part': (SENTENCES, name, f'{texts[name]}\nOne: {many}; two.\n'),
        'a long sentence of code spans': (SENTENCES, name, texts[name] + '\n' + '`a` ' * (MOST_WORDS + 1) + '\n'),
        'a long sentence in a list, over two lines': (SENTENCES, name, f'{texts[name]}\n- one\n  - two {many[:60]}\n    {many[60:]}\n'),
        'a long sentence in a cell': (SENTENCES, name, f'{texts[name]}\n| one | two |\n|---|---|\n| one | One {many}. |\n'),
        'a wide cell': (CELLS, name, f'{texts[name]}\n| one | two |\n|---|---|\n| {"wide. " * (WIDEST_CELL // 5)} | two |\n'),
        'a wide line': (LINES, name, texts[name] + '\n' + 'wide. ' * (WIDEST_LINE // 5) + '\n'),
        'an abbreviation without an entry': (UNKNOWN, name, f'{texts[name]}\nThe XQZV.\n'),
        'a word of the papers without an entry': (UNKNOWN, GLOSSARY, glossary),
        'an entry that nothing uses': (UNUSED, GLOSSARY, texts[GLOSSARY] + '\n- **quidnunc**: no document has it.\n'),
        'a document without its minutes': (MINUTES, 'docs/NEW.md', '# New\n'),
    }
    before, missed = faults(texts), []
    for what, (kind, path, text) in plants.items():
        after = faults({**texts, path: text})
        more = [other for other in after if len(after[other]) > len(before[other])]
        if more not in ([kind], [kind, MINUTES]) or len(refused(after)) <= len(refused(before)):
            missed.append(what)
    one = {**EXCEPTIONS, (name, SENTENCES): 1}
    two = faults({**texts, name: f'{texts[name]}\nOne {many}. Two {many}.\n'})
    allowed = {'an exception that is not used up': refused(before, one),
               'more faults than an exception allows': [text for text in refused(two, one) if text.endswith('1 are allowed')]}
    missed += [what for what, seen in allowed.items() if not seen]
    for what in missed:
        print(f'prose: not seen alone: {what}')
    print(f'prose: {len(plants) + len(allowed) - len(missed)} of {len(plants) + len(allowed)} planted faults seen')
    return 1 if missed else 0


def write(texts):
    """Puts the minutes into docs/README.md."""
    def told(match):
        return f'{match.group(1)}{minutes(texts[match.group(2)])} |' if match.group(2) in texts else match.group(0)

    (ROOT / OVERVIEW).write_text(re.sub(r'^(\| `([^`]+\.md)` \|.*\| )\d+ \|$', told, texts[OVERVIEW], flags=re.M))
    return 0


def main():
    texts = documents()
    if sys.argv[1:] == ['planted']:
        sys.exit(planted(texts))
    if sys.argv[1:] == ['write']:
        sys.exit(write(texts))
    if sys.argv[1:]:
        sys.exit(__doc__)
    found = faults(texts)
    wrong = refused(found)
    print('\n'.join([*wrong, *counts(texts), f'prose: {len(texts)} documents, {len(wrong)} faults, {sum(EXCEPTIONS.values())} allowed']))
    sys.exit(1 if wrong or not texts else 0)


if __name__ == '__main__':
    main()
