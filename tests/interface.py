#!/usr/bin/env python3
"""Compares the C interface where it is written down:
- the functions of crates/oatcastle/src, include/oatcastle.h and bindings/rust/src/raw.rs by name, parameters' names and kinds;
- the answers, by how many numbers the crates write and by the fields of header and wrapper; the records that they take, by their fields;
- every #define of the header, and the wrapper's numbers, with the crates; the texts of refusals in header and wrapper;
- the version in VERSION, header, wrapper and CHANGELOG.md.
Every constant of the crates behind them must be named in the code of a function, or in another constant that is. A number that no function
names is held by no contract.
Assumes the layouts of these files as `rt fmt` and their own style have them.

usage: tests/interface.py [planted]

planted: changes one thing after the other, in memory alone, and asks that every change be seen. These are each #define, parameter, field of
an answer or a record, text of a refusal, number of the wrapper and place of the version. Takes each constant of the crates out of the
functions too"""
import functools
import pathlib
import re
import sys

from common import ROOT, comments

HEADER = 'include/oatcastle.h'
RAW = 'bindings/rust/src/raw.rs'
# The wrapper's files that have numbers: lengths, limits, offsets and kinds; then the enums of numbers.
LIMITS = 'bindings/rust/src/limits.rs'
ENUMS = {'bindings/rust/src/numbers.rs': ('Refusal', 'Reason', 'NotFound', 'Fault'), 'bindings/rust/src/rot.rs': ('Type',),
         'bindings/rust/src/wire.rs': ('Command', 'ReplyCommand', 'Key', 'NotSet', 'OptionBit', 'StatusBit'), 'bindings/rust/src/start.rs': ('Bsu', 'ItemResult')}
WRAPPER = (LIMITS, *ENUMS)
# The enums' prefixes in the header's names, and the wrapper's other names for a refusal of the root-of-trust link and for a result.
PREFIXES = {'Refusal': '', 'Reason': 'REASON_', 'NotFound': 'NOT_FOUND_', 'Fault': 'RESTORE_', 'Type': 'ROT_', 'Command': 'COMMAND_', 'ReplyCommand': 'REPLY_',
            'Key': 'KEY_', 'NotSet': 'SET_', 'OptionBit': 'OPTION_', 'StatusBit': 'STATUS_', 'Bsu': 'BSU_', 'ItemResult': 'INVENTORY_'}
OTHER_NAMES = {'PAYLOAD_TOO_LONG': 'ROT_TOO_LONG', 'INVENTORY_FOUND': 'INVENTORY_ITEM'}
# The prefixes of which the wrapper has every number, but for the results that it has no name for.
WHOLE = ('NOT_FOUND_', 'LONGEST_SETTINGS[', 'REASON_', 'RESTORE_', 'COMMAND_', 'REPLY_', 'KEY_', 'SET_', 'OPTION_', 'STATUS_', 'BSU_', 'INVENTORY_', 'PASSPHRASE_')
NAMELESS = ('SET_STORED', 'INVENTORY_BAD_INDEX')
LIMIT = r'const (\w+): (?:usize|u64) = (\d+);'
VARIANT = r'^    (\w+) = (0x[0-9a-f]+|\d+), "([^"]*)"'
LONGEST_SETTINGS = r'const LONGEST_SETTINGS: \[usize; \d+\] = \[([\d, ]+)\];'
# Where the version stands, and how; the header has it as three numbers.
VERSION = 'VERSION'
VERSIONS = {VERSION: r'\A(\d+\.\d+\.\d+)\n\Z', 'bindings/rust/src/lib.rs': r'^pub const VERSION: &str = "([^"]*)";$',
            'bindings/rust/Cargo.toml': r'^version = "([^"]*)"$', 'CHANGELOG.md': r'\A[^#]*# [^#]*\n## (\S+)\n'}
VERSION_PARTS = ('VERSION_MAJOR', 'VERSION_MINOR', 'VERSION_PATCH')
NUMBERS = {'u8': 'u8', 'u16': 'u16', 'u32': 'u32', 'u64': 'u64', 'usize': 'u64',
           'uint8_t': 'u8', 'uint16_t': 'u16', 'uint32_t': 'u32', 'uint64_t': 'u64'}
# The header's type of a length, which has 64 bits on every processor, as Rattle's usize has; in Rust usize on x86-64, or u64.
LENGTH = 'oatcastle_length'
# The records that functions take: the crates' name, its file, and the header's name.
RECORDS = {'Probe': ('crates/probes/src/lib.rt', 'oatcastle_probe'), 'Counters': ('crates/counters/src/lib.rt', 'oatcastle_counters')}
# The functions that answer in the struct of another, or share one.
ANSWER_OF = {'step_counted': 'step', 'boot_failure_record': 'record', 'panic_record': 'record'}
# The numbers of messages, and the limits that others are made of.
MESSAGES = 'crates/line/src/numbers.rt'
LINE_LIMITS = 'crates/line/src/limits.rt'
# What a pointer leads to.
ELEMENTS = {**NUMBERS, 'usize': 'size', LENGTH: 'size', **{name: name for name in RECORDS}, **{c: name for name, (_, c) in RECORDS.items()}}


@functools.cache
def read(path):
    """A file's text, or that of every file of a folder."""
    found = ROOT / path
    return ''.join(f.read_text() for f in (sorted(found.iterdir()) if found.is_dir() else [found]))


@functools.cache
def library(link):
    """The code of crates/oatcastle: the root-of-trust link's file, or all others."""
    return ''.join(f.read_text() for f in sorted((ROOT / 'crates/oatcastle/src').iterdir()) if (f.name == 'rot_link.rt') == link)


# ---- Functions: of each the list of (name, kind) that C passes

def rattle_parameters(parameter):
    """A parameter of an exported function, as what C passes for it: a slice is a pointer and behind it its length, of numbers and records their count."""
    name, kind = (part.strip() for part in parameter.split(':', 1))
    kind = re.sub(r"'\w+ ", '', kind)
    change = 'mut ' if kind.startswith('&mut ') else 'const '
    if kind == '&mut Counters':
        return [(name, 'mut Counters')]
    answer = re.fullmatch(r'&mut \[u64; (\d+)\]', kind)
    if answer:
        return [(name, f'mut {answer.group(1)} numbers')]
    element = re.fullmatch(r'&(?:mut )?\[(\w+)(; [\w:]+)?\]', kind)
    if not element:
        return [(name, NUMBERS[kind])]
    pointer = (name, change + ELEMENTS[element.group(1)])
    return [pointer] if element.group(2) else [pointer, (name + ('_length' if element.group(1) == 'u8' else '_count'), 'length')]


def led_to(kind, fields):
    """What a pointer leads to: a number, a record, or a struct of so many 64-bit numbers."""
    if kind in ELEMENTS:
        return ELEMENTS[kind]
    if fields and all(width == 'u64' for _, width in fields):
        return f'{len(fields)} numbers'
    return f'{kind}, which is no type of these'


def c_parameters(parameter, text):
    kind, name = re.fullmatch(r'(.*?[\s*])(\w+)(?:\[\w+\])?', parameter, re.S).groups()
    words = kind.replace('*', ' ').split()
    if '*' in kind or '[' in parameter:
        return [(name, ('const ' if words[0] == 'const' else 'mut ') + led_to(words[-1], c_structs(text).get(words[-1])))]
    return [(name, 'length' if words == [LENGTH] else NUMBERS.get(words[-1], f'{words[-1]}, which is no type of the header'))]


def raw_parameters(parameter, text):
    name, kind = (part.strip() for part in parameter.split(':'))
    pointer = re.fullmatch(r'\*(mut|const) (\w+)', kind)
    if pointer:
        return [(name, f'{pointer.group(1)} ' + ('size' if pointer.group(2) == 'Length' else led_to(pointer.group(2), rust_structs(text).get(pointer.group(2)))))]
    return [(name, 'length' if kind == 'Length' else NUMBERS[kind])]


def functions(text, form, parameters):
    return {name: [pair for part in inside.split(',') if part.strip() for pair in parameters(part.strip())]
            for name, inside in re.findall(form, text, re.S)}


@functools.cache
def exported():
    return functions(read('crates/oatcastle/src'), r'pub extern "C" fn (\w+)(?:<[^>]*>)?\((.*?)\) -> u32', rattle_parameters)


@functools.cache
def declared(header):
    return functions(header, r'\nuint32_t (\w+)\((.*?)\);', lambda parameter: c_parameters(parameter, header))


@functools.cache
def bound(raw):
    return functions(raw, r'fn (\w+)\((.*?)\) -> u32;', lambda parameter: raw_parameters(parameter, raw))


def function_faults(texts):
    wanted = exported()
    for where, found in (('the header', declared(texts[HEADER])), (RAW, bound(texts[RAW]))):
        for name in sorted(wanted.keys() | found.keys()):
            if wanted.get(name) != found.get(name):
                yield f'{name}: {where} has {found.get(name)}, the crate {wanted.get(name)}'
    wide = re.findall(r'#\[cfg\((.*)\)\]\npub\(crate\) type Length = (\w+);', texts[RAW])
    if wide != [('target_pointer_width = "64"', 'usize'), ('not(target_pointer_width = "64")', 'u64')]:
        yield f'{RAW}: a length has 64 bits on every target, and the types are {wide}'


# ---- Records: of each the list of (name, kind) of its fields, in order

@functools.cache
def rust_structs(text):
    """The fields of each struct with C's layout in Rattle or Rust."""
    found = re.findall(r'#\[repr\(C\)\]\n(?:#\[[^\n]*\]\n)*pub struct (\w+) \{\n(.*?)\n\}', text, re.S)
    return {name: [(field, NUMBERS[kind]) for field, kind in re.findall(r'pub (?:r#)?(\w+): (\w+),', inside)] for name, inside in found}


@functools.cache
def c_structs(text):
    found = re.findall(r'\n(?:typedef )?struct (\w+) \{\n(.*?)\n\}', text, re.S)
    return {name: [(field, NUMBERS[kind]) for kind, field in re.findall(r'(\w+) (\w+);', re.sub(r'/\*.*?\*/', '', inside, flags=re.S))] for name, inside in found}


def record_faults(texts):
    for name, (path, c_name) in RECORDS.items():
        wanted = rust_structs(read(path)).get(name)
        for where, found in ((HEADER, c_structs(texts[HEADER]).get(c_name)), (RAW, rust_structs(texts[RAW]).get(name))):
            if not wanted or found != wanted:
                yield f'{name}: {where} has {found}, the crate {wanted}'


# ---- Answers: a struct for each function, by the function's name, with the same fields in header and wrapper

def answer_names(function):
    """The header's and the wrapper's name of a function's answer."""
    name = function.removeprefix('oatcastle_')
    name = ANSWER_OF.get(name, name)
    return f'oatcastle_{name}_answer', ''.join(word.title() for word in name.split('_')) + 'Answer'


@functools.cache
def sizes_asserted(text):
    """The size of each struct whose size is asserted."""
    said = re.findall(r'sizeof\((\w+)\) == (\d+) \?', text) + re.findall(r'size_of::<(\w+)>\(\) == ([\d *]+)\)', text)
    return {name: eval(size) for name, size in said}


@functools.cache
def answered_in(text):
    """The struct that each function answers in."""
    return dict(re.findall(r'\b(oatcastle_\w+)\([^)]*?\b(\w+) \*answer\)', text) + re.findall(r'\bfn (\w+)\([^)]*?\banswer: \*mut (\w+),?\s*\)', text))


def answer_faults(texts):
    for function in (name for name, parameters in exported().items() if 'answer' in dict(parameters)):
        in_c, in_rust = answer_names(function)
        fields, others = c_structs(texts[HEADER]).get(in_c), rust_structs(texts[RAW]).get(in_rust)
        if not fields or fields != others:
            yield f'{function}: the header has {fields} in {in_c}, the wrapper {others} in {in_rust}'
            continue
        for where, name in ((HEADER, in_c), (RAW, in_rust)):
            if sizes_asserted(texts[where]).get(name) != 8 * len(fields):
                yield f'{where}: the size of {name} is not asserted'
            if answered_in(texts[where]).get(function) != name:
                yield f'{where}: {function} answers in {answered_in(texts[where]).get(function)}, not in {name}'


# ---- Numbers

def constants(*paths):
    """The `const` numbers of some files, worked out in their order; a path of another module is cut to its last word, and a cast is left out."""
    known = {}
    for path in paths:
        for name, value in re.findall(r'const (\w+): \w+ =\s+([^;]+);', read(path)):
            value = re.sub(r'\bu(\d+)::MAX\b', r'2 ** \1 - 1', value)
            known[name] = eval('(' + re.sub(r'\b\w+::| as \w+', '', value).replace('/', '//') + ')', {}, known)
    return known


def definitions(path):
    """The numbers that a file of definitions names, by the code's spelling of their names; one that is made of others is left out."""
    return {name.upper().replace('-', '_'): eval(value.replace('^', '**')) for name, value in re.findall(r'^([\w-]+) = (\w+(?: \^ \d+)?)$', read(path), re.M) if value[0].isdigit()}


def worth(word, known):
    """A number, or a constant by its name behind any path; None for a variable."""
    return int(word) if word.isdigit() else known.get(word.split('::')[-1])


def the_one(what, values):
    found = set(values)
    if len(found) != 1:
        sys.exit(f'interface.py: {what} has {sorted(found)} in the crates, where one number was looked for')
    return found.pop()


def arms(text):
    """For each variant of an enum (the inner one, or None) that a `match` of the text answers with numbers: the number, or kind and reason of an answer."""
    found, known = {}, constants(MESSAGES, 'crates/oatcastle/src/kinds.rt')
    for variant, number in re.findall(r'\b(\w+::\w+)(?:\(\w+\))? => (\d+),', text):
        found.setdefault(variant, []).append(int(number))
    for pattern, kind, reason in re.findall(r'^\s*(\S+) => (?:\{\s*(?:let \w+ = [^;]*;\s*)*)?\[\s*used,\s*([A-Z]\w+),\s*(\w+)', text, re.M):
        found.setdefault(re.findall(r'\w+::\w+|None', pattern)[-1], []).append((worth(kind, known), worth(reason, known)))
    return found


def places(text, known):
    """The place of each field that the view reads: those of the factory store, and those of an item from its start on."""
    found = {}
    for name, place in re.findall(r'^  ([\w-]+) = (?:number_at \d+ f|run) (Layout\.[\w-]+|\(Layout\.[^)]*\))[^\n]*;$', text, re.M):
        words = re.sub(r'Layout\.item_offset i', '0', place.strip('()'))
        found[name] = eval(re.sub(r'Layout\.([\w-]+)', lambda m: m.group(1).upper().replace('-', '_'), words), {}, known)
    return found


@functools.cache
def refusals():
    numbers = arms(read('crates/refusals/src/lib.rt'))
    return {**constants('crates/oatcastle/src/answer_writing.rt'), **{snake(variant.removeprefix('Refusal::')): the_one(variant, found) for variant, found in numbers.items()}}


def kinds():
    answered = arms(library(link=False))
    named = {'MORE': ('Answer::More', 'Outcome::More'), 'EMPTY': ('Answer::Empty', 'Outcome::Empty'), 'MESSAGE': ('Answer::Message', 'Outcome::Request'),
             'FAILURE': ('Failure::Form', 'Failure::Length', 'Failure::Checksum', 'Failure::Magic', 'Outcome::Failure'),
             'NOTHING': ('None',), 'ANSWER': ('Handed::Answer',), 'STATUS': ('Handed::Status',), 'ALERT': ('Handed::Alert',)}
    return {name: the_one(name, (said[0] for variant in variants for said in answered[variant] if isinstance(said, tuple))) for name, variants in named.items()}


def states():
    """What is outstanding at the main processor's end."""
    known = constants(MESSAGES, 'crates/oatcastle/src/kinds.rt')
    named = dict(re.findall(r'\bStage::(\w+) => (\w+),', library(link=False)))
    stages = {'IDLE': 'Idle', 'WAITING': 'Waiting', 'RECOVERY_STATUS': 'Fetch', 'RECOVERY_ACKNOWLEDGE': 'Acknowledge', 'RECOVERY_ALERT': 'Alert'}
    return {name: worth(named[stage], known) for name, stage in stages.items()}


def reasons():
    """The reasons that the line layer's answers and the supervisor's tests have, each under the name that the numbers of messages give it."""
    answered, known = arms(library(link=False)), constants(MESSAGES)
    tested = read('crates/responder/specs/Requests.antt')
    found = {name: the_one(name, (reason for _, reason in answered[f'Failure::{name.title()}'])) for name in ('FORM', 'CHECKSUM', 'LENGTH', 'MAGIC')}
    for name, test in (('VERSION', r'not \(version_served m\.version\)\)'), ('SEQUENCE', r'leb top_bit m\.sequence\)'), ('DATA', r'length_allowed [^\n]*\)\)')):
        found[name] = known[the_one(name, re.findall(test + r' \(failure ([\w-]+) ', tested)).upper().replace('-', '_')]
    return {f'REASON_{name}': number for name, number in found.items()}


# What is wrong with an image, by the test ahead of the fault.
FAULTS = {'left < image::MARK_LENGTH': 'CUT_SHORT', 'image::MARK_LENGTH < left': 'BYTES_AFTER', 'left < image::EDITION_OFFSET': 'CUT_SHORT',
          '!octets::same(image, at, b"KV", 0, image::MARK_LENGTH)': 'BAD_MARK', 'left < image::VALUE_OFFSET': 'CUT_SHORT',
          '!key_follows(before, octets::read_u8(image, at + image::KEY_OFFSET))': 'BAD_KEY', 'layout::longest_setting(key) < n': 'TOO_LONG',
          'left < image::RECORD_LENGTH + n': 'CUT_SHORT', 'octets::read_u16(image, at + body) != sum': 'BAD_CHECKSUM'}


@functools.cache
def image_faults():
    """The faults of an image of the settings."""
    text = read('crates/saving/src/restore.rt')
    found = {}
    numbers = arms(body(text, 'number'))
    for test, fault in re.findall(r'if ([^{]*?) \{\s*return Err\(\((Fault::\w+),', body(text, 'pass') + '\n' + body(text, 'pass_record')):
        if test not in FAULTS:
            sys.exit(f'interface.py: restoring finds {fault} where {test}; FAULTS has no name for it')
        found.setdefault(FAULTS[test], []).append(the_one(fault, numbers[fault]))
    return {f'RESTORE_{name}': the_one(name, numbers) for name, numbers in found.items()}


@functools.cache
def root_of_trust():
    """The link's refusals, kinds of answer, message types and lengths."""
    text = library(link=True) + read('crates/rot/src/refusals.rt')
    named = {'NO_INPUT': 'NoInput', 'BAD_PROTOCOL': 'BadProtocol', 'SHORT_HEADER': 'ShortHeader', 'TOO_LONG': 'TooLong', 'CUT_SHORT': 'CutShort',
             'BAD_CRC': 'BadCrc', 'BAD_TYPE': 'BadType'}
    found = {name: the_one(name, arms(text)[f'Refusal::{variant}']) for name, variant in named.items()}
    named_kinds = constants(MESSAGES, 'crates/oatcastle/src/kinds.rt')
    kinds = {variant: named_kinds[kind] for variant, kind in re.findall(r'Answer::(\w+)(?:\(\w+\))? => \[\s*([A-Z]\w+),', text)}
    found.update({name: kinds[name.title()] for name in ('NOTHING', 'MESSAGE', 'ECHOED')})
    known = constants('crates/rot/src/limits.rt')
    found.update({'HEADER_LENGTH': known['HEADER_LENGTH'], 'LONGEST_PAYLOAD': known['LONGEST_PAYLOAD'],
                  'LONGEST_MESSAGE': known['HEADER_LENGTH'] + known['LONGEST_PAYLOAD']})
    # source document 003's types in its order, of which the crate names those that its code goes by
    types = ('ERROR_RESPONSE', 'ECHO_REQUEST', 'ECHO_RESPONSE', 'STATUS_REQUEST', 'STATUS_RESPONSE', 'SPROCKETS_REQUEST', 'SPROCKETS_RESPONSE', 'SINK_REQUEST',
             'SINK_RESPONSE')
    found.update({name: known.get(name, known['ERROR_RESPONSE'] + i) for i, name in enumerate(types)})
    return {f'ROT_{name}': number for name, number in found.items()}


def settings(known, most='longest'):
    """The longest (or shortest) value of each settings key: the table of the definitions, which the code's constants must be too, one for each key
    (of the shortest those that are not 0)."""
    table = re.search(rf'^{most}_settings = (.*)∷ \[\]$', read('crates/supervisor/specs/Limits.antt'), re.M).group(1)
    keys = range(known['FIRST_SETTING'], known['HIGHEST_KEY'] + 1)
    listed = [int(n) for n in table.split('∷') if n.strip()]
    if listed != [known.get(f'{most.upper()}_KEY_{key}', None if most == 'longest' else 0) for key in keys]:
        sys.exit(f'interface.py: the {most} settings are {listed} in the definitions, and the code has others for keys {list(keys)}')
    return listed


def limits():
    known = constants(LINE_LIMITS, 'crates/line/src/reader.rt', 'crates/supervisor/src/layout.rt', 'crates/addresses/src/lib.rt')
    found = {name: known[name] for name in ('OUTBOX_LENGTH', 'FACTORY_LENGTH', 'SETTINGS_LENGTH', 'REGISTERS_LENGTH', 'LONGEST_DATA', 'LONGEST_ALERT',
                                            'MOST_KEPT', 'MOST_PENDING', 'MOST_ALERTS', 'MOST_ITEMS', 'START_LENGTH', 'ITEM_LENGTH')}
    at = places(read('crates/supervisor_claims/specs/View.antt'), known)
    start = {'MODEL': at['model'], 'REVISION': at['revision'], 'SERIAL': at['serial'], 'MAC_BASE': at['base'], 'MAC_COUNT': at['count'],
             'MAC_STRIDE': at['stride'], 'IMAGE_HASH': at['hash'], 'IMAGE_ID': at['image_id'], 'BSU': known['BSU_OFFSET'],
             'IMAGE_ID_LENGTH': known['IMAGE_ID_LENGTH_OFFSET'], 'ITEMS': known['ITEMS_OFFSET'], 'ITEM_COUNT': known['ITEM_COUNT_OFFSET']}
    item = {'RESULT': at['result'], 'NAME': at['name'], 'TYPE': at['type'], 'DATA': at['payload'], 'DATA_LENGTH': known['ITEM_DATA_LENGTH_OFFSET']}
    passphrase = {'RECORD': 0, 'EDITION': known['SETTING_EDITION_OFFSET'], 'LENGTH': known['SETTING_LENGTH_OFFSET'], 'VALUE': known['SETTING_VALUE_OFFSET']}
    found.update({f'PASSPHRASE_{name}': known[f'KEY_{known["PASSPHRASE_KEY"]}_OFFSET'] + place for name, place in passphrase.items()})
    found.update({f'START_{name}': place for name, place in start.items()})
    found.update({f'ITEM_{name}': place for name, place in item.items()})
    found.update({'READER_LENGTH': known['STATE_LENGTH'], 'REQUESTER_LENGTH': constants(LINE_LIMITS, 'crates/requester/src/layout.rt')['REQUESTER_LENGTH'], 'LONGEST_FRAME': known['LONGEST_FORM'] + 1,
                  'ADDRESS_LENGTH': known['ADDRESS_LENGTH'], 'ADDRESS_ROWS': known['ROWS'], 'ADDRESSES_LENGTH': known['ADDRESS_LENGTH'] * known['ROWS'],
                  'LONGEST_VALUE': max(settings(known)),
                  'LONGEST_IMAGE': constants(LINE_LIMITS, 'crates/supervisor/src/layout.rt', 'crates/saving/src/image.rt')['LONGEST_IMAGE']})
    return found


# The papers' names in their order: the settings keys, and the startup options.
SETTINGS = ('ETC_SYSTEM', 'DTRACE_CONF', 'WITHDRAWN_KEYS', 'PASSPHRASE')
OPTIONS = ('RECOVERY', 'KBM', 'BOOT_RD', 'PROM', 'KMDB', 'KMDB_BOOT', 'RAMDISK', 'NET_BOOT', 'VERBOSE')
# What a key set's answer other than 0 is for, by the test ahead of it.
SET_RESULTS = {'layout::HIGHEST_KEY < key': 'BAD_KEY', 'key < layout::FIRST_SETTING': 'READ_ONLY', 'longest < n': 'TOO_LONG', 'n < shortest': 'TOO_LONG',
               'edition == layout::LAST_EDITION': 'LAST_EDITION'}


def body(text, name):
    """The code of a function."""
    return re.search(rf'\bfn {name}\b.*?\n( *){{\n(.*?)\n\1}}', text, re.S).group(2)


def snake(name):
    return re.sub(r'(?<!^)(?=[A-Z])', '_', name).upper()


def commands():
    """Commands of requests and of replies: the code's, which the definitions must have too, and a command for each of document 01's."""
    known, defined = constants(MESSAGES), definitions('crates/line/specs/Numbers.antt')
    if known != defined:
        sys.exit(f'interface.py: the numbers of messages differ between code and definitions: {sorted(known.items() ^ defined.items())}')
    named = re.findall(r'^command_number ([\w-]+) = command_(\w+)$', read('crates/responder/specs/Commands.antt'), re.M)
    found = {name: number for name, number in known.items() if name.startswith(('COMMAND_', 'REPLY_'))}
    if {f'COMMAND_{same.upper()}' for name, same in named if name.replace('-', '_') == same} != {name for name in found if name.startswith('COMMAND_')}:
        sys.exit('interface.py: command_number does not give each command the number of its name')
    return found


def unfound():
    """The results of a lookup that finds no value."""
    numbers = arms(body(read('crates/supervisor/src/keys.rt'), 'number'))
    return {snake(error.removeprefix('LookupError::')): the_one(error, found) for error, found in numbers.items() if error != 'LookupError::Refused'}


def keys(known):
    """Keys, the longest value of each setting, and the results of a lookup and of a key set."""
    text = read('crates/supervisor/src/keys.rt')
    places = {place: int(key) for key, place in re.findall(r'(\d+) => (?:\{[^}]*?)?Location::Factory\(\s*layout::(\w+),', body(text, 'find'))}
    found = {f'KEY_{name}': places[f'{place}_OFFSET'] for name, place in (('PING', 'PONG'), ('IMAGE_ID', 'IMAGE_ID'), ('INVENTORY', 'ITEM_COUNT'))}
    for i, longest in enumerate(settings(known)):
        found[f'KEY_{SETTINGS[i]}'] = known['FIRST_SETTING'] + i
        found[f'LONGEST_{SETTINGS[i]}'] = longest
    found.update({f'SHORTEST_{SETTINGS[i]}': shortest for i, shortest in enumerate(settings(known, 'shortest')) if shortest})
    found['LOOKUP_VALUE'] = the_one('a lookup that finds', map(int, re.findall(r'Ok\(_\) => (\d+),', body(text, 'result_number'))))
    found.update({f'LOOKUP_{name}': number for name, number in unfound().items()})
    text = read('crates/responder/src/settings.rt')
    store, numbers = body(text, 'store') + '\n' + body(text, 'store_at'), arms(body(text, 'number'))
    for test, error in re.findall(r'if ([^{]*?) \{\s*return Err\((SetError::\w+)\);', store):
        if test not in SET_RESULTS:
            sys.exit(f'interface.py: a key set answers {error} where {test}; SET_RESULTS has no name for it')
        number = the_one(error, numbers[error])
        if found.setdefault(f'SET_{SET_RESULTS[test]}', number) != number:
            sys.exit(f'interface.py: a key set answers {number} where {test}, and another number for {SET_RESULTS[test]} elsewhere')
    found['SET_STORED'] = the_one('a key set that stores', map(int, re.findall(r'Ok\(\(\)\) => (\d+),', body(text, 'result_byte'))))
    return found


def bits_and_codes(known):
    """Inventory results, status bits, startup options and the BSU."""
    meant, defined = read('crates/responder/specs/Requests.antt'), definitions('crates/supervisor/specs/Limits.antt')
    named = {**known, 'INVENTORY_BAD_INDEX': constants('crates/responder/src/answers.rt')['BAD_INDEX']}
    found = {name: the_one(name, (named[name], defined[name])) for name in ('INVENTORY_ITEM', 'INVENTORY_BAD_INDEX', 'INVENTORY_ABSENT', 'INVENTORY_FAILED', 'BSU_A', 'BSU_B')}
    for name, place in (('RESTARTED', r'^start_acknowledged .*clear_bit s\.status (\d)'), ('ALERTS', r'^status_after .*clear_bit status (\d)')):
        found[f'STATUS_{name}'] = 1 << the_one(name, map(int, re.findall(place, meant, re.M)))
    if known['HIGHEST_OPTION'] + 1 != len(OPTIONS):
        sys.exit('interface.py: OPTIONS does not name every option bit')
    found.update({f'OPTION_{name}': 1 << i for i, name in enumerate(OPTIONS)})
    return found


def wire():
    known = constants(LINE_LIMITS, 'crates/supervisor/src/layout.rt')
    limits = {name: known[name] for name in ('LONGEST_IMAGE_ID', 'LONGEST_ITEM_DATA', 'LONGEST_BLOCK')}
    return {**commands(), **keys(known), **bits_and_codes(known), **limits}


@functools.cache
def wanted_numbers():
    """The header's constants by what the crates have: one entry for each #define."""
    return {**refusals(), **kinds(), **states(), **reasons(), **image_faults(), **root_of_trust(), **limits(), **wire()}


def defined(texts):
    """Every #define of the header but its guard, as its text."""
    lines = re.findall(r'^[ \t]*#[ \t]*define[ \t]+(\w+)(?:\(.*?\))?[ \t]*(.*?)[ \t]*(?:/\*.*)?$', texts[HEADER], re.M)
    return {name.removeprefix('OATCASTLE_'): value for name, value in lines if name != 'OATCASTLE_H'}


def number_faults(texts):
    wanted = {**wanted_numbers(), **version_numbers(texts)}
    found = defined(texts)
    for name in sorted(wanted.keys() | found.keys()):
        value = re.fullmatch(r'(\d+|0x[0-9a-f]+)u?', found.get(name, ''))
        if name not in wanted:
            yield f'OATCASTLE_{name}: the header has it, and nothing here says what the crates have'
        elif not value or int(value.group(1), 0) != wanted[name]:
            yield f'OATCASTLE_{name}: the header has {found.get(name)}, the crates {wanted[name]}'


@functools.cache
def wrapper_wanted():
    """The wrapper's numbers by what the crates have: those of the header, and those that the header has no name for."""
    known = constants(LINE_LIMITS, 'crates/supervisor/src/layout.rt')
    names = ('FIRST_SETTING', 'LONGEST_ITEM_DATA', 'LONGEST_IMAGE_ID', 'PONG_OFFSET', 'SETTING_EDITION_OFFSET', 'SETTING_LENGTH_OFFSET', 'SETTING_VALUE_OFFSET',
             'BOOT_FAILURE_OFFSET', 'PANIC_OFFSET', 'RECORD_CODE_OFFSET', 'RECORD_WHOLE_OFFSET', 'RECORD_KEPT_OFFSET')
    return {**wanted_numbers(), **{name: known[name] for name in names}, 'ALL_OPTIONS': (1 << known['HIGHEST_OPTION'] + 1) - 1,
            'MESSAGE_DATA_OFFSET': constants(LINE_LIMITS, 'crates/line/src/reader.rt')['DATA_OFFSET'],
            **{f'NOT_FOUND_{name}': number for name, number in unfound().items()},
            **{f'LONGEST_SETTINGS[{i}]': longest for i, longest in enumerate(settings(known))}}


def upper(variant):
    return re.sub(r'(?<!^)(?=[A-Z])', '_', variant).upper()


def wrapper_variants(texts):
    """The wrapper's enums of numbers: of each variant its enum, name, number and text."""
    for path, kinds_of in ENUMS.items():
        tables = dict(re.findall(r'^    (\w+) as \w+, "[^"]*":\n(.*?)^\}', texts[path], re.M | re.S))
        for kind in kinds_of:
            for variant, value, words in re.findall(VARIANT, tables[kind], re.M):
                yield kind, variant, int(value, 0), words


def wrapper_numbers(texts):
    """The wrapper's lengths, limits, offsets and kinds, and the numbers of its enums, by the crates' names."""
    for name, value in re.findall(LIMIT, texts[LIMITS]):
        yield name, int(value)
    longest = re.search(LONGEST_SETTINGS, texts[LIMITS]).group(1)
    for i, value in enumerate(longest.split(',')):
        yield f'LONGEST_SETTINGS[{i}]', int(value)
    for kind, variant, value, _ in wrapper_variants(texts):
        name = PREFIXES[kind] + upper(variant)
        yield OTHER_NAMES.get(name, name if name in wrapper_wanted() else f'ROT_{name}'), value


def wrapper_faults(texts):
    wanted = wrapper_wanted()
    found = list(wrapper_numbers(texts))
    for name, value in found:
        if wanted.get(name) != value:
            yield f'{name}: bindings/rust/src has {value}, the crates {wanted.get(name)}'
    for name in wanted:
        if name.startswith(WHOLE) and name not in NAMELESS and name not in dict(found):
            yield f'{name}: bindings/rust/src has none, the crates {wanted[name]}'


# ---- The version

def version_numbers(texts):
    """The three numbers of the file VERSION, by the header's names."""
    found = re.search(VERSIONS[VERSION], texts[VERSION])
    return dict(zip(VERSION_PARTS, map(int, found.group(1).split('.')))) if found else {}


def version_faults(texts):
    """The header's three numbers are among its constants; each other place has the version of the file VERSION, first of several."""
    found = {path: re.findall(form, texts[path], re.M)[:1] for path, form in VERSIONS.items()}
    for path, version in found.items():
        if not version or version != found[VERSION]:
            yield f'{path}: the version is {version}, in the file {VERSION} it is {found[VERSION]}'


# ---- Texts of refusals

def refusal_texts(texts):
    """The header's texts by the names of refusals, and its text for any other number."""
    inside = re.search(r'oatcastle_refusal_text\(uint32_t number\)\n\{(.*?)\n\}', texts[HEADER], re.S).group(1)
    said = re.findall(r'(?:case OATCASTLE_(\w+)|default):\s*return ((?:"[^"]*"\s*)+);', inside)
    return {name or None: ''.join(re.findall(r'"([^"]*)"', words)) for name, words in said}


def text_faults(texts):
    """Each refusal has a text: the wrapper's, which may go on where the wrapper's types rule a case out; those of the first table are the comments too."""
    said, behind = refusal_texts(texts), comments(texts[HEADER])
    numbers = {**refusals(), **image_faults(), **{name: number for name, number in root_of_trust().items() if number in range(20, 27)}}
    if sorted(filter(None, said)) != sorted(numbers) or said.get(None) != 'unknown':
        yield f'oatcastle_refusal_text has texts for {sorted(filter(None, said))}, the crates the refusals {sorted(numbers)}'
    wrapped = {number: words for kind, _, number, words in wrapper_variants(texts) if kind in ('Refusal', 'Fault')}
    for name, words in said.items():
        number = numbers.get(name)
        if number in wrapped and not (words + ',').startswith(wrapped[number] + ','):
            yield f'OATCASTLE_{name}: the header has the text "{words}", the wrapper "{wrapped[number]}"'
        if name in refusals() and words != behind[name]:
            yield f'OATCASTLE_{name}: the comment is "{behind[name]}", the text "{words}"'


# ---- Ties: constants of the crates that a function names

CONSTANT = r'^(?:pub(?:\(crate\))? )?const (\w+): [^=]+=\s*([^;]+);'


USED = r'^(?:pub )?use ([\w:]+)::(?:(\w+)|\{([^{}]*)\});$'


def spelled_out(crate, text):
    """A file's code without its imports, and each constant that it imports behind its module's name."""
    for path, one, several in re.findall(USED, text, re.M):
        module = crate if path == 'crate' else path.split('::')[-1]
        for name in re.findall(r'\b[A-Z][A-Z0-9_]*\b', one + several):
            text = re.sub(rf'(?<![\w:]){name}\b', f'{module}::{name}', text)
    return re.sub(USED, '', text, flags=re.M)


def sources():
    """The code of the crates that the library is made of, by file."""
    crates = re.search(r'^oatcastle(?: staticlib)?: (.*)$', read('crates.txt'), re.M).group(1).split()
    return {path.relative_to(ROOT).as_posix(): spelled_out(crate, path.read_text()) for crate in ['oatcastle', *crates] for path in sorted((ROOT / 'crates' / crate / 'src').glob('*.rt'))}


@functools.cache
def spelled(constant, where):
    """How a file names a constant: bare in its own, behind its module's name in another."""
    path, name = constant
    module = path.split('/')[1] if path.endswith('/lib.rt') else pathlib.Path(path).stem
    return name if path == where else f'{module}::{name}'


@functools.cache
def named_in(text):
    """The names of a text, each with the module ahead of it."""
    return {'::'.join(path.split('::')[-2:]) for path in re.findall(r'\w+(?:::\w+)*', re.sub(r'//[^\n]*', '', text))}


@functools.cache
def made_in(text):
    """The constants of a text with their values, and the text without them."""
    return re.findall(CONSTANT, text, re.M), re.sub(CONSTANT, '', text, flags=re.M)


def tie_faults(code):
    """The constants that no function names, nor another constant that one names."""
    values = {(path, name): value for path, text in code.items() for name, value in made_in(text)[0]}
    tied, more = set(), {constant for constant in values if any(spelled(constant, path) in named_in(made_in(text)[1]) for path, text in code.items())}
    while more:
        tied |= more
        more = {constant for constant in values.keys() - tied if any(spelled(constant, other[0]) in named_in(values[other]) for other in tied)}
    return [f'{path}: no function names {name}, so that no contract holds it' for path, name in values if (path, name) not in tied]


def untied(code):
    """Each constant, and the code without its name but where it is made."""
    for path, text in code.items():
        for name, _ in made_in(text)[0]:
            taken = {where: re.sub(rf'\b{spelled((path, name), where)}\b', '0', other) if name in other else other for where, other in code.items()}
            yield name, {**taken, path: taken[path].replace('const 0:', f'const {name}:')}


def as_written():
    return {path: read(path) for path in (HEADER, RAW, *WRAPPER, *VERSIONS)}


def faults(texts):
    """Where the texts by hand and the crates differ."""
    return [*function_faults(texts), *answer_faults(texts), *record_faults(texts), *number_faults(texts), *wrapper_faults(texts),
            *text_faults(texts), *version_faults(texts)]


# ---- Planted changes

def raised(path, text, form):
    """Each number of a form in the text, one more."""
    for found in re.finditer(form, text):
        yield path, f'one more than in {found.group(0).strip()}', text[:found.start(1)] + str(int(found.group(1), 0) + 1) + text[found.end(1):]


def exchanged(path, text, form, name):
    """Each two neighbouring parameters of a function, with their names exchanged."""
    for function in re.finditer(form, text, re.S):
        names = list(re.finditer(name, function.group(2)))
        for one, other in zip(names, names[1:]):
            a, b, c, d = (function.start(2) + place for place in (*one.span(1), *other.span(1)))
            yield path, f'{one.group(1)} and {other.group(1)} exchanged in {function.group(1)}', text[:a] + text[c:d] + text[b:c] + text[a:b] + text[d:]


def changed_answers(path, text, form, field):
    """Each answer without its last field, and each two neighbouring fields of an answer exchanged."""
    yield from exchanged(path, text, form, field)
    for answer in re.finditer(form, text, re.S):
        last = list(re.finditer(rf'    {field}', answer.group(2)))[-1]
        yield path, f'{answer.group(1)} without {last.group(1)}', text[:answer.start(2) + last.start()] + text[answer.start(2) + last.end():]


def replaced(path, text, what, old, new):
    assert old in text, f'{path} has no {old}'
    return path, what, text.replace(old, new, 1)


def planted(texts):
    """Each change: the file, what is changed, and the file's text with it."""
    header, raw = texts[HEADER], texts[RAW]
    yield from raised(HEADER, header, r'#define OATCASTLE_\w+ (0x[0-9a-f]+|\d+)u?')
    yield from exchanged(HEADER, header, r'\nuint32_t (\w+)\((.*?)\);', r'(\w+)(?=(?:\[\w+\])?(?:,|$))')
    yield from exchanged(RAW, raw, r'fn (\w+)\((.*?)\) -> u32;', r'(\w+)(?=:)')
    yield replaced(HEADER, header, 'a #define taken out', '#define OATCASTLE_STATUS_ALERTS', '// OATCASTLE_STATUS_ALERTS')
    yield replaced(HEADER, header, 'a #define put in', '#define OATCASTLE_DONE', '#define OATCASTLE_OTHER 1\n#define OATCASTLE_DONE')
    yield replaced(HEADER, header, 'a #define of another form', '#define OATCASTLE_NO_ROOM 8u', '#define OATCASTLE_NO_ROOM (8u + 1u)')
    yield replaced(HEADER, header, 'a const left out', 'const uint8_t *piece', 'uint8_t *piece')
    yield replaced(HEADER, header, 'a wider number', 'uint16_t maxresponse', 'uint32_t maxresponse')
    yield replaced(HEADER, header, 'a function taken out', 'uint32_t oatcastle_flags(', '// uint32_t oatcastle_flags(')
    for old, new in (('uint8_t address;\n    uint8_t result;', 'uint8_t result;\n    uint8_t address;'), ('uint8_t address;', 'uint16_t address;'),
                     ('    uint8_t result;\n', ''), ('const oatcastle_length *indices', 'const uint64_t *indices'), ('oatcastle_probe *list', 'uint8_t *list')):
        yield replaced(HEADER, header, f'{new!r} for {old!r}', old, new)
    for old, new in (('pub address: u8,', 'pub result: u8,'), ('    pub address: u8,\n', ''), ('pub result: u8,', 'pub result: u32,'), ('#[repr(C)]\n', ''),
                     ('indices: *const Length', 'indices: *const u32'), ('list: *mut Probe', 'list: *mut u8'), ('type Length = u64;', 'type Length = u32;'),
                     ('state_length: Length', 'state_length: u32')):
        yield replaced(RAW, raw, f'{new!r} for {old!r}', old, new)
    yield replaced(HEADER, header, 'two counters exchanged', 'uint32_t reason5;\n    uint32_t reason6;', 'uint32_t reason6;\n    uint32_t reason5;')
    yield replaced(HEADER, header, 'a wider counter', 'uint32_t reason7', 'uint64_t reason7')
    yield replaced(RAW, raw, 'a counter taken out', '    pub reason7: u32,\n', '')
    yield replaced(RAW, raw, 'a block for reading alone', 'counters: *mut Counters', 'counters: *const Counters')
    yield replaced(RAW, raw, 'a mut for a const', '*const', '*mut')
    yield replaced(RAW, raw, 'a narrower number', 'sequence: u64', 'sequence: u32')
    yield replaced(RAW, raw, 'a function by another name', 'oatcastle_panic_record', 'oatcastle_panic')
    yield from changed_answers(HEADER, header, r'\ntypedef struct (oatcastle_\w+_answer) \{\n(.*?)\n\}', r'uint64_t (\w+);')
    yield from changed_answers(RAW, raw, r'\npub struct (\w+Answer) \{\n(.*?)\n\}', r'pub (?:r#)?(\w+): u64,')
    yield replaced(HEADER, header, 'a narrower field of an answer', 'uint64_t set_bits;', 'uint32_t set_bits;')
    yield replaced(HEADER, header, 'another struct', 'oatcastle_requester_send_answer *answer', 'oatcastle_save_answer *answer')
    yield replaced(RAW, raw, 'another struct', 'answer: *mut RequesterSendAnswer', 'answer: *mut SaveAnswer')
    yield replaced(HEADER, header, 'a size not asserted', 'sizeof(oatcastle_step_answer) == 48', 'sizeof(oatcastle_step_answer) > 0')
    yield replaced(RAW, raw, 'a size not asserted', 'size_of::<StepAnswer>() == 8 * 6', 'size_of::<StepAnswer>() > 0')
    for found in re.finditer(r'return "([^"]*)"', header):
        yield HEADER, f'another text than "{found.group(1)}"', header[:found.start(1)] + 'no ' + header[found.start(1):]
    yield from raised(LIMITS, texts[LIMITS], r'const \w+: (?:usize|u64) = (\d+);')
    yield replaced(LIMITS, texts[LIMITS], 'a shorter setting', '= [256, ', '= [255, ')
    for path in ENUMS:
        yield from raised(path, texts[path], r'\n    \w+ = (0x[0-9a-f]+|\d+), "')
    for path, form in VERSIONS.items():
        place = re.search(form, texts[path], re.M).start(1)
        yield path, 'another version', texts[path][:place] + '1' + texts[path][place:]
    yield VERSION, 'a version of two numbers', texts[VERSION].rpartition('.')[0] + '\n'
    yield replaced(WRAPPER[1], texts[WRAPPER[1]], 'a reason taken out', '    Data = 7, ', '    // Data = 7, ')
    yield replaced(WRAPPER[1], texts[WRAPPER[1]], 'a fault taken out', '    BytesAfter = 35, ', '    // BytesAfter = 35, ')


def try_planted():
    texts = as_written()
    changes = list(planted(texts))
    unseen = [f'{path}: {what}' for path, what, text in changes if not faults({**texts, path: text})]
    taken = list(untied(sources()))
    unseen += [f'{name} taken out of the functions' for name, code in taken if not tie_faults(code)]
    for line in unseen:
        print('not seen: ' + line)
    print(f'interface: {len(changes) + len(taken)} changes planted, {len(unseen)} not seen')
    return 1 if unseen else 0


def main():
    texts = as_written()
    code = sources()
    found = [*faults(texts), *tie_faults(code)]
    for fault in found:
        print(fault)
    print(f'interface: {len(exported())} functions, {len(RECORDS)} records, {len(wanted_numbers())} constants and {len(list(wrapper_numbers(texts)))} numbers of the wrapper compared, {sum(len(made_in(text)[0]) for text in code.values())} constants looked for in the functions, {len(found)} faults')
    return 1 if found or not exported() else 0


if __name__ == '__main__':
    if sys.argv[1:] not in ([], ['planted']):
        sys.exit(__doc__)
    sys.exit(try_planted() if sys.argv[1:] else main())
