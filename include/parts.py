#!/usr/bin/env python3
"""Writes include/oatcastle_parts.h from the declarations of include/oatcastle.h. It has a struct for the supervisor's five parts, one for
the main processor's two and one for a line reader alone. Each function that takes such parts gets an inline function that takes the struct
in their place. Assumes the layout of the header's declarations.

usage: include/parts.py [write|check]      check: says whether the file is as this would write it"""
import pathlib
import re
import sys
import textwrap

HERE = pathlib.Path(__file__).resolve().parent
HEADER = HERE / 'oatcastle.h'
FILE = HERE / 'oatcastle_parts.h'
WIDTH = 100
# Each struct with its parts in order.
STRUCTS = {'supervisor': ('reader', 'outbox', 'factory', 'settings', 'registers'), 'main_end': ('reader', 'requester'),
           'line_reader': ('reader',)}
WORDS = {'supervisor': 'The supervisor', 'main_end': "The main processor's end", 'line_reader': 'A line reader alone'}
# A parameter that is a part under another name.
PARTS = {'state': 'reader'}
# The calls on a reader alone that another struct has too, with the words for it.
SHARED = {
    'supervisor': {'collect': 'oatcastle_collect on these parts.'},
    'main_end': {'line_data':
                 'oatcastle_line_data on these parts: the data of the message that oatcastle_main_end_receive handed out last.'},
}

TOP = '''/**
 * @file oatcastle_parts.h
 * The lent parts as structs, and each call that takes parts as an inline function that takes such
 * a struct in their place.
 *
 * Made by include/parts.py from oatcastle.h. What a call does and answers stands there, with the
 * plain function. A struct is plain memory: static or on a stack, of any contents, until its start.
 * It may be copied or moved between two calls. Where a length is 0, its pointer is not looked at
 * and may be NULL. An answer overlaps neither the struct nor anything else that is lent.
 *
 * The calls without parts have no other form: oatcastle_line_write, oatcastle_line_checksum,
 * oatcastle_clear_counters, oatcastle_addresses, oatcastle_plan, oatcastle_probe_update and those
 * of the root-of-trust link.
 *
 * The main processor's end, for any bytes: hands in all that the wire brought, gives `handed` each
 * answer, alert and status, and `send` the bytes that are to go out.
 * @code
 * static uint32_t hear(oatcastle_main_end *end, const uint8_t *piece, size_t length,
 *                      void (*handed)(const oatcastle_requester_receive_answer *what,
 *                                     const uint8_t *data),
 *                      void (*send)(const uint8_t *bytes, size_t count))
 * {
 *     static uint8_t data[OATCASTLE_LONGEST_DATA], out[OATCASTLE_LONGEST_FRAME];
 *     oatcastle_requester_receive_answer got;
 *     oatcastle_requester_send_answer put;
 *
 *     while (length > 0) {
 *         uint32_t refusal = oatcastle_main_end_receive(end, piece, length, &got);
 *         if (refusal == OATCASTLE_DONE)      // of a status or nothing the length is 0
 *             refusal = oatcastle_main_end_data(end, got.length, data, sizeof data);
 *         if (refusal == OATCASTLE_DONE && got.kind != OATCASTLE_NOTHING)
 *             handed(&got, data);
 *         if (refusal == OATCASTLE_DONE && got.ended)
 *             refusal = OATCASTLE_NO_NUMBER;  // a recovery's: the request is forgotten
 *         if (refusal == OATCASTLE_DONE)
 *             refusal = oatcastle_main_end_send(end, out, sizeof out, &put);
 *         if (refusal != OATCASTLE_DONE)
 *             return refusal;
 *         send(out, put.length);              // 0 bytes where nothing is to go out
 *         piece += got.used;
 *         length -= got.used;
 *     }
 *     return OATCASTLE_DONE;
 * }
 * @endcode
 */
#ifndef OATCASTLE_PARTS_H
#define OATCASTLE_PARTS_H

#include "oatcastle.h"

#ifdef __cplusplus
extern "C" {
#endif

/** The pointer, or where the length is 0 a place that is neither read nor written. */
static inline const uint8_t *oatcastle_some(const uint8_t *at, oatcastle_length length)
{
    static const uint8_t none[1] = {0};
    return length == 0 ? none : at;
}

/** The same for a run that is written. */
static inline uint8_t *oatcastle_some_room(uint8_t *at, oatcastle_length length)
{
    static uint8_t none[1];
    return length == 0 ? none : at;
}
'''
END = '''
#ifdef __cplusplus
}
#endif

#endif
'''


def declarations(text):
    """Of each function its name and its parameters, as (type, name, array's length)."""
    for name, inside in re.findall(r'\nuint32_t oatcastle_(\w+)\((.*?)\);', text, re.S):
        yield name, [re.fullmatch(r'(.*?[ *])(\w+)(?:\[(\w+)\])?', ' '.join(p.split())).groups() for p in inside.split(',')]


def owner(parameters):
    """The struct whose parts a function takes."""
    taken = {PARTS.get(name, name) for _, name, _ in parameters}
    for struct in ('main_end', 'supervisor'):
        if taken & (set(STRUCTS[struct]) - {'reader'}):
            return struct
    return 'line_reader' if 'reader' in taken else None


def filled(front, units, back):
    """A list of parameters or arguments on as many lines as it needs, one below the other, or further left where one would be too wide; a
    pointer and its length, as one unit, stay together."""
    hanging = any(len(front + unit) + 1 > WIDTH for unit in units)
    lines, indent = ([front, '    '], 4) if hanging else ([front], len(front))
    for n, unit in enumerate(units):
        end = back if n == len(units) - 1 else ','
        blank = '' if n == 0 else ' '
        if n and len(lines[-1] + blank + unit + end) > WIDTH:
            lines.append(' ' * indent + unit + end)
        else:
            lines[-1] += blank + unit + end
    return '\n'.join(lines)


def passed_on(parameters, struct):
    """What an inline function takes behind the struct, and what it passes on."""
    taken, passed = [], []
    parameters = list(parameters)
    while parameters:
        kind, parameter, bound = parameters.pop(0)
        length = parameters.pop(0)[1] if parameters and parameters[0][1] in (f'{parameter}_length', f'{parameter}_count') else None
        part = PARTS.get(parameter, parameter)
        if part in STRUCTS[struct]:
            passed.append(f'parts->{part}, sizeof parts->{part}')
        elif length:
            some = 'oatcastle_some' if kind.startswith('const') else 'oatcastle_some_room'
            taken.append(f'{kind}{parameter}, oatcastle_length {length}')
            passed.append(f'{some}({parameter}, {length}), {length}')
        else:
            taken.append(f'{kind}{parameter}' + (f'[{bound}]' if bound else ''))
            passed.append(parameter)
    return taken, passed


def comment(words):
    lines = textwrap.wrap(words, WIDTH - len('/** ') - len(' */'))
    return '/** ' + '\n * '.join(lines) + ' */\n'


def helper(name, parameters, struct):
    """The inline function of a call."""
    only_read = all(kind.startswith('const') for kind, parameter, _ in parameters if PARTS.get(parameter, parameter) in STRUCTS[struct])
    taken, passed = passed_on(parameters, struct)
    taken.insert(0, f'{"const " if only_read else ""}oatcastle_{struct} *parts')
    short = re.sub('^(requester|line)_', '', name)
    words = SHARED.get(struct, {}).get(name, f'oatcastle_{name} on these parts.')
    return ('\n' + comment(words) + filled(f'static inline uint32_t oatcastle_{struct}_{short}(', taken, ')')
            + '\n{\n' + filled(f'    return oatcastle_{name}(', passed, ');') + '\n}\n')


def made():
    listed = list(declarations(HEADER.read_text()))
    out = TOP
    for struct, own in STRUCTS.items():
        out += f'\n/** {WORDS[struct]}: its lent part{"s" * (len(own) > 1)}, which the caller owns and only these calls write. */\n'
        fields = ''.join(f'    uint8_t {part}[OATCASTLE_{part.upper()}_LENGTH];\n' for part in own)
        out += f'typedef struct oatcastle_{struct} {{\n{fields}}} oatcastle_{struct};\n'
        calls = [call for call in listed if owner(call[1]) == struct]
        calls += [call for call in listed if call[0] in SHARED.get(struct, {})]
        out += ''.join(helper(*call, struct) for call in calls)
    return out + END


def main(command):
    if command == 'write':
        FILE.write_text(made())
    elif not FILE.exists() or FILE.read_text() != made():
        sys.exit('parts.py: include/oatcastle_parts.h is not what oatcastle.h gives; run python3 include/parts.py write')


if __name__ == '__main__':
    if sys.argv[1:] not in (['write'], ['check']):
        sys.exit(__doc__)
    main(sys.argv[1])
