"""What the programs of this folder share: the texts of cases, the command line and the comparison with a crate's files. Also files that
must be made first, and the comments of the header's constants.
Assumes that each stands in this folder, and the crates beside it."""
import functools
import os
import pathlib
import re
import subprocess
import sys

ROOT = pathlib.Path(__file__).resolve().parent.parent
LIBRARY = 'crates/oatcastle/out/liboatcastle.a'


def made(*files):
    """Ends the run with 2 where a file is missing, and says which command makes it."""
    if subprocess.run([ROOT / 'tests/made', *files]).returncode:
        sys.exit(2)


@functools.cache
def comments(header):
    """The comment of each constant of the header, which stands behind its #define or in the lines ahead of it, without line ends and stars."""
    found = re.findall(r'(?:^/\*\*((?:(?!\*/).)*?)\*/\n)?^#define OATCASTLE_(\w+) [^\n/]*(?:/\*\*<((?:(?!\*/).)*?)\*/)?', header, re.M | re.S)
    return {name: ' '.join(re.sub(r'\n \*', '\n', ahead or behind).split()) for ahead, name, behind in found}


def texts(cases):
    """A program's input and what it must write."""
    given = ''.join('\n'.join(c.commands + ['.']) + '\n' for c in cases)
    return given.encode('ascii'), ''.join(c.line + '\n' for c in cases).encode('ascii')


def files(crate, given, wanted):
    """The crate's files and what a model works out for each."""
    folder = ROOT / 'crates' / crate
    return (folder / 'stdin', given), (folder / 'stdout', wanted)


def written(crate, given, wanted):
    """Writes the crate's stdin and stdout."""
    for path, text in files(crate, given, wanted):
        with open(path, 'wb') as f:
            f.write(text)


def compared(crate, given, wanted):
    """Ends the run where stdin or stdout of the crate is not what a model works out."""
    for path, text in files(crate, given, wanted):
        with open(path, 'rb') as f:
            if f.read() != text:
                sys.exit(f'crates/{crate}/{os.path.basename(path)} is not what {os.path.basename(sys.argv[0])} works out')
    print(f'{crate}: {len(given)} bytes of input and {len(wanted)} of output, as worked out')


def serve(usage, **ways):
    """Does what the command line's one word names, with - in it for _, and writes the bytes that come of it."""
    way = ways.get(sys.argv[1].replace('-', '_')) if len(sys.argv) == 2 else None
    if way is None:
        sys.exit(usage)
    sys.stdout.buffer.write(way() or b'')
