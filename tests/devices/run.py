#!/usr/bin/env python3
"""Both programs of examples/devices over ptys, in C, in Rust and mixed:
- what a power cut may leave at each call of a save is the image before or after, and after the reply the one after;
- a set is not answered while the supervisor is down;
- over a wire that loses and damages bytes, with either end killed at random and started again, each lookup gives what was set last. A set
  whose answer the killed end did not print may have been carried out or not.
Then each mistake of MISTAKES is put into a program, and must be seen.
Assumes Linux, cc, rustc and crates/oatcastle/out/liboatcastle.a.

usage: tests/devices/run.py [SECONDS [SEED]]      how long each pair is killed, and how; 1 and 1 without"""
import os
import pathlib
import random
import select
import shutil
import subprocess
import sys
import tempfile
import time

ROOT = pathlib.Path(__file__).resolve().parents[2]
sys.path.insert(0, str(ROOT / 'tests'))
from common import LIBRARY, made  # noqa: E402
from disk import Disk  # noqa: E402

SOURCES = ROOT / 'examples/devices'
OUT = ROOT / 'target/devices'
ENDS = ('supervisor', 'main_end')
C_FILES = {'supervisor': ('supervisor', 'device', 'settings_file'), 'main_end': ('main_end', 'device')}
LANGUAGES = ('c', 'rust')
KEYS = {3: 256, 4: 4096, 5: 4096}
PATIENCE = 60       # seconds for an answer, however bad the wire
LEAST_KILLS = 3     # of each end, and requests of a pair, however slow the machine
LEAST_REQUESTS = 100
DOWN = 2.0          # seconds without a supervisor, in which a wrong program would answer
# What a program must not do: the language, the file, what is replaced in it and by what, the program, and the test that must see it.
MISTAKES = {
    'a save without a rename': [
        ('c', 'settings_file.c', '".new"', '""', 'supervisor', 'power_cuts'),
        ('rust', 'src/settings_file.rs', '".new"', '""', 'supervisor', 'power_cuts')],
    'contents that are not synced': [
        ('c', 'settings_file.c', 'if (fsync(file) != 0)', 'if (0)', 'supervisor', 'power_cuts'),
        ('rust', 'src/settings_file.rs', 'new.sync_all()?;', '', 'supervisor', 'power_cuts')],
    'a folder that is not synced': [
        ('c', 'settings_file.c', 'if (fsync(folder) != 0)', 'if (0)', 'supervisor', 'power_cuts'),
        ('rust', 'src/settings_file.rs', 'File::open(folder)?.sync_all()', 'File::open(folder).map(|_| ())', 'supervisor', 'power_cuts')],
    'a reply ahead of the save': [
        ('c', 'supervisor.c', '            save();\n',
         '            must(oatcastle_supervisor_take(&supervisor, room, sizeof room, &taken)),\n'
         '                device_write(wire, room, taken.moved), save();\n', 'supervisor', 'power_cuts'),
        ('rust', 'src/bin/supervisor.rs', '                self.save()?;\n',
         '                self.wire.write_all(self.supervisor.take(&mut room))?;\n                self.save()?;\n',
         'supervisor', 'power_cuts')],
    'a lost set that is acknowledged': [
        ('c', 'main_end.c', '    while (!asked(command, data, length))\n        start();\n',
         '    asked(command, data, length);\n    answer.length += answer.length == 0;\n', 'main_end', 'supervisor_down'),
        ('rust', 'src/bin/main_end.rs', '        while !self.asked(request)? {\n            self.start()?;\n        }\n',
         '        if !self.asked(request)? {\n            self.answer = vec![0];\n        }\n', 'main_end', 'supervisor_down')],
    'settings that are not restored': [
        ('c', 'supervisor.c', '    if (length >= 0)\n', '    if (0)\n', 'supervisor', 'killed'),
        ('rust', 'src/bin/supervisor.rs', 'self.supervisor.restore(&image)',
         'self.supervisor.restore(b"KE").and(Ok(drop(image)))', 'supervisor', 'killed')],
}


class Fault(Exception):
    """What a test found."""


# ---- Programs

def run(*words):
    done = subprocess.run(words, cwd=ROOT, capture_output=True, text=True)
    if done.returncode:
        sys.exit(f'{" ".join(map(str, words))}\n{done.stdout}{done.stderr}')


def rustc(*words):
    run('rustc', '--edition', '2021', '-L', 'native=crates/oatcastle/out', *words)


def compiled(language, end, sources, out):
    """A program of an end, of the sources in a folder."""
    program = out / f'{language}_{end}'
    if language == 'c':
        files = [sources / f'{name}.c' for name in C_FILES[end]]
        run('cc', '-std=c99', '-O2', '-Wall', '-Wextra', '-pedantic', '-Werror', '-Iinclude', *files, LIBRARY, '-o', program)
    else:
        rustc('-D', 'warnings', '-o', program, sources / f'src/bin/{end}.rs', '--extern', f'oatcastle={OUT}/liboatcastle.rlib')
    return program


def programs():
    """Every program, and what the tests need beside them."""
    shutil.rmtree(OUT, ignore_errors=True)
    OUT.mkdir(parents=True)
    rustc('-O', '--crate-type', 'rlib', '--crate-name', 'oatcastle', '--out-dir', OUT, 'bindings/rust/src/lib.rs', '-l', 'static=oatcastle')
    shared = ('-std=gnu11', '-O1', '-Wall', '-Wextra', '-Werror', '-shared', '-fPIC')
    run('cc', *shared, 'tests/devices/log_calls.c', '-ldl', '-o', OUT / 'log_calls.so')
    return {(language, end): compiled(language, end, SOURCES / language, OUT) for language in LANGUAGES for end in ENDS}


# ---- A pair of programs over a wire

class Pair:
    def __init__(self, supervisor, main_end, *faults, environment=None):
        self.folder = tempfile.TemporaryDirectory()
        self.file = f'{self.folder.name}/settings'
        words = [sys.executable, SOURCES / 'wire.py', *map(str, faults)]
        self.wire = subprocess.Popen(words, stdin=subprocess.PIPE, stdout=subprocess.PIPE, text=True)
        devices = dict((name, words) for name, *words in (self.wire.stdout.readline().split() for _ in ENDS))
        self.words = {'supervisor': [supervisor, *devices['supervisor'], self.file], 'main_end': [main_end, *devices['main_end']]}
        self.environment = {**os.environ, **(environment or {})}
        self.running, self.text, self.lines, self.alerts = {}, b'', [], []
        for end in ENDS:
            self.start(end)

    def __enter__(self):
        return self

    def __exit__(self, *_):
        for end in list(self.running):
            self.kill(end)
        self.carried = self.wire.communicate('')[0].strip()
        self.folder.cleanup()

    def start(self, end):
        pipe = subprocess.PIPE if end == 'main_end' else subprocess.DEVNULL
        environment = self.environment if end == 'supervisor' else None
        self.running[end] = subprocess.Popen(self.words[end], stdin=pipe, stdout=pipe, env=environment)

    def kill(self, end):
        """Kills an end; what the main end printed before counts."""
        process = self.running.pop(end)
        process.kill()
        process.wait()
        if end == 'main_end':
            self.take(process.stdout.read())
            self.text = b''
            process.stdin.close()
            process.stdout.close()

    def take(self, text):
        """Sorts the lines that are whole: alerts, and answers."""
        *lines, self.text = (self.text + text).split(b'\n')
        for line in (line.decode() for line in lines):
            (self.alerts if line.startswith('alert ') else self.lines).append(line)

    def read(self, seconds):
        """An answer of the main end within a time, or None."""
        end = time.monotonic() + seconds
        while not self.lines:
            from_main = self.running['main_end'].stdout
            if not select.select([from_main], [], [], max(0, end - time.monotonic()))[0]:
                return None
            text = os.read(from_main.fileno(), 65536)
            if not text:
                raise Fault('the main end has ended')
            self.take(text)
        return self.lines.pop(0)

    def tell(self, line):
        self.running['main_end'].stdin.write(line.encode() + b'\n')
        self.running['main_end'].stdin.flush()

    def ask(self, line):
        self.tell(line)
        answer = self.read(PATIENCE)
        if answer is None:
            raise Fault(f'no answer to {line[:20]}')
        return answer

    def wants(self, line, wanted):
        answer = self.ask(line)
        if answer != wanted:
            raise Fault(f'{line[:20]} is answered by {answer[:40]}, not by {wanted[:40]}')


# ---- Power cuts

def is_set_reply(frame):
    """Whether bytes that went to the wire are the reply to a key set: the command behind the groups of magic, version and sequence."""
    body, rest = bytearray(), frame.lstrip(b'\0')[:-1]
    while rest:
        body += rest[1:rest[0]] + b'\0'
        rest = rest[rest[0]:]
    return len(body) > 16 and body[16] == 0x0c


def values(image):
    """The settings of an image, as docs/WIRE.md has it, without their editions: a set that is sent twice has another edition. None where
    it has a fault."""
    found = {}
    while image is not None and image != b'KE':
        length = int.from_bytes(image[7:9], 'little')
        if image[:2] != b'KV' or len(image) < 11 + length:
            return None
        found[image[2]] = image[9:9 + length].hex()
        image = image[11 + length:]
    return found


def logged(supervisor, main_end, sets):
    """Makes some sets over a good wire. Gives the calls that the supervisor made, the file, and the wire."""
    preload = {'LD_PRELOAD': f'{OUT}/log_calls.so'}
    with tempfile.NamedTemporaryFile() as log, Pair(supervisor, main_end, environment={**preload, 'LOG_CALLS': log.name}) as pair:
        for key, value in sets:
            pair.wants(f'set {key} {value}', f'stored {key}')
        pair.ask('get 0')       # its reply goes out once the call ahead of it is in the log
        process = str(pair.running['supervisor'].pid)
        calls = [line.split()[1:] for line in log.read().decode().splitlines() if line.split()[0] == process]
        return calls, pair.file, pair.words['supervisor'][1]


def power_cuts(supervisor, main_end, _seconds, _seed):
    """Goes through the calls that the supervisor made: what a cut behind each may leave is what was set so far, or with the next set."""
    sets = ((4, '00ff10'), (4, 'aa' * 300), (3, ''), (5, '0011' * 40))
    wanted = [dict(sets[:count]) for count in range(len(sets) + 1)]
    calls, file, wire = logged(supervisor, main_end, sets)
    disk, answered, states = Disk(file), 0, 0
    for name, *words in calls:
        disk.call(name, *words)
        found = [values(content) for content in disk.after_cut()]
        states += len(found)
        if any(settings not in wanted[answered:answered + 2] for settings in found):
            raise Fault(f'a power cut behind {name} {words[0]} may leave other settings')
        if name == 'write' and disk.open_files.get(words[0]) == wire and is_set_reply(bytes.fromhex(words[1])):
            answered = max(answered, wanted.index(found[0]))
            if any(settings != wanted[answered] for settings in found):
                raise Fault('a set is answered that a power cut may undo')
    if answered != len(sets):
        raise Fault(f'{answered} of {len(sets)} sets are kept')
    return f'{len(calls)} calls, {states} states of the disk after a power cut'


# ---- A supervisor that is down

def supervisor_down(supervisor, main_end, _seconds, _seed):
    with Pair(supervisor, main_end) as pair:
        pair.wants('set 4 01', 'stored 4')
        pair.kill('supervisor')
        pair.tell('set 4 02')
        answer = pair.read(DOWN)
        if answer is not None:
            raise Fault(f'without a supervisor the answer is {answer}')
        pair.start('supervisor')
        if pair.read(PATIENCE) != 'stored 4':
            raise Fault('no answer once the supervisor is there again')
        pair.wants('get 4', 'value 4 02')
    return 'a set waits for the supervisor'


# ---- Kills at random

class Killer:
    """Sets and lookups at random, and what each key may have."""

    def __init__(self, pair, seed):
        self.pair, self.random = pair, random.Random(seed)
        self.possible = {key: {None} for key in KEYS}
        self.sets = self.gets = 0
        self.kills = {end: 0 for end in ENDS}

    def value(self, key):
        longest = self.random.choice((8, 60, 200, KEYS[key] if self.random.randrange(20) == 0 else 60))
        return self.random.randbytes(self.random.randrange(longest + 1)).replace(b'\7', b'\0').hex()

    def kill(self):
        """Kills one end or both, and starts them again after a while. Whether the main end was among them."""
        ends = self.random.choice((('supervisor',), ('main_end',), ENDS))
        for end in ends:
            self.pair.kill(end)
            self.kills[end] += 1
        time.sleep(self.random.choice((0, self.random.random() * 0.15)))
        for end in ends:
            self.pair.start(end)
        return 'main_end' in ends

    def ask(self, line):
        """The answer; None where the main end was killed before it printed one."""
        if self.random.randrange(5):
            return self.pair.ask(line)
        self.pair.tell(line)
        answer = self.pair.read(self.random.choice((0.002, 0.01, 0.2)) * self.random.random())
        main_killed = answer is None and self.kill()
        if main_killed:
            return self.pair.lines.pop(0) if self.pair.lines else None
        answer = answer or self.pair.read(PATIENCE)
        if answer is None:
            raise Fault(f'no answer to {line[:20]} behind a kill')
        return answer

    def set(self, key):
        value = self.value(key)
        self.sets += 1
        self.possible[key].add(value)
        answer = self.ask(f'set {key} {value}')
        if answer == f'stored {key}':
            self.possible[key] = {value}
        elif answer is not None:
            raise Fault(f'a set is answered by {answer[:40]}')

    def get(self, key):
        answer = self.ask(f'get {key}')
        self.gets += 1
        if answer is None:
            return
        value = None if answer == f'refused {key} 2' else answer.removeprefix(f'value {key} ')
        if value not in self.possible[key]:
            raise Fault(f'key {key} is {str(value)[:40]}, and was set to {" or ".join(str(v)[:40] for v in self.possible[key])}')
        self.possible[key] = {value}

    def done(self):
        return min(self.kills.values()) >= LEAST_KILLS and self.sets + self.gets >= LEAST_REQUESTS

    def work(self, seconds):
        end = time.monotonic() + seconds
        while time.monotonic() < end or not self.done():
            self.random.choice((self.set, self.set, self.get))(self.random.choice(list(KEYS)))
        for end in ENDS:
            self.pair.kill(end)
        for end in ENDS:
            self.pair.start(end)
        for key in KEYS:
            self.get(key)


def killed(supervisor, main_end, seconds, seed):
    with Pair(supervisor, main_end, '--lose', 2500, '--damage', 1500, '--seed', seed) as pair:
        killer = Killer(pair, seed)
        killer.work(seconds)
        wrong = [alert for alert in pair.alerts if alert not in ('alert 1 started; restored', 'alert 1 started; no file')]
        if wrong:
            raise Fault(f'{wrong[0]}')
    if not pair.alerts or ' lost 0' in pair.carried or ' damaged 0' in pair.carried:
        raise Fault(f'too little happened: {len(pair.alerts)} alerts, {pair.carried}')
    kills = ', '.join(f'{end} killed {count} times' for end, count in killer.kills.items())
    return f'{killer.sets} sets and {killer.gets} lookups, {kills}, {len(pair.alerts)} alerts; bytes {pair.carried}; settings lost 0'


# ---- Planted mistakes

def mistaken(language, name, old, new, end, made_programs):
    """The program with the mistake."""
    sources = OUT / 'mistaken' / language
    shutil.rmtree(sources, ignore_errors=True)
    shutil.copytree(SOURCES / language, sources)
    text = (sources / name).read_text()
    if text.count(old) != 1:
        sys.exit(f'tests/devices: {language}/{name} has no one place for {old!r}')
    (sources / name).write_text(text.replace(old, new))
    return {**made_programs, (language, end): compiled(language, end, sources, OUT / 'mistaken')}


def try_mistakes(made_programs):
    seen = 0
    for what, places in MISTAKES.items():
        for language, name, old, new, end, test in places:
            wrong = mistaken(language, name, old, new, end, made_programs)
            pair = [wrong[language if end == other else 'c', other] for other in ENDS]
            try:
                globals()[test](*pair, 1, 1)
            except Fault:
                seen += 1
            else:
                sys.exit(f'tests/devices: not seen in {language}: {what}')
    print(f'devices: {seen} planted mistakes seen')


def main():
    seconds, seed = (float(sys.argv[1]) if len(sys.argv) > 1 else 1, int(sys.argv[2]) if len(sys.argv) > 2 else 1)
    made(LIBRARY)
    found = programs()
    for one in LANGUAGES:
        for other in LANGUAGES:
            for test in (power_cuts, supervisor_down, killed):
                try:
                    said = test(found[one, 'supervisor'], found[other, 'main_end'], seconds, seed)
                except Fault as fault:
                    sys.exit(f'devices: supervisor in {one}, main end in {other}: {test.__name__}: {fault}')
                print(f'supervisor in {one}, main end in {other}: {said}', flush=True)
    try_mistakes(found)


if __name__ == '__main__':
    if len(sys.argv) > 3:
        sys.exit(__doc__)
    main()
