#!/usr/bin/env python3
"""Tests of the command st62: the calls of tests/st62/cases.txt against their stored texts, and what no stored text can state: odd files,
outputs that cannot be written, HEX against raw, and certificates read back.

The command is target/bin/st62, or the one that the environment variable ST62 names. With --accept the stored texts are written anew from
what it prints; other words are unittest's.
"""
import os
import random
import re
import resource
import shlex
import signal
import subprocess
import sys
import tempfile
import time
import unittest
import zlib

ROOT = os.path.join(os.path.dirname(os.path.abspath(__file__)), '..')
STORED = os.path.join(ROOT, 'tests', 'st62')
ST62 = os.path.abspath(os.environ.get('ST62', os.path.join(ROOT, 'target', 'bin', 'st62')))
PUMP, MARKS, GAUGE, DEEP = (os.path.join('examples', name) for name in ('pump.hex', 'pump_marks.hex', 'gauge.hex', 'deep.hex'))
RECORD = os.path.join('examples', 'pump.rec')
PAGES = os.path.join('examples', 'pages.bin')
END = ':00000001FF'
SPACE = 4096
HALF = 2048
SOURCES = ('nmi', '1', '2', '3', '4')
VECTORS = dict(zip(SOURCES, (0xFFC, 0xFF6, 0xFF4, 0xFF2, 0xFF0)))
# A call that reads and prints takes milliseconds.
SECONDS = 10


def record(address, data, kind=0):
    """A HEX record with its checksum."""
    fields = bytes([len(data), address // 256, address % 256, kind]) + bytes(data)
    return ':' + (fields + bytes([-sum(fields) % 256])).hex().upper()


def records(image, rng=None):
    """An image as HEX records, all its bytes; with a source of chance, of all lengths and in any order."""
    lines, at = [], 0
    while at < len(image):
        count = rng.randint(1, 255) if rng else 16
        lines.append(record(SPACE - len(image) + at, image[at:at + count]))
        at += count
    if rng:
        rng.shuffle(lines)
    return lines + [END]


def from_records(lines, size):
    """The image of HEX records that are right; bytes that they do not name are 00h."""
    image = bytearray(size)
    for line in lines:
        fields = bytes.fromhex(line[1:])
        if fields[3] == 0:
            start = fields[1] * 256 + fields[2] - (SPACE - size)
            image[start:start + fields[0]] = fields[4:-1]
    return bytes(image)


def read(path, mode='r'):
    with open(os.path.join(ROOT, path), mode) as file:
        return file.read()


def jump(opcode, target):
    """A JP (opcode 9) or CALL (opcode 1)."""
    return [target % 16 * 16 + opcode, target // 16]


def halves(*parts):
    """An image of halves, the pages first and the fixed half last: the code of each by its addresses."""
    image = bytearray(len(parts) * HALF)
    for number, part in enumerate(parts):
        for address, code in part.items():
            at = number * HALF + address % HALF
            image[at:at + len(code)] = bytes(code)
    return bytes(image)


class Program:
    """A program of calls without loops but the main one, its other bytes by chance; and the levels that it needs."""

    def __init__(self, rng, size):
        self.image = bytearray(rng.randbytes(size))
        self.low = SPACE - size
        # No raw image may begin as HEX does.
        self.image[0] = 0
        self.places = list(range(self.low + 16, 0xFE0, 16))
        rng.shuffle(self.places)
        start = self.places.pop()
        self.wired = [source for source in SOURCES if rng.random() < 0.3]
        depth = rng.randint(0, 4)
        self.put(0xFFE, jump(9, start))
        self.put(start, [0x4D] + self.body(depth, jump(9, start + 1)))
        needs = {source: rng.randint(0, 1) for source in self.wired}
        for source, need in needs.items():
            service = self.places.pop()
            self.put(VECTORS[source], jump(9, service))
            self.put(service, self.body(need, [0x4D]))
        others = [1 + need for source, need in needs.items() if source != 'nmi']
        self.levels = depth + max(others, default=0) + (1 + needs['nmi'] if 'nmi' in needs else 0)
        self.image = bytes(self.image)

    def put(self, address, code):
        self.image[address - self.low:address - self.low + len(code)] = bytes(code)

    def body(self, depth, end):
        """Code that calls so deep, and its end; the subroutines are put into the image."""
        if depth == 0:
            return end
        place = self.places.pop()
        self.put(place, self.body(depth - 1, [0xCD]))
        return jump(1, place) + end

    def wired_list(self):
        return ','.join(self.wired) or 'none'


class Ended:
    """What a call left: exit status, both outputs as text, and the seconds it took."""

    def __init__(self, code, out, err, seconds):
        self.code, self.seconds = code, seconds
        self.out, self.err = out.decode('utf-8'), err.decode('utf-8')
        self.first = self.out.split('\n')[0]


def st62(*words, **more):
    """Runs the command in the root folder. Standard input is empty."""
    more = {'stdin': subprocess.DEVNULL, 'stdout': subprocess.PIPE, 'stderr': subprocess.PIPE, **more}
    begun = time.monotonic()
    done = subprocess.run([*more.pop('by', []), ST62, *words], cwd=ROOT, timeout=SECONDS, **more)
    return Ended(done.returncode, done.stdout or b'', done.stderr or b'', time.monotonic() - begun)


def cases():
    """The calls of the table: name, exit status, arguments."""
    for line in read(os.path.join(STORED, 'cases.txt')).splitlines():
        if line.strip() and not line.startswith('#'):
            name, code, words = (part.strip() for part in line.split('|'))
            yield name, int(code), words


def called(words):
    """A call of the table, with {tmp} in what it printed where the folder stood."""
    with tempfile.TemporaryDirectory() as folder:
        ended = st62(*(word.replace('{tmp}', folder) for word in shlex.split(words)))
        ended.out, ended.err = (text.replace(folder, '{tmp}') for text in (ended.out, ended.err))
    return ended


def stored_path(name, output):
    return os.path.join(STORED, f'{name}.{output}')


def stored_text(path):
    """A stored text; one that is empty has no file."""
    if not os.path.exists(path):
        return ''
    with open(path, newline='') as file:
        return file.read()


def accept():
    """Writes the stored texts anew, and tells the exit statuses that are not the table's."""
    wrong = 0
    for name, code, words in cases():
        ended = called(words)
        for output, text in (('stdout', ended.out), ('stderr', ended.err)):
            path = stored_path(name, output)
            if text:
                with open(path, 'w', newline='') as file:
                    file.write(text)
            elif os.path.exists(path):
                os.remove(path)
        if ended.code != code:
            print(f'{name}: exit status {ended.code}, where the table has {code}')
            wrong = 1
    return wrong


class Stored(unittest.TestCase):
    """The table. Each call says by itself what it wants."""

    def test_texts_have_cases(self):
        names = [name for name, _, _ in cases()]
        self.assertEqual(len(names), len(set(names)))
        for file in os.listdir(STORED):
            if file.endswith(('.stdout', '.stderr')):
                self.assertIn(os.path.splitext(file)[0], names)


def stored_test(name, code, words):
    def test(self):
        ended = called(words)
        self.assertEqual(ended.code, code, ended.err or ended.out)
        for output, text in (('stdout', ended.out), ('stderr', ended.err)):
            self.assertMultiLineEqual(text, stored_text(stored_path(name, output)))
    return test


class Command(unittest.TestCase):
    maxDiff = None

    def setUp(self):
        folder = tempfile.TemporaryDirectory()
        self.addCleanup(folder.cleanup)
        self.folder = folder.name

    def path(self, name):
        return os.path.join(self.folder, name)

    def file(self, name, content):
        """A file of lines or of bytes; gives its path."""
        if not isinstance(content, bytes):
            content = ('\n'.join(content) + '\n').encode()
        with open(self.path(name), 'wb') as file:
            file.write(content)
        return self.path(name)

    def accepted(self, levels, *words):
        ended = st62(*words)
        self.assertEqual((ended.code, ended.err), (0, ''), (words, ended.out))
        self.assertRegex(ended.first, rf'^accepted {levels}\b')
        return ended

    def refused(self, *words):
        """The image is refused: the program's fault, not the call's."""
        ended = st62(*words)
        self.assertEqual((ended.code, ended.err), (1, ''), (words, ended.out))
        self.assertRegex(ended.first, r'^refused\b')
        return ended

    def failed(self, *words, **more):
        """Exit status 2, with a message on standard error alone."""
        ended = st62(*words, **more)
        self.assertEqual(ended.code, 2, (words, ended.out, ended.err))
        self.assertEqual(ended.out, '', words)
        self.assertTrue(ended.err.startswith('st62: '), (words, ended.err))
        self.assertTrue(ended.err.endswith('\n'), (words, ended.err))
        self.assertLess(ended.seconds, 3, words)
        return ended

    def failed_on(self, path, *words):
        """The same, where the message names the file."""
        ended = self.failed(*words)
        self.assertTrue(ended.err.startswith(f'st62: {path}: '), ended.err)
        return ended

    def failed_at(self, line, path, *words):
        ended = self.failed_on(path, *words)
        self.assertRegex(ended.err[len(f'st62: {path}'):], rf'^: line {line}: \S.*\n$')

    def misused(self, *words):
        """A call that is no call: how it is used, on standard error."""
        ended = st62(*words)
        self.assertEqual((ended.code, ended.out), (2, ''), (words, ended.err))
        self.assertIn('usage', ended.err.lower(), words)


class Images(Command):
    """What is read: HEX and raw files, and files that are neither."""

    def setUp(self):
        super().setUp()
        self.lines = read(PUMP).split()
        self.image = from_records(self.lines, 2048)

    def hex(self, lines, name='image.hex'):
        return self.file(name, lines)

    def bad(self, number, lines, *words):
        path = self.hex(lines, 'bad.hex')
        self.failed_at(number, path, 'check', '--wired', 'nmi', *words, path)

    def test_raw(self):
        for image in (self.image, bytes(2048) + self.image):
            self.accepted(2, 'check', '--wired', 'nmi', self.file('image', image))

    def test_raw_is_known_by_its_content(self):
        self.accepted(2, 'check', '--wired', 'nmi', self.file('raw.hex', self.image))
        self.accepted(2, 'check', '--wired', 'nmi', self.file('hex.bin', self.lines))
        begins = self.file('begins.bin', b':' + self.image[1:])
        self.failed_at(1, begins, 'check', '--wired', 'nmi', begins)
        self.accepted(2, 'check', '--wired', 'nmi', '--raw', begins)
        self.failed_on(PUMP, 'check', '--wired', 'nmi', '--raw', PUMP)

    def test_raw_of_other_lengths(self):
        for length in (0, 1, 2, 2047, 2049, 4095, 4097, 5120, 6143, 6145, 20479, 20481, 22528, 65536):
            path = self.file('image', bytes(length))
            self.failed_on(path, 'check', '--wired', 'nmi', path)
        two, four = self.file('two', self.image), self.file('four', bytes(2048) + self.image)
        self.accepted(2, 'check', '--wired', 'nmi', '--rom', '2K', two)
        self.accepted(2, 'check', '--wired', 'nmi', '--rom', '4K', four)
        self.failed_on(two, 'check', '--wired', 'nmi', '--rom', '4K', two)
        self.failed_on(four, 'check', '--wired', 'nmi', '--rom', '2K', four)

    def test_huge_files(self):
        """Lengths that are right modulo 4 GiB too, and files that begin as HEX."""
        for length in (1 << 32, (1 << 32) + 2048, (1 << 32) + 4096, (1 << 40) + 2048):
            for begin in (b'', b':'):
                path = self.file('huge', begin)
                os.truncate(path, length)
                self.failed_on(path, 'check', '--wired', 'nmi', path)
                self.failed_on(path, 'check', '--wired', 'nmi', '--marks', path, PUMP)
                self.failed_on(path, 'play', PUMP, path)
        self.failed_on('/dev/zero', 'check', '--wired', 'nmi', '/dev/zero')

    def test_no_plain_file(self):
        """A directory can be opened and not read: an error of reading is not the file's end."""
        empty = self.file('empty', b'')
        at_end = self.failed_on(empty, 'check', '--wired', 'nmi', empty).err.replace(empty, '')
        for path in (self.folder, '/proc/self/mem', self.path('none.hex'), self.path('none/none.hex'), ''):
            for words in (('check', '--wired', 'nmi', path), ('check', '--wired', 'nmi', '--marks', path, PUMP),
                          ('list', '--wired', 'nmi', path), ('trace', path, '--steps', '1'), ('size', path, '--count', '1'),
                          ('play', path, RECORD), ('play', PUMP, path), ('certify', '--wired', 'nmi', path, '-o', self.path('out'))):
                with self.subTest(words=words):
                    ended = self.failed(*words)
                    self.assertNotEqual(ended.err.replace(path, '') if path else ended.err, at_end)
        self.assertFalse(os.path.exists(self.path('out')))

    def test_long_paths(self):
        """A path that the system refuses, and one that it takes."""
        self.failed('check', '--wired', 'nmi', 'a' * 5000)
        long = './' * 1000 + PUMP
        self.accepted(2, 'check', '--wired', 'nmi', long)

    def test_pipe(self):
        """What comes in pieces is read to its end."""
        for content in (self.image, ('\n'.join(self.lines) + '\n').encode()):
            source, sink = os.pipe()
            by = subprocess.Popen([ST62, 'check', '--wired', 'nmi', '/dev/stdin'], cwd=ROOT, stdin=source, stdout=subprocess.PIPE)
            os.close(source)
            for at in range(0, len(content), 700):
                os.write(sink, content[at:at + 700])
                time.sleep(0.01)
            os.close(sink)
            out = by.communicate(timeout=SECONDS)[0]
            self.assertEqual((by.returncode, out[:10]), (0, b'accepted 2'))

    def test_line_ends_and_digits(self):
        text = '\n'.join(self.lines)
        want = st62('check', '--wired', 'nmi', PUMP).first
        for same in (text, text + '\n', text.lower() + '\n', text.replace('\n', '\r\n'), text.replace('\n', '\r\n') + '\r\n'):
            path = self.file('image.hex', same.encode())
            self.assertEqual(self.accepted(2, 'check', '--wired', 'nmi', path).first, want)

    def test_bad_records(self):
        self.bad(3, self.lines[:2] + [':010FFC004DA8'] + self.lines[3:])
        for line in (':01089000CG9A', ':01089000C 9A', ':0108900/CD9A', ':01089000CD9', ':0108', ':', '01089000CD9A',
                     ':02089000CD99', ':01089000CD9A00', ':01089000CD9A:', '\u0660', 'S1137AF00A0A0D00'):
            with self.subTest(line=line):
                self.bad(2, self.lines[:1] + [line] + self.lines[2:])

    def test_bad_files(self):
        self.bad(r'\d+', self.lines[:-1])
        self.bad(5, self.lines[:4] + [record(0x881, b'\2'), END])
        self.bad(6, self.lines + [record(0x8A0, b'\4')])
        self.bad(5, self.lines[:4] + [record(0xFFF, bytes([0x88, 0])), END])
        self.bad(5, self.lines[:4] + [record(0x1000, b'\0'), END])
        self.bad(5, self.lines[:4] + [record(0xFFFF, bytes(2)), END])

    def test_number_of_a_late_line(self):
        many = [record(0x900 + i, b'\0') for i in range(256)] * 4
        self.bad(1025, many + [':'] + self.lines)

    def test_the_same_byte_twice(self):
        again = self.hex(self.lines[:4] + [record(0x881, b'\1'), END])
        self.accepted(2, 'check', '--wired', 'nmi', again)

    def test_below_800h(self):
        """A byte below 800h makes the image one of 4K, and the answer says so; the part of 2K has no such byte."""
        lines = self.lines[:2] + [record(0x7FF, b'\4')] + self.lines[2:]
        self.bad(3, lines, '--rom', '2K')
        ended = self.accepted(2, 'check', '--wired', 'nmi', self.hex(lines))
        self.assertRegex(ended.out, '4K|4096')
        ended = self.accepted(2, 'check', '--wired', 'nmi', PUMP)
        self.assertRegex(ended.out, '2K|2048')

    def test_fill(self):
        """Bytes that a HEX file does not name; its marks have none but 00h."""
        for fill in ('00', 'FF', 'ff', '04'):
            raw = self.file('image', bytes(byte or int(fill, 16) for byte in self.image))
            want = self.accepted(2, 'check', '--wired', 'nmi', raw)
            ended = self.accepted(2, 'check', '--wired', 'nmi', '--fill', fill, PUMP)
            self.assertEqual(ended.first, want.first)
            self.accepted(2, 'check', '--wired', 'nmi', '--fill', fill, '--marks', MARKS, PUMP)

    def test_random_images(self):
        """HEX of records of all lengths, in any order, answers as raw does."""
        rng = random.Random(62)
        for size in (2048, 4096):
            for _ in range(40):
                image = bytes([0]) + rng.randbytes(size - 1)
                self.both(rng, image, ','.join(rng.sample(SOURCES, rng.randint(1, 5))))

    def both(self, rng, image, wired):
        lines = records(image, rng)
        if rng.random() < 0.5:
            lines = [line.lower() for line in lines]
        raw, coded = self.file('image.bin', image), self.hex(lines)
        one, other = (st62('check', '--wired', wired, path) for path in (raw, coded))
        self.assertEqual((one.code, one.first, one.err), (other.code, other.first, other.err), image.hex())
        self.assertIn(one.code, (0, 1))
        return one

    def test_random_programs(self):
        """Programs that need known levels, their other bytes by chance."""
        rng = random.Random(6)
        met = set()
        for _ in range(120):
            program = Program(rng, rng.choice((2048, 4096)))
            ended = self.both(rng, program.image, program.wired_list())
            met.add(program.levels)
            self.assertEqual(ended.code, 0 if program.levels <= 6 else 1, (program.levels, program.image.hex()))
            self.assertRegex(ended.first, rf'^accepted {program.levels}\b' if program.levels <= 6 else r'^refused\b')
        self.assertGreaterEqual(met, set(range(9)))

    def test_crc(self):
        rng = random.Random(32)
        images = [self.image] + [Program(rng, size).image for size in (2048, 4096) for _ in range(5)]
        for image in images:
            crc = f'{zlib.crc32(image):08x}'
            for path in (self.file('image.bin', image), self.hex(records(image, rng))):
                ended = st62('check', '--wired', 'none', path)
                self.assertIn(crc, re.findall('[0-9a-f]{8}', ended.out.lower()), ended.out)


class Answers(Command):
    """What is answered, for the examples and for calls that differ in words only."""

    def test_examples(self):
        self.accepted(2, 'check', '--wired', 'nmi', '--marks', MARKS, PUMP)
        self.accepted(1, 'check', '--wired', 'none', PUMP)
        self.accepted(1, 'check', '--wired', 'none', GAUGE)
        self.accepted(6, 'check', '--wired', '1', DEEP)
        self.accepted(5, 'check', '--wired', 'nmi', DEEP)
        self.refused('check', '--wired', 'nmi,1', DEEP)
        self.refused('check', '--wired', 'nmi', GAUGE)

    def test_refused_marks(self):
        """P12, and a vector without a mark: number and address as the job program prints them."""
        ended = self.refused('check', '--wired', 'nmi', '--marks', os.path.join('tests', 'st62', 'p12_marks.hex'), PUMP)
        self.assertRegex(ended.first, r'^refused 17 883\b')
        ended = self.refused('check', '--wired', 'nmi,1', '--marks', MARKS, PUMP)
        self.assertRegex(ended.first, r'^refused 18 FF6\b')

    def test_wired(self):
        want = st62('check', '--wired', '1,2', DEEP)
        self.assertEqual(st62('check', '--wired', '2,1', DEEP).out, want.out)
        for words in ('5', '0', '', ',', 'nmi,', ',nmi', 'nmi,5', 'none,nmi', 'nmi,none', '1 2', '12', 'all', 'nm', 'nmii', '-1', '01'):
            with self.subTest(wired=words):
                self.misused('check', '--wired', words, PUMP)
                self.misused('certify', '--wired', words, PUMP, '-o', self.path('out'))
                self.misused('list', '--wired', words, PUMP)
        self.assertEqual(os.listdir(self.folder), [])

    def test_a_source_named_twice(self):
        """Taken as once, or not at all."""
        ended = st62('check', '--wired', 'nmi,nmi', PUMP)
        self.assertIn((ended.code, ended.first[:10]), ((0, 'accepted 2'), (2, '')))

    def test_options_stand_anywhere(self):
        want = st62('check', '--wired', 'nmi', '--marks', MARKS, PUMP).out
        for words in (('--marks', MARKS, '--wired', 'nmi', PUMP), (PUMP, '--wired', 'nmi', '--marks', MARKS),
                      ('--marks', MARKS, PUMP, '--wired', 'nmi')):
            self.assertEqual(st62('check', *words).out, want)
        want = st62('trace', PUMP, '--steps', '5').out
        self.assertEqual(st62('trace', '--steps', '5', PUMP).out, want)

    def test_quiet(self):
        """Says less, and ends as without."""
        for words in (('check', '--wired', 'nmi', PUMP), ('check', '--wired', 'nmi,1', DEEP), ('list', '--wired', 'nmi', PUMP),
                      ('trace', PUMP, '--steps', '5'), ('size', GAUGE, '--count', '5'), ('play', PUMP, RECORD)):
            loud, quiet = st62(*words), st62(*words, '--quiet')
            self.assertEqual((quiet.code, quiet.err), (loud.code, loud.err), words)
            self.assertLessEqual(len(quiet.out), len(loud.out), words)

    def test_marks_of_a_4k_image(self):
        """HEX marks are as many as the image has bytes."""
        self.accepted(2, 'check', '--wired', 'nmi', '--rom', '4K', '--marks', MARKS, PUMP)
        lines = read(PUMP).split()
        below = self.file('below.hex', [record(0, b'\4')] + lines)
        self.accepted(2, 'check', '--wired', 'nmi', '--marks', MARKS, below)
        marks = self.file('marks.hex', [record(0, b'\x20')] + read(MARKS).split())
        self.failed_at(1, marks, 'check', '--wired', 'nmi', '--marks', marks, PUMP)

    def test_raw_marks_of_another_length(self):
        for length in (0, 2047, 2049, 4096):
            ended = st62('check', '--wired', 'nmi', '--marks', self.file('marks', bytes(length)), PUMP)
            self.assertIn(ended.code, (1, 2))
            self.assertFalse(ended.first.startswith('accepted'))

    def test_width(self):
        """The width by the example's own formula, in millimetres with one decimal."""
        table = from_records(read(GAUGE).split(), 2048)[0x100:0x140]
        for count in (*range(0, 256, 17), 1, 2, 3, 4, 127, 128, 254):
            tenths = 900 + 3 * count + table[count // 4]
            ended = st62('size', GAUGE, '--count', str(count))
            self.assertEqual((ended.code, ended.err), (0, ''))
            self.assertRegex(ended.first, rf'(?<![\d.]){tenths // 10}\.{tenths % 10}(?![\d.])')

    def test_trace(self):
        """One line a step, until the program stops."""
        self.assertGreaterEqual(st62('trace', PUMP, '--steps', '500').out.count('\n'), 500)
        ended = st62('trace', DEEP, '--steps', '40', '--request', '22=1', '--request', '30=nmi')
        self.assertEqual(ended.code, 1)
        self.assertIn('8D1', ended.out + ended.err)

    def test_play(self):
        ended = st62('play', PUMP, RECORD)
        self.assertEqual((ended.code, ended.err), (0, ''))
        self.assertRegex(ended.out, r'\b9\b')
        self.assertRegex(ended.out, r'\b19\b')

    def test_longest_record(self):
        """Version 2, 1,048,576 bytes of entries: all of them steps; one more is refused."""
        body = bytes(1 << 20)
        ended = st62('play', PUMP, self.file('long.rec', b'\2\x10\0\0' + body))
        self.assertEqual((ended.code, ended.err), (0, ''))
        self.assertIn('524288', ended.out.replace(',', ''))
        ended = st62('play', PUMP, self.file('longer.rec', b'\2\x10\0\2' + body + bytes(2)))
        self.assertIn(ended.code, (1, 2))


class Pages(Command):
    """Raw images of several pages. The main code of all calls 3F0h, which each page has by itself."""

    FIXED = {0xFFE: jump(9, 0x880), 0x880: [0x4D] + jump(1, 0x3F0) + jump(9, 0x881)}
    RET, RETI, UNDEFINED = [0xCD], [0x4D], [0x05]

    def image(self, *codes, **more):
        """An image whose pages have these codes at 3F0h; `page` and `fixed` have what else there is."""
        pages = [{0x3F0: code, **more.get('page', {})} for code in codes]
        return self.file('image', halves(*pages, {**self.FIXED, **more.get('fixed', {})}))

    def marks(self, marked):
        """Raw marks: those of the main code, of kind 4 at 3F0h, and these."""
        marks = bytearray(SPACE)
        for address, mark in {0xFFE: 0x11, 0x880: 0x11, 0x881: 0x21, 0x883: 0x21, 0x3F0: 0x40, **marked}.items():
            marks[address] = mark
        return self.file('marks', bytes(marks))

    def test_sizes(self):
        for pages in range(2, 10):
            path = self.image(*[self.RET] * pages)
            ended = self.accepted(1, 'check', '--wired', 'none', path)
            self.assertIn(f'image: {2 * pages + 2}K, {pages} pages and the fixed half, by the file\'s size; CRC-32 ', ended.out)
            self.assertIn(f'{zlib.crc32(read(path, "rb")):08X}', ended.out)
            self.assertEqual(st62('check', '--wired', 'none', '--raw', path).out, ended.out)
            for size in ('2K', '4K'):
                self.failed_on(path, 'check', '--wired', 'none', '--rom', size, path)

    def test_code_in_the_fixed_half(self):
        """What no code reaches does not matter: the answer is that of the fixed half alone, an image of 2K."""
        rng = random.Random(210)
        for pages in range(2, 10):
            program = Program(rng, HALF)
            paged = self.file('paged', bytes([0]) + rng.randbytes(pages * HALF - 1) + program.image)
            ended = st62('check', '--wired', program.wired_list(), paged)
            want = st62('check', '--wired', program.wired_list(), self.file('fixed', program.image))
            self.assertEqual((ended.code, ended.first, ended.err), (want.code, want.first, ''))

    def test_certificates(self):
        """4096 marks, however many pages there are, which the check accepts; each listed page has a line for 3F0h."""
        for pages in range(2, 10):
            path, out = self.image(*[self.RET] * pages), self.path(f'{pages}.marks')
            self.accepted(1, 'certify', '--wired', 'none', path, '-o', out)
            self.assertEqual(read(out, 'rb'), read(self.marks({}), 'rb'))
            self.accepted(1, 'check', '--wired', 'none', '--marks', out, path)
            listed = st62('list', '--marks', out, path).out.split('\n')
            self.assertEqual([line[:5] for line in listed[:pages]], [f'{page}:3F0' for page in range(pages)])
            self.assertEqual([line[:3] for line in listed[pages:pages + 4]], ['880', '881', '883', 'FFE'])

    def test_marks_of_another_length(self):
        path = self.image(self.RET, self.RET)
        for length in (0, HALF, SPACE - 1, SPACE + 1, 3 * HALF):
            ended = self.refused('check', '--wired', 'none', '--marks', self.file('marks', bytes(length)), path)
            self.assertEqual(ended.out.split('\n')[:2], ['refused 13', 'there must be 4096 marks, one for each address'])

    def test_marks_in_hex(self):
        marks = self.file('marks.hex', records(read(self.marks({}), 'rb')))
        self.accepted(1, 'check', '--wired', 'none', '--marks', marks, self.image(self.RET, self.RET))

    def reason(self, lines, *words):
        """The lines from the answer on, up to the one that says with which page it was found."""
        ended = self.refused(*words)
        self.assertEqual(ended.out.split('\n')[:len(lines)], lines)

    def test_no_certificate(self):
        """26: the first rule that cannot be met, with the first page with which it cannot."""
        begun = 'no marks are accepted; those of all code that can be reached: '
        self.reason(['refused 26', begun + 'refused 5 3F0', 'the byte 05 at 2:3F0 is no instruction', 'with page 2 in place'],
                    'check', '--wired', 'none', self.image(self.RET, self.RET, self.UNDEFINED, self.UNDEFINED))
        self.reason(['refused 26', begun + 'refused 15 3F0', 'RETI at 1:3F0 stands in code of kind subroutine (mark 40)',
                     'RET stands only in subroutines, RETI only in start-up and service code', 'with page 1 in place'],
                    'check', '--wired', 'none', self.image(self.RET, self.RETI))
        self.reason(['refused 26', begun + 'refused 17 3F0',
                     'CALL 3F0h at 1:3F0 leads deeper than six levels, or into a subroutine that calls itself', 'with page 1 in place'],
                    'check', '--wired', 'none', self.image(self.RET, jump(1, 0x3F0) + self.RET, page={0x3F2: self.RET}))

    def test_reached_in_one_page(self):
        """What one page leads to is marked for all: 400h, where another page has nothing that may stand there."""
        path = self.image(self.RET, jump(9, 0x400), page={0x400: self.RET})
        self.accepted(1, 'check', '--wired', 'none', path)
        path = self.file('image', halves({0x3F0: self.RET, 0x400: self.UNDEFINED}, {0x3F0: jump(9, 0x400), 0x400: self.RET}, self.FIXED))
        self.reason(['refused 26', 'no marks are accepted; those of all code that can be reached: refused 5 400',
                     'the byte 05 at 0:400 is no instruction', 'with page 0 in place'], 'check', '--wired', 'none', path)

    def test_refused_marks(self):
        """16 and 17 with marks that are given: the instruction and where it leads, in the page with which it was found."""
        path = self.image(self.RET, self.RET, jump(9, 0x400), page={0x400: self.RET})
        self.reason(['refused 16 3F0', 'JP 400h at 2:3F0 leads to 2:400, which is unmarked (mark 00)',
                     'there must be a mark of kind subroutine', 'with page 2 in place'],
                    'check', '--wired', 'none', '--marks', self.marks({}), path)
        self.reason(['refused 17 3F0', 'JP 400h at 2:3F0 needs 1 further level; its mark allows 0',
                     'it leads to 2:400, which is subroutine (mark 41)', 'with page 2 in place'],
                    'check', '--wired', 'none', '--marks', self.marks({0x400: 0x41}), path)

    def test_no_page_in_words(self):
        """A mark and a vector stand for all pages."""
        path = self.image(self.RET, self.RET)
        for marked, wired, lines in (({0x3F0: 0x77}, 'none', ['refused 14 3F0', 'the mark at 3F0 is malformed: ']),
                                     ({}, 'nmi', ['refused 18 FFC', 'the vector FFC is unmarked'])):
            ended = self.refused('check', '--wired', wired, '--marks', self.marks(marked), path)
            self.assertEqual(ended.first, lines[0])
            self.assertIn(lines[1], ended.out)
            self.assertNotIn('in place', ended.out)

    def test_fixed_half_that_depends_on_the_page(self):
        """JP at FFFh has its second byte at 000h: 88h in page 0, 99h in page 1."""
        image = halves({0: [0x88]}, {0: [0x99]}, {0xFFE: [0x04, 0x09], 0x880: [0x4D] + jump(9, 0x881)})
        marks = bytearray(SPACE)
        marks[0xFFE] = marks[0xFFF] = marks[0x880] = 0x10
        marks[0x881] = 0x20
        self.reason(['refused 16 FFF', 'JP 990h at FFF leads to 990, which is unmarked (mark 00)',
                     'there must be a mark of kind start-up', 'with page 1 in place'],
                    'check', '--wired', 'none', '--marks', self.file('marks', bytes(marks)), self.file('image', image))

    def test_trace(self):
        """A change of page in a page: the next instruction is the other page's. The ROM window shows it too."""
        image = self.file('image', halves(
            {0x100: [0x4D, 0x0D, 0xC9, 0x04, 0x1F, 0x40, 0x0D, 0xCA, 0x03]},
            {0x100: [0x77], 0x109: [0x1F, 0x40, 0xCD]}, {0xFFE: jump(9, 0x100)}))
        lines = st62('trace', image, '--steps', '9').out.split('\n')
        self.assertEqual([line.split()[1:4] for line in lines[:6]],
                         [['FFE', 'JP', '100h'], ['0:100', 'RETI', '-'], ['0:101', 'LDI', 'C9h,04h'], ['0:104', 'LD', 'A,40h'],
                          ['0:106', 'LDI', 'CAh,03h'], ['1:109', 'LD', 'A,40h']])
        self.assertIn(' ROM 0:100 levels 0, 4 cycles; A 4D', lines[3])
        self.assertIn(' ROM 1:100 levels 0, 4 cycles; A 77', lines[5])
        self.assertEqual(lines[6:9], ['refused 7 10B', 'a pop of an empty stack at 1:10B', 'with page 1 in place'])

    def test_play(self):
        """The PC at the end with its page, return addresses without."""
        ended = st62('play', PAGES, os.path.join('tests', 'st62', 'in_page.rec'))
        self.assertEqual(ended.code, 0)
        self.assertIn('\nPC 1:001, mode normal\nlevels: 1 899\n', ended.out)

    def test_size(self):
        """23 before marks are read or made, also where there are none."""
        for image in (PAGES, self.image(self.UNDEFINED, self.RET)):
            for words in ((), ('--marks', self.marks({}))):
                ended = self.refused('size', image, '--count', '1', *words)
                self.assertEqual(ended.out.split('\n')[:2], ['refused 23', 'the gauge takes images of 2K and 4K only'])

    def test_little_stack(self):
        """A stack of 2 MiB is enough for the largest image."""
        def limit():
            resource.setrlimit(resource.RLIMIT_STACK, (2 << 20, 2 << 20))
        path = self.image(*[self.RET] * 9)
        for words in (('check', '--wired', 'nmi', path), ('check', '--wired', 'none', '--marks', self.marks({}), path), ('list', path),
                      ('trace', path, '--steps', '20'), ('size', path, '--count', '1'), ('play', path, RECORD)):
            self.assertIn(st62(*words, preexec_fn=limit).code, (0, 1), words)


class Services(Command):
    """In a trace: where a taken request comes back to, and which request a RETI ends. All services call 8F0h, and so
    does the main code, which then sleeps."""

    FIXED = {0xFFE: jump(9, 0x880), 0x880: [0x0D, 0xC8, 0x10, 0x4D] + jump(1, 0x8F0) + [0x6D] + jump(9, 0x884), 0x8F0: [0x04, 0xCD],
             **{vector: jump(9, 0x900 + vector % 256) for vector in VECTORS.values()},
             **{0x900 + vector % 256: jump(1, 0x8F0) + [0x4D] for vector in VECTORS.values()}}

    def traced(self, image, requests):
        """The lines of the steps, their last one left out."""
        words = [word for request in requests for word in ('--request', request)]
        ended = st62('trace', image, '--steps', '400', *words)
        self.assertEqual((ended.code, ended.err), (0, ''))
        return ended.out.split('\n')[:400]

    def follow(self, lines):
        """The requests whose services ended, each followed from its taking by a stack of our own."""
        begun, ended = [], []
        for line, after in zip(lines, lines[1:]):
            taken = re.search(r' takes (nmi|[1-4]) .*; comes back to ([0-9A-F]{3})$', line)
            end = re.search(r' RETI .*; ends (nmi|[1-4])$', line)
            self.assertEqual(bool(taken or end), 'comes back' in line or 'ends' in line, line)
            if taken:
                begun.append((taken[1], taken[2]))
                self.assertEqual(taken[2], line.split()[1][-3:])
            if end:
                self.assertEqual((end[1], after.split()[1][-3:]), begun.pop(), line)
                ended.append((end[1], len(begun)))
        return ended

    def random_requests(self, rng):
        return [f'{step}={rng.choice(SOURCES)}' for step in range(400) if rng.random() < 0.2]

    def test_followed(self):
        """Of every source in normal mode, and of NMI within another service."""
        image = self.file('image', halves(self.FIXED))
        self.accepted(5, 'check', '--wired', ','.join(SOURCES), image)
        rng, ended = random.Random(214), set()
        for _ in range(20):
            ended.update(self.follow(self.traced(image, self.random_requests(rng))))
        self.assertEqual(ended, {(source, 0) for source in SOURCES} | {('nmi', 1)})

    def test_pages(self):
        """NMI's service changes the page: the address it comes back to has no page in its line."""
        loop = {0x3F0: jump(9, 0x3F0)}
        image = self.file('image', halves(loop, loop, {
            0xFFE: jump(9, 0x880), 0x880: [0x4D] + jump(9, 0x3F0), 0xFFC: jump(9, 0x890), 0x890: [0x0D, 0xCA, 0x01, 0x4D]}))
        self.accepted(1, 'check', '--wired', 'nmi', image)
        lines = self.traced(image, ['3=nmi'])
        self.assertEqual(self.follow(lines), [('nmi', 0)])
        self.assertTrue(lines[3].endswith('; comes back to 3F0'), lines[3])
        self.assertEqual([lines[step].split()[1] for step in (3, 7)], ['0:3F0', '1:3F0'])

    def test_start_up(self):
        """The RETI of start-up ends no request, and one that stops has no line."""
        lines = st62('trace', PUMP, '--steps', '2').out.split('\n')
        self.assertNotIn('ends', lines[1])
        ended = st62('trace', self.file('image', halves({0xFFE: [0x4D, 0x4D]})), '--steps', '3')
        self.assertNotIn('ends', ended.out)


class Certificates(Command):
    """Certificates that are written and read back."""

    def certified(self, image, wired):
        out = self.path('made.marks')
        ended = st62('certify', '--wired', wired, image, '-o', out)
        if ended.code == 0:
            self.assertEqual(ended.err, '')
        else:
            self.assertEqual(ended.code, 1, ended.err)
            self.assertFalse(os.path.exists(out), 'a refusal left a file')
        return ended, out

    def test_pump(self):
        _, out = self.certified(PUMP, 'nmi')
        self.assertEqual(read(out, 'rb'), from_records(read(MARKS).split(), 2048))

    def test_read_back(self):
        """Check with the certificate answers as check without; one mark for each ROM byte."""
        rng = random.Random(202)
        for _ in range(40):
            program = Program(rng, rng.choice((2048, 4096)))
            image = self.file('image', program.image)
            made, out = self.certified(image, program.wired_list())
            want = st62('check', '--wired', program.wired_list(), image)
            self.assertEqual(made.code, want.code)
            if made.code == 0:
                self.assertEqual(os.path.getsize(out), len(program.image))
                back = st62('check', '--wired', program.wired_list(), '--marks', out, image)
                self.assertEqual((back.code, back.first, back.err), (want.code, want.first, ''))
                listed = st62('list', '--marks', out, image)
                self.assertEqual(listed.out, st62('list', '--wired', program.wired_list(), image).out)
                os.remove(out)

    def test_no_file_is_written_over(self):
        image = self.file('pump.hex', read(PUMP, 'rb'))
        for out in (image, os.path.join(self.folder, '.', 'pump.hex'), self.file('made.marks', b'old')):
            before = read(out, 'rb')
            self.assertEqual(st62('certify', '--wired', 'nmi', image, '-o', out).code, 2)
            self.assertEqual(read(out, 'rb'), before)

    def test_a_cut_file_is_removed(self):
        out = self.path('made.marks')

        def limit():
            signal.signal(signal.SIGXFSZ, signal.SIG_IGN)
            resource.setrlimit(resource.RLIMIT_FSIZE, (1000, 1000))
        self.assertEqual(st62('certify', '--wired', 'nmi', PUMP, '-o', out, preexec_fn=limit).code, 2)
        self.assertFalse(os.path.exists(out))

    def test_a_refusal_keeps_the_old_file(self):
        out = self.file('made.marks', b'old')
        self.assertEqual(st62('certify', '--wired', 'nmi,1', DEEP, '-o', out).code, 1)
        self.assertEqual(st62('certify', '--wired', 'nmi', self.path('none'), '-o', out).code, 2)
        self.assertEqual(read(out), 'old')

    def test_outputs_that_cannot_be_written(self):
        for out in (self.folder, '/dev/full', self.path('none/made.marks'), ''):
            with self.subTest(out=out):
                ended = st62('certify', '--wired', 'nmi', PUMP, '-o', out)
                self.assertEqual(ended.code, 2, ended.out)
                self.assertTrue(ended.err.startswith('st62: '), ended.err)
                self.assertNotRegex(ended.first, r'^accepted')


def limited(length):
    """Files of at most so many bytes: a write beyond is short, and the next one fails."""
    def limit():
        signal.signal(signal.SIGXFSZ, signal.SIG_IGN)
        resource.setrlimit(resource.RLIMIT_FSIZE, (length, length))
    return limit


class Outputs(Command):
    """Answers that cannot be written: exit status 2 and a message, never 0 or 1."""

    CALLS = (('check', '--wired', 'nmi', PUMP), ('check', '--wired', 'nmi,1', DEEP), ('list', '--wired', 'nmi', PUMP),
             ('trace', PUMP, '--steps', '5'), ('size', GAUGE, '--count', '5'), ('play', PUMP, RECORD))
    CLOSED = ('sh', '-c', 'exec "$0" "$@" >&-')
    BOTH_CLOSED = ('sh', '-c', 'exec "$0" "$@" >&- 2>&-')

    def unwritten(self, ended, words):
        self.assertEqual(ended.code, 2, words)
        self.assertTrue(ended.err.startswith('st62: '), (words, ended.err))

    def test_closed(self):
        for words in self.CALLS:
            self.unwritten(st62(*words, by=self.CLOSED), words)
            self.assertEqual(st62(*words, by=self.BOTH_CLOSED).code, 2, words)

    def test_closed_and_a_certificate(self):
        """The file that is opened may get the number of standard output: the answer must not end up in it."""
        out = self.path('made.marks')
        ended = st62('certify', '--wired', 'nmi', PUMP, '-o', out, by=self.CLOSED)
        self.assertIn(ended.code, (0, 2))
        if os.path.exists(out):
            self.assertIn(os.path.getsize(out), (0, 2048))

    def test_full(self):
        for words in self.CALLS:
            with open('/dev/full', 'wb') as full:
                self.unwritten(st62(*words, stdout=full), words)

    def test_pipe_without_a_reader(self):
        """Where the signal is ignored, the write fails."""
        for words in self.CALLS:
            source, sink = os.pipe()
            os.close(source)
            self.unwritten(st62(*words, stdout=sink, restore_signals=False), words)
            os.close(sink)

    def test_short_writes(self):
        """The first write is cut, so the answer is not whole."""
        for words in self.CALLS:
            whole = len(st62(*words).out)
            for length in {0, 1, whole - 1}:
                with open(self.path('out'), 'wb') as out:
                    self.unwritten(st62(*words, stdout=out, preexec_fn=limited(length)), (words, length))
        for length in (0, 1, 2047):
            ended = st62('certify', '--wired', 'nmi', PUMP, '-o', self.path('made.marks'), preexec_fn=limited(length))
            self.unwritten(ended, length)

    def test_standard_error_is_closed(self):
        closed = ('sh', '-c', 'exec "$0" "$@" 2>&-')
        self.assertEqual(st62('check', by=closed).code, 2)
        self.assertEqual(st62('check', '--wired', 'nmi', self.path('none'), by=closed).code, 2)
        self.assertEqual(st62('check', '--wired', 'nmi', PUMP, by=closed).code, 0)


class Usage(Command):
    """Calls that are no calls."""

    def test_words(self):
        for words in ((), ('',), ('burn',), ('--wired', 'nmi', PUMP), ('check',), ('check', PUMP), ('check', '--wired', 'nmi'),
                      ('check', '--wired', 'nmi', PUMP, PUMP), ('check', '--wired', 'nmi', '--fast', PUMP),
                      ('check', '--wired', 'nmi', '-x', PUMP), ('check', PUMP, '--wired'), ('check', '--wired', 'nmi', PUMP, '--marks'),
                      ('certify', PUMP, '-o', 'x'), ('certify', '--wired', 'nmi', PUMP), ('certify', '--wired', 'nmi', PUMP, '-o'),
                      ('certify', '--wired', 'nmi', '-o', 'x'), ('list',), ('trace', PUMP), ('trace', '--steps', '5'),
                      ('size', PUMP), ('size', '--count', '5'), ('play',), ('play', PUMP), ('play', PUMP, RECORD, RECORD)):
            with self.subTest(words=words):
                self.misused(*words)
        self.assertFalse(os.path.exists(os.path.join(ROOT, 'x')))

    def test_numbers(self):
        """Numbers beyond their range are not taken modulo it."""
        beyond = ('-1', '+1', '', ' ', '1x', 'x', '0x1', '1.0', '4294967296', '4294967297', '18446744073709551617', '9' * 400)
        for number in (*beyond, '256', '257'):
            with self.subTest(count=number):
                self.assertEqual(st62('size', GAUGE, '--count', number).code, 2)
        for number in beyond:
            with self.subTest(steps=number):
                self.misused('trace', PUMP, '--steps', number)
        for number in ('100', 'G0', '', '-1', '0x1', '1FF', '100000000', '10000000000000000'):
            with self.subTest(fill=number):
                self.misused('check', '--wired', 'nmi', '--fill', number, PUMP)
        for size in ('', '2', '2k ', '8K', '2048', '2KK'):
            with self.subTest(rom=size):
                self.misused('check', '--wired', 'nmi', '--rom', size, PUMP)

    def test_requests(self):
        for request in ('', '3', '=', '3=', '=nmi', 'x=nmi', '3=5', '3=0', '3=none', '-1=nmi', '3==nmi', '3=nmi=1', '4294967299=nmi'):
            with self.subTest(request=request):
                self.misused('trace', PUMP, '--steps', '5', '--request', request)


def main(words):
    if '--accept' in words:
        return accept()
    for case in cases():
        setattr(Stored, f'test_{case[0]}', stored_test(*case))
    unittest.main(argv=[sys.argv[0], *words])


if __name__ == '__main__':
    sys.exit(main(sys.argv[1:]))
