#!/usr/bin/env python3
"""Tests of tools/make_job.py: the job that it writes, and all that it refuses, with nothing written then."""
import contextlib
import io
import os
import subprocess
import sys
import tempfile
import unittest

HERE = os.path.dirname(os.path.abspath(__file__))
TOOLS = os.path.join(HERE, '..', 'tools')
P11 = os.path.join(HERE, '..', 'crates', 'job', 'stdin')
sys.dont_write_bytecode = True
sys.path.insert(0, TOOLS)
import make_job

END = ':00000001FF'
IMAGE = [':050880004D01891988FB', ':01089000CD9A', ':010FFC004DA7', ':020FFE00098860', END]
MARKS = [':040880001121002121', ':010890004027', ':010FFC0030C4', ':010FFE0011E1', END]


def record(address, data, kind=0):
    """A HEX record with its checksum."""
    fields = bytes([len(data), address // 256, address % 256, kind]) + data
    return ':' + (fields + bytes([-sum(fields) % 256])).hex().upper()


class MakeJob(unittest.TestCase):
    def setUp(self):
        folder = tempfile.TemporaryDirectory()
        self.addCleanup(folder.cleanup)
        self.folder = folder.name
        with open(P11, 'rb') as file:
            self.p11 = file.read()
        self.image = self.file('image.hex', IMAGE)
        self.marks = self.file('marks.hex', MARKS)
        self.job = self.path('job')

    def path(self, name):
        return os.path.join(self.folder, name)

    def file(self, name, content):
        """A file of lines or of bytes; gives its path."""
        if not isinstance(content, bytes):
            content = ('\n'.join(content) + '\n').encode()
        with open(self.path(name), 'wb') as file:
            file.write(content)
        return self.path(name)

    def made(self, *words):
        """Exit code, and what was printed as an error."""
        errors = io.StringIO()
        with contextlib.redirect_stderr(errors):
            code = make_job.main(list(words))
        return code, errors.getvalue()

    def written(self):
        with open(self.job, 'rb') as file:
            return file.read()

    def accepted(self, *words):
        self.assertEqual(self.made(*words), (0, ''))
        return self.written()

    def refused(self, text, *words):
        """The call is refused with a text on one line, and no job is written."""
        code, errors = self.made(*words)
        self.assertEqual(code, 2)
        self.assertIn(text, errors)
        self.assertTrue(errors.startswith('make_job.py: '), errors)
        self.assertEqual(errors.count('\n'), 1, errors)
        self.assertNotIn('Errno', errors)
        self.assertFalse(os.path.exists(self.job))

    def refused_hex(self, text, lines, size='2K'):
        self.refused(text, '--size', size, '01', self.file('bad.hex', lines), self.marks, self.job)

    def test_p11_from_hex(self):
        self.assertEqual(self.accepted('--size', '2K', '01', self.image, self.marks, self.job), self.p11)

    def test_p11_from_raw(self):
        image, marks = self.file('image', self.p11[4:2052]), self.file('marks.bin', self.p11[2052:])
        self.assertEqual(self.accepted('1', image, marks, self.job), self.p11)
        self.assertEqual(self.accepted('--size', '2K', '01', image, self.marks, self.job), self.p11)

    def test_4k(self):
        job = self.accepted('--size', '4K', '1f', self.image, self.marks, self.job)
        self.assertEqual(job[:4], bytes([1, 0x20, 0x01, 0x1F]))
        self.assertEqual(job[4:], bytes(2048) + self.p11[4:2052] + bytes(2048) + self.p11[2052:])

    def test_standard_output(self):
        words = [sys.executable, os.path.join(TOOLS, 'make_job.py'), '--size', '2K', '01', self.image, self.marks, '-']
        self.assertEqual(subprocess.run(words, capture_output=True, check=True).stdout, self.p11)
        with open('/dev/full', 'wb') as full:
            done = subprocess.run(words, stdout=full, stderr=subprocess.PIPE)
        self.assertEqual((done.returncode, done.stderr), (2, b'make_job.py: standard output: no space left on device\n'))

    def test_hex_that_is_good(self):
        base = [record(0, bytes(2), 2), record(0, bytes(2), 4)]
        again = [record(0x880, bytes([0x4D, 0x01])), '', record(0x1234, b'', 1).lower() + ' \r']
        lines = base + [line.lower() + '\r' for line in IMAGE[:-1]] + again
        image = self.file('IMAGE.IHX', lines)
        self.assertEqual(self.accepted('--size', '2K', '01', image, self.marks, self.job), self.p11)

    def test_hex_outside_the_image(self):
        self.refused_hex('bad.hex: line 2: address 7FFh is outside the image, 800h to FFFh', ['', record(0x7FF, b'\0'), END])
        self.refused_hex('line 1: address 1000h is outside', [record(0xFFF, bytes(2)), END])
        self.refused_hex('line 1: address 1000h is outside the image, 000h to FFFh', [record(0x1000, b'\1'), END], '4K')
        self.refused_hex('line 1: address FFFFh is outside', [record(0xFFFF, bytes(2)), END])

    def test_hex_records(self):
        self.refused_hex('line 1: wrong checksum', [':050880004D01891988FC', END])
        for line in ('050880004D01891988FB', ':050880004D018919 88FB', ':0508', ':', ':0G', 'S1137AF00A0A0D00', ':0\u0660'):
            self.refused_hex('line 2: not a HEX record', [IMAGE[1], line, END])
        self.refused_hex('line 1: not a HEX record, or one of another length', [':060880004D01891988FA', END])
        self.refused_hex('line 1: a base address other than 0', [record(0, bytes([0, 1]), 4), END])
        self.refused_hex('line 1: a base address other than 0', [record(0, bytes([0x10, 0]), 2), END])
        self.refused_hex('line 1: a base address other than 0', [record(0, b'', 2), END])
        self.refused_hex('line 1: a record of type 05', [record(0, bytes(4), 5), END])
        self.refused_hex('line 2: a line after the end record', [END, IMAGE[0]])
        self.refused_hex('line 1: an end record with data', [record(0, b'\0', 1)])

    def test_hex_overlap(self):
        self.refused_hex('line 2: address 881h has 01h already, and now 02h', [IMAGE[0], record(0x881, b'\2'), END])

    def test_hex_without_end(self):
        self.refused_hex('bad.hex: no end record', IMAGE[:-1])
        self.refused_hex('bad.hex: no end record', b'')

    def test_hex_needs_a_size(self):
        self.refused('image.hex: a HEX file does not say the size of its part', '01', self.image, self.marks, self.job)

    def test_sizes(self):
        for length in (0, 2047, 2049, 4095, 4097):
            image = self.file('image.bin', bytes(length))
            self.refused(f'image.bin: {length} bytes, where', '01', image, self.marks, self.job)
        two, four = self.file('two', bytes(2048)), self.file('four', bytes(4096))
        self.refused('four: 4096 marks for an image of 2048 bytes', '01', two, four, self.job)
        self.refused('two: 2048 bytes, where 4096 are wanted', '--size', '4K', '01', two, self.marks, self.job)
        large = self.file('large.hex', b'\n' * 65537)
        self.refused('large.hex: 65537 bytes', '--size', '2K', '01', large, self.marks, self.job)

    def test_sizes_come_before_reading(self):
        huge = self.path('huge')
        with open(huge, 'wb') as file:
            file.truncate(1 << 40)
        self.refused(f'huge: {1 << 40} bytes', '01', huge, self.marks, self.job)
        self.refused('not a plain file', '01', self.folder, self.marks, self.job)
        self.refused('not a plain file', '01', '/dev/zero', self.marks, self.job)

    def test_wired(self):
        for word in ('20', 'FF', '80'):
            self.refused(f'{word}: there are five sources', '--size', '2K', word, self.image, self.marks, self.job)
        for word in ('', '001', '0x1', 'g', '+1', '\u0661'):
            self.refused('one or two hexadecimal digits', '--size', '2K', word, self.image, self.marks, self.job)

    def test_no_such_file(self):
        missing = self.path('pump.hex')
        self.refused(f'make_job.py: {missing}: no such file\n', '--size', '2K', '01', missing, self.marks, self.job)
        elsewhere = os.path.join(self.folder, 'none', 'job')
        self.refused(f'{elsewhere}: no such folder', '--size', '2K', '01', self.image, self.marks, elsewhere)
        self.refused('is a directory', '--size', '2K', '01', self.image, self.marks, self.folder)

    def test_output_that_is_an_input(self):
        linked, also = self.path('linked'), self.path('also')
        os.symlink(self.marks, linked)
        os.link(self.image, also)
        for job in (self.image, self.marks, linked, also):
            self.refused('the job would be written over', '--size', '2K', '01', self.image, self.marks, job)
        for path, lines in ((self.image, IMAGE), (self.marks, MARKS)):
            with open(path) as file:
                self.assertEqual(file.read().split(), lines)

    def test_a_refusal_keeps_the_old_job(self):
        old = self.file('old', b'old')
        self.assertEqual(self.made('--size', '2K', '20', self.image, self.marks, old)[0], 2)
        self.assertEqual(self.made('--size', '2K', '01', self.image, self.path('none'), old)[0], 2)
        with open(old, 'rb') as file:
            self.assertEqual(file.read(), b'old')

    def test_usage(self):
        for words in ([], ['01', 'a', 'b'], ['--size', '8K', '01', 'a', 'b', 'c'], ['--no', '01', 'a', 'b', 'c']):
            with self.assertRaises(SystemExit) as ended, contextlib.redirect_stderr(io.StringIO()):
                make_job.main(words)
            self.assertEqual(ended.exception.code, 2)


if __name__ == '__main__':
    unittest.main()
