#!/usr/bin/env python3
"""Joins a wired byte, an image and a certificate into a job for the job program.

WIRED        the wired sources, a hexadecimal byte: bit 0 is NMI, bits 1 to 4 are sources 1 to 4 (01 is NMI alone, 1F is all)
IMAGE        a file with the ROM's bytes
CERTIFICATE  a file with a mark for each byte of the image
JOB          the file to write; - is standard output

A file whose name ends in .hex, .ihx or .ihex is Intel HEX, every other one is raw.
Raw: the bytes, lowest address first: 2048 bytes (800h to FFFh) or 4096 bytes (000h to FFFh).
Intel HEX: addresses are the chip's; bytes that are not named are 00h. Records of type 00 and 01, and 02 and 04 with base 0. Refused
are other records (start addresses, 03 and 05, too), wrong checksums, bytes outside the image, two different bytes at one address,
and a file without its end record.

A job is the byte 1, a two-byte big-endian count of the bytes after it, the wired byte, the image and the certificate.
Exits with 2, and writes nothing, where these cannot be joined: then no job could state them.
"""
import argparse
import os
import stat
import sys

SIZES = {'2K': 2048, '4K': 4096}
SPACE = 4096
# 4096 records of one byte each are shorter.
MOST_HEX = 65536
HEX_DIGITS = b'0123456789abcdefABCDEF'
HEX_SUFFIXES = ('.hex', '.ihx', '.ihex')


class Refusal(Exception):
    """Why there is no job, in words."""


def joined(wired, image, certificate):
    """The bytes of a job."""
    count = 1 + len(image) + len(certificate)
    return bytes([1, count // 256, count % 256, wired]) + image + certificate


def wired_byte(text):
    """The byte that a word of one or two hexadecimal digits states."""
    if not 1 <= len(text) <= 2 or not set(text) <= set(HEX_DIGITS.decode()):
        raise Refusal(f'{text}: the wired byte is one or two hexadecimal digits')
    if int(text, 16) > 0x1F:
        raise Refusal(f'{text}: there are five sources, so the wired byte is at most 1F')
    return int(text, 16)


def in_words(fault):
    """An operating system's error without its number."""
    if isinstance(fault, FileNotFoundError):
        return 'no such file'
    text = fault.strerror or 'it failed'
    return text[0].lower() + text[1:]


def is_hex(path):
    return path.lower().endswith(HEX_SUFFIXES)


def content(path, allowed):
    """A file's bytes. Its size is looked at first: nothing else is read."""
    try:
        found = os.stat(path)
        if not stat.S_ISREG(found.st_mode):
            raise Refusal(f'{path}: not a plain file')
        allowed(found.st_size)
        with open(path, 'rb') as file:
            read = file.read(found.st_size + 1)
    except OSError as fault:
        raise Refusal(f'{path}: {in_words(fault)}') from None
    if len(read) != found.st_size:
        raise Refusal(f'{path}: changed while it was read')
    return read


def raw(path, size):
    """A raw file's bytes, of a size if one is given."""
    def allowed(length):
        if length not in SIZES.values():
            raise Refusal(f'{path}: {length} bytes, where an image and a certificate have 2048 or 4096')
        if size not in (None, length):
            raise Refusal(f'{path}: {length} bytes, where {size} are wanted')
    return content(path, allowed)


def record(line):
    """Address, type and data of a HEX record."""
    digits = line[1:]
    if line[:1] != b':' or len(digits) % 2 or not set(digits) <= set(HEX_DIGITS):
        raise Refusal('not a HEX record')
    fields = bytes.fromhex(digits.decode('ascii'))
    if len(fields) < 5 or len(fields) != fields[0] + 5:
        raise Refusal('not a HEX record, or one of another length than it says')
    if sum(fields) % 256:
        raise Refusal('wrong checksum')
    return fields[1] * 256 + fields[2], fields[3], fields[4:-1]


def put(named, low, address, data):
    """Adds a data record's bytes to those named so far, by address."""
    for place, byte in enumerate(data, address):
        if not low <= place < SPACE:
            raise Refusal(f'address {place:03X}h is outside the image, {low:03X}h to FFFh')
        if named.setdefault(place, byte) != byte:
            raise Refusal(f'address {place:03X}h has {named[place]:02X}h already, and now {byte:02X}h')


def put_line(named, low, line):
    """Adds a line's bytes to those named so far; answers whether it is the end record."""
    address, kind, data = record(line)
    if kind == 0:
        put(named, low, address, data)
    elif kind == 1:
        if data:
            raise Refusal('an end record with data')
    elif kind not in (2, 4):
        raise Refusal(f'a record of type {kind:02X}, where only 00, 01, 02 and 04 are read')
    elif data != bytes(2):
        raise Refusal('a base address other than 0')
    return kind == 1


def from_hex(path, size):
    """The bytes that a HEX file states, in an image of a size."""
    def allowed(length):
        if length > MOST_HEX:
            raise Refusal(f'{path}: {length} bytes, where a HEX file of an image has at most {MOST_HEX}')
    low, named, ended = SPACE - size, {}, False
    for number, line in enumerate(content(path, allowed).splitlines(), 1):
        try:
            if not line.strip():
                continue
            if ended:
                raise Refusal('a line after the end record')
            ended = put_line(named, low, line.rstrip())
        except Refusal as fault:
            raise Refusal(f'{path}: line {number}: {fault}') from None
    if not ended:
        raise Refusal(f'{path}: no end record, so a part of the file may be missing')
    return bytes(named.get(address, 0) for address in range(low, SPACE))


def loaded(path, size):
    if not is_hex(path):
        return raw(path, size)
    if size is None:
        raise Refusal(f'{path}: a HEX file does not say the size of its part: say --size 2K or --size 4K')
    return from_hex(path, size)


def job_from(wired, image_path, certificate_path, size):
    wired = wired_byte(wired)
    image, certificate = loaded(image_path, size), loaded(certificate_path, size)
    if len(certificate) != len(image):
        raise Refusal(f'{certificate_path}: {len(certificate)} marks for an image of {len(image)} bytes')
    return joined(wired, image, certificate)


def same_file(path, other):
    return os.path.exists(path) and os.path.exists(other) and os.path.samefile(path, other)


def write(path, job):
    try:
        # Standard output by its number, so that a failed write is not tried again when the program ends.
        with open(1 if path == '-' else path, 'wb', closefd=path != '-') as file:
            file.write(job)
    except OSError as fault:
        words = 'no such folder' if isinstance(fault, FileNotFoundError) else in_words(fault)
        raise Refusal(f'{"standard output" if path == "-" else path}: {words}') from None


def options(words):
    parser = argparse.ArgumentParser(prog='make_job.py', allow_abbrev=False, description=__doc__.strip(),
                                     formatter_class=argparse.RawDescriptionHelpFormatter)
    parser.add_argument('--size', choices=SIZES, help="the part's size; needed for Intel HEX, tested for raw files")
    for name in ('wired', 'image', 'certificate', 'job'):
        parser.add_argument(name, metavar=name.upper())
    return parser.parse_args(words)


def main(words):
    given = options(words)
    try:
        for path in (given.image, given.certificate):
            if given.job != '-' and same_file(given.job, path):
                raise Refusal(f'{given.job}: the job would be written over {path}')
        write(given.job, job_from(given.wired, given.image, given.certificate, SIZES.get(given.size)))
    except Refusal as fault:
        print(f'make_job.py: {fault}', file=sys.stderr)
        return 2
    return 0


if __name__ == '__main__':
    sys.exit(main(sys.argv[1:]))
