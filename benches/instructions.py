#!/usr/bin/env python3
"""Instructions of the proved library and of the second emulator, by work, counted by callgrind.

The totals of n and of 2n times are subtracted, so that the start of the program is not counted. The counts are exact: other work
on the machine does not move them. Words pick the works that begin with one of them: `instructions.py run play`."""
import re
import shutil
import subprocess
import sys

PROGRAM = "tests/target/release/count"
SIDES = ("proved", "second", "packed")
# Title, work, how often, and how many of the title's units one time has. 64 checks or makes are one of each image.
WORKS = [
    ("run of 65,535 steps, a step", "run", 1, 65535),
    ("run of 1,000 steps, a step", "run-1000", 20, 1000),
    ("run of 100 steps, a step", "run-100", 100, 100),
    ("run of 50 steps, a step", "run-50", 200, 50),
    ("run of 10 steps, a step", "run-10", 1000, 10),
    ("run of a loop of 1,200, 4K, a step", "run-long", 1, 65535),
    ("run of 10,000 steps of 64 loops, 2K, a step", "run-many-2k", 64, 10000),
    ("run of 10,000 steps of 64 loops, 4K, a step", "run-many-4k", 64, 10000),
    ("run of 10,000 steps of 64 loops, 9 pages, a step", "run-many-9", 64, 10000),
    ("the same with changes of the bank byte, 2K", "run-turning-2k", 64, 10000),
    ("the same with changes of the bank byte, 9 pages", "run-turning-9", 64, 10000),
    ("single step", "step", 5000, 1),
    ("single step, nine pages", "step-9", 5000, 1),
    ("check 2K marked throughout, a byte", "check-2k", 64, 2048),
    ("check 4K marked throughout, a byte", "check-4k", 64, 4096),
    ("check 2K with six marks, a byte", "sparse-2k", 64, 2048),
    ("check 4K with six marks, a byte", "sparse-4k", 64, 4096),
    ("decode", "decode", 10, 256),
    ("decode, nine pages", "decode-9", 10, 256),
    ("width after 61,047 steps, a step", "width", 1, 61047),
    ("make 2K reached throughout, a byte", "make-2k", 64, 2048),
    ("make 4K reached throughout, a byte", "make-4k", 64, 4096),
    ("make 2K of generated programs, a byte", "make-program-2k", 64, 2048),
    ("make 4K of generated programs, a byte", "make-program-4k", 64, 4096),
    ("make 2K with six marks, a byte", "make-sparse-2k", 64, 2048),
    ("make 4K with six marks, a byte", "make-sparse-4k", 64, 4096),
    ("make 4K, six zigzag chains, a byte", "make-zigzag", 2, 4096),
    ("playing of 32,767 steps, a step", "play", 1, 32767),
    ("run with the same requests, a step", "play-run", 1, 32767),
    ("playing, 1 to 8 steps a row, an entry", "play-rows", 1, 30035),
    ("run in the fixed half, one page, a step", "run-fixed-1", 1, 65535),
    ("run in the fixed half, nine pages, a step", "run-fixed-9", 1, 65535),
    ("run in a page, one page, a step", "run-page-1", 1, 65535),
    ("run in a page, nine pages, a step", "run-page-9", 1, 65535),
    ("run that changes pages, one page, a step", "run-changing-1", 1, 65535),
    ("run that changes pages, nine pages, a step", "run-changing-9", 1, 65535),
    ("run, another of 9 pages every 16, a step", "run-picking-16", 1, 65535),
    ("run, another of 9 pages every 4, a step", "run-picking-4", 1, 65535),
    ("check 20K marked throughout, a mark and page", "check-20k", 64, 4096 * 9),
    ("make 20K reached throughout, a mark", "make-20k", 64, 4096),
    ("make 20K of generated programs, a mark", "make-program-20k", 64, 4096),
]


def total(work, side, times):
    """Instructions of the whole program."""
    words = ["valgrind", "--tool=callgrind", "--callgrind-out-file=/dev/null", PROGRAM, work, side, str(times)]
    done = subprocess.run(words, capture_output=True, text=True)
    found = re.search(r"Collected : (\d+)", done.stderr)
    if done.returncode != 0 or not found:
        sys.exit(f"instructions.py: {' '.join(words)} failed\n{done.stderr}")
    return int(found.group(1))


def main():
    if not shutil.which("valgrind"):
        print("instructions not counted: there is no valgrind")
        return
    print(f"{'instructions':50}" + "".join(f"{side:>10}" for side in SIDES) + "   proved / second, / packed")
    wanted = tuple(sys.argv[1:]) or ("",)
    for title, work, times, units in WORKS:
        if not work.startswith(wanted):
            continue
        counts = [(total(work, side, 2 * times) - total(work, side, times)) / (times * units) for side in SIDES]
        proved, second, packed = counts
        print(f"{title:50}" + "".join(f"{count:10.2f}" for count in counts) + f"   {proved / second:.2f}, {proved / packed:.2f}")


if __name__ == "__main__":
    main()
