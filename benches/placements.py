#!/usr/bin/env python3
"""placements.py [COUNT [FOLDER..]]: time of runs of the proved library against the second emulator's, over random placements of the
library's functions.

Where functions are placed moves a run, now and then by 15 %, so that one build says little. This links libexports.a of each folder (by default
target/staticlib) COUNT times (by default 10) as a shared library, with its functions in random order, and measures each in one process
with the second emulator, in turns. The same program takes all of them. It prints the geometric mean of the ratios, and their range;
with several folders the placements of all are measured one after the other, in turns."""
import math
import os
import re
import shutil
import subprocess
import sys
import tempfile

TARGET = os.path.abspath("tests/target/placements")
SPEED = f"{TARGET}/release/speed"


def link(library, seed, folder):
    """The library with its functions in the order of a seed."""
    os.makedirs(folder)
    words = ["ld.lld", "-shared", f"--shuffle-sections=.text.*={seed}", "-o", f"{folder}/libexports.so", "--whole-archive", f"{library}/libexports.a"]
    subprocess.run(words, check=True)


def build(folder):
    """The program, with any of the placements: it is another one's when it runs."""
    names = {"ST62_LIB_DIR": folder, "ST62_LIB_KIND": "dylib", "CARGO_TARGET_DIR": TARGET}
    words = ["cargo", "build", "--quiet", "--offline", "--release", "--features", "proved", "--bin", "speed", "--manifest-path", "tests/Cargo.toml"]
    subprocess.run(words, check=True, env=os.environ | names)


def measure(folder):
    """Ratio and nanoseconds of both sides by work."""
    done = subprocess.run([SPEED, "placed"], capture_output=True, text=True, check=True, env=os.environ | {"LD_LIBRARY_PATH": folder})
    return {work: [float(number) for number in numbers] for work, *numbers in re.findall(r"^placed (\S+) (\S+) (\S+) (\S+)$", done.stdout, re.M)}


def mean(numbers):
    return math.exp(sum(map(math.log, numbers)) / len(numbers))


def tell(library, placements):
    print(f"{library}, {len(placements)} placements: time of proved / second, geometric mean of the medians; ns a step, of the least times")
    for work in placements[0]:
        ratios, proved, second = zip(*(placement[work] for placement in placements))
        print(f"  {work:18} {mean(ratios):.3f} ({min(ratios):.3f} to {max(ratios):.3f});  proved {mean(proved):.2f} ns, second {mean(second):.2f} ns")


def main():
    if not shutil.which("ld.lld"):
        print("placements not measured: there is no ld.lld")
        return
    count = int(sys.argv[1]) if len(sys.argv) > 1 else 10
    libraries = sys.argv[2:] or ["target/staticlib"]
    measured = {library: [] for library in libraries}
    with tempfile.TemporaryDirectory() as places:
        for seed in range(1, count + 1):
            for number, library in enumerate(libraries):
                folder = f"{places}/{number}-{seed}"
                link(library, seed, folder)
                if seed == 1 and number == 0:
                    build(folder)
                measured[library].append(measure(folder))
    for library in libraries:
        tell(library, measured[library])


if __name__ == "__main__":
    main()
