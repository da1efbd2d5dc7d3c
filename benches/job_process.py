#!/usr/bin/env python3
"""Time and memory of the job program as a process: P11 in its 2K image and in a 4K one, 200 runs each."""
import os
import statistics
import subprocess
import tempfile
import time

PROGRAM = "target/bin/job"
P11 = "crates/job/stdin"
# Reports the greatest memory of a process that a small process started: one started from here would count this interpreter's.
MEASURE = ["/usr/bin/time", "-f", "%M"]


def in_4k(job):
    """A 2K job with its image and certificate in the upper half of 4K."""
    wired, image, certificate = job[3:4], job[4:2052], job[2052:]
    after = wired + bytes(2048) + image + bytes(2048) + certificate
    return bytes([1]) + len(after).to_bytes(2, "big") + after


def run(job):
    """Wall time of one run in milliseconds, and its line."""
    job.seek(0)
    began = time.perf_counter()
    done = subprocess.run([PROGRAM], stdin=job, capture_output=True, check=True)
    return (time.perf_counter() - began) * 1000, done.stdout.decode().strip()


def memory(job):
    """The greatest memory of one run in KiB, as text."""
    if not os.path.exists(MEASURE[0]):
        return "memory not measured"
    job.seek(0)
    done = subprocess.run(MEASURE + [PROGRAM], stdin=job, capture_output=True, check=True)
    return f"at most {done.stderr.decode().strip()} KiB"


def main():
    with open(P11, "rb") as file:
        p11 = file.read()
    for name, content in (("P11", p11), ("P11 in 4K", in_4k(p11))):
        with tempfile.TemporaryFile() as job:
            job.write(content)
            job.flush()
            runs = [run(job) for _ in range(200)]
            times = [t for t, _ in runs]
            print(
                f"job, {name} ({len(content)} bytes, {runs[0][1]}): "
                f"median {statistics.median(times):.2f} ms, min {min(times):.2f}, max {max(times):.2f}; {memory(job)}"
            )


if __name__ == "__main__":
    main()
