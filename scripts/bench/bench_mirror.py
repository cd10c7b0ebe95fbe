#!/usr/bin/env python3
"""Times whole runs of `mirror` on scripts of many events, with reading and printing, and prints a table.

usage: scripts/bench/bench_mirror.py [EVENTS]

EVENTS is 100000 if it isn't given. The program `mirror` has to be built (./mirror --build). A figure is the
least of six runs; the output goes to a file in a temporary folder.
"""
import os
import subprocess
import sys
import tempfile
import time

if "--help" in sys.argv[1:]:
    sys.exit(print(*[line for line in __doc__.split("\n") if line][:2], sep="\n"))

TOP = os.path.dirname(os.path.dirname(os.path.dirname(os.path.abspath(__file__))))
MIRROR = os.path.join(TOP, "crates", "mirror", "out", "mirror")
RUNS = 6


def file(number, name="file"):
    return f"/home/user/d{number % 1000}/{name}{number}"


def creations(count):
    for i in range(count):
        yield f"event {i} Create(File) - {file(i)}"


def renames(count):
    for i in range(count // 2):
        yield f"event {i} Modify(Name(From)) tracker={i} {file(i, 'old')}"
        yield f"event {i} Modify(Name(To)) tracker={i} {file(i, 'new')}"


def modifications(count):
    for i in range(count):
        yield f"event {i} Modify(Data(Any)) - {file(i % 1000)}"


def removals(count):
    """Folders with ten files each, created and then removed, while as many other files are created."""
    for i in range(count // 22):
        folder = f"/home/user/folder{i}"
        yield f"event {i} Create(Folder) - {folder}"
        for j in range(10):
            yield f"event {i} Create(File) - {folder}/file{j}"
            yield f"event {i} Create(File) - {file(10 * i + j)}"
        yield f"event {i} Remove(Folder) - {folder}"


def measure(script, output):
    """Runs the program once, and returns the seconds and the peak memory in MB."""
    begun = time.monotonic()
    with open(output, "wb") as out:
        process = subprocess.Popen([MIRROR, script], stdout=out)
        _, status, usage = os.wait4(process.pid, 0)
    if status != 0:
        sys.exit(f"mirror {script} answered status {status}")
    return time.monotonic() - begun, usage.ru_maxrss / 1024


def main(count="100000"):
    with tempfile.TemporaryDirectory() as room:
        print(f"| script of {int(count):,} events, and one tick | time | peak memory |\n|---|---:|---:|")
        for make in (creations, renames, modifications, removals):
            script = os.path.join(room, make.__name__)
            with open(script, "w") as lines:
                lines.write("timeout 50\n")
                lines.writelines(line + "\n" for line in make(int(count)))
                lines.write(f"tick {int(count) + 50}\n")
            runs = [measure(script, os.path.join(room, "output")) for _ in range(RUNS)]
            seconds, memory = min(runs)
            print(f"| {make.__name__} | {seconds:.2f} s | {memory:,.0f} MB |", flush=True)


if __name__ == "__main__":
    if not all(word.isdigit() for word in sys.argv[1:]):
        sys.exit(__doc__)
    main(*sys.argv[1:])
