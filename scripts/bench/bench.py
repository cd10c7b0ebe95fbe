#!/usr/bin/env python3
"""Times this debouncer beside the Rust crate's own code, and prints a table.

usage: scripts/bench/bench.py [--instructions] FOLDER [N [KIND..]]

FOLDER is the source of notify-debouncer-full 0.6.0, with src/lib.rs and src/cache.rs; none of it is kept.
scripts/rust_crate/build makes a program of it. The program here is crates/bench, which says what the kinds
are; it is built first if it has to be. N is 100000 if it isn't given, and then all takes ten minutes and
more.

Each run is a process of its own. A figure is the least of five runs; the two programs take turns, and
each goes first in every second round. Both print a sum over what they emitted, and of idle how many events
wait, but the crate has none of rmdir and due; the table ends if two sums differ.

With --instructions a figure is how many instructions the whole program executes, in millions, as
`valgrind --tool=callgrind` counts them: one run each, and the same on a machine that is busy. N is 5000 if
it isn't given.
"""
import os
import re
import subprocess
import sys
import tempfile
import time

if __name__ == "__main__" and "--help" in sys.argv[1:]:
    sys.exit(print(*[line for line in __doc__.split("\n") if line][:2], sep="\n"))

TOP = os.path.dirname(os.path.dirname(os.path.dirname(os.path.abspath(__file__))))
KINDS = ["create", "modify", "rename", "sort", "idle", "rmdir", "due"]
COUNTED = KINDS[:4]
ROUNDS = 5


def check_sums(outputs):
    """Ends if two runs of one workload say that they emitted different events."""
    found = {line for output in outputs for line in re.findall(r"^([a-z]+ \d+) (\d+)$", output, re.MULTILINE)}
    if len(found) > len({workload for workload, _ in found}):
        sys.exit(f"what was emitted differs: {sorted(found)}")


def run(words):
    """Runs a program, and returns the nanoseconds of an operation, the peak memory in MB, and the output."""
    process = subprocess.Popen(words, stdout=subprocess.PIPE, stderr=subprocess.STDOUT, text=True)
    output = process.stdout.read()
    _, status, usage = os.wait4(process.pid, 0)
    if status != 0:
        sys.exit(f"{' '.join(words)} failed:\n{output}")
    figures = next(words for words in map(str.split, output.splitlines()) if len(words) == 4)
    return float(figures[3]), usage.ru_maxrss / 1024, output


def least_of_turns(programs):
    """Runs the programs in turns, and returns the least figures of each."""
    runs = [[] for _ in programs]
    for turn in range(ROUNDS):
        for i in range(len(programs)):
            which = (turn + i) % len(programs)
            runs[which].append(run(programs[which]))
    check_sums(output for outputs in runs for _, _, output in outputs)
    return [tuple(map(min, zip(*figures))) for figures in runs]


def row(*cells):
    print("| " + " | ".join(cells) + " |", flush=True)


def ratio_row(name, here, there, unit):
    row(name, f"{here:,.0f} {unit}", f"{there:,.0f} {unit}", f"{here / there:.2g}")


def instructions(words):
    """Runs a program, and returns how many millions of instructions it executes, and the output."""
    words = ["valgrind", "--tool=callgrind", "--callgrind-out-file=/dev/null", *words]
    run = subprocess.run(words, stdout=subprocess.PIPE, stderr=subprocess.STDOUT, text=True)
    counted = re.search(r"Collected : (\d+)", run.stdout)
    if run.returncode != 0 or counted is None:
        sys.exit(f"{' '.join(words)} failed:\n{run.stdout}")
    return int(counted[1]) / 1e6, run.stdout


def head(n):
    print(f"N = {n}, {time.strftime('%Y-%m-%d')}, {os.cpu_count()} processors\n")
    row("workload", "here", "the Rust crate", "ratio")
    row("---", "---:", "---:", "---:")


def count(bench, crate, n, kinds):
    head(n)
    for kind in kinds or COUNTED:
        (here, ours), (there, theirs) = instructions([bench, n, kind]), instructions([crate, n, kind])
        check_sums([ours, theirs])
        row(kind, f"{here:.1f} M", f"{there:.1f} M", f"{here / there:.2f}")


def measure(bench, crate, n, kinds):
    idle = None
    head(n)
    for kind in kinds or KINDS:
        turns = [[bench, n, kind]]
        if kind != "due":
            turns.append([crate, n, kind])
        elif idle is None:
            turns.append([crate, n, "idle"])
        (here, memory, _), *crates = least_of_turns(turns)
        # Each tick of the crate looks at every queue, so one with ten events due takes no less than an
        # idle one.
        there, crate_memory, _ = crates[0] if crates else idle
        if kind == "idle":
            idle = crates[0]
        ratio_row(kind, here, there, "ns")
        if kind == "create":
            ratio_row("create, peak memory", memory, crate_memory, "MB")


def main(counts, source, n=None, *kinds):
    folder = os.path.join(TOP, "crates", "bench")
    subprocess.run(["rt", "run"], cwd=folder, check=True, capture_output=True)
    room = tempfile.TemporaryDirectory()
    bench, crate = os.path.join(folder, "out", "bench"), os.path.join(room.name, "rust_crate")
    subprocess.run([os.path.join(TOP, "scripts", "rust_crate", "build"), source, crate], check=True)
    if counts:
        count(bench, crate, n or "5000", kinds)
    else:
        measure(bench, crate, n or "100000", kinds)


if __name__ == "__main__":
    words = sys.argv[1:]
    counts = words[:1] == ["--instructions"]
    words = words[1:] if counts else words
    if not words or not set(words[2:]) <= set(COUNTED if counts else KINDS):
        sys.exit(__doc__)
    main(counts, *words)
