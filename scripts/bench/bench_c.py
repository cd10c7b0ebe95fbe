#!/usr/bin/env python3
"""Times the C library beside the Rust crate's own code, and prints a table.

usage: scripts/bench/bench_c.py [--instructions] LIBRARY FOLDER [N [KIND..]]
       scripts/bench/bench_c.py --watch LIBRARY [N]

LIBRARY is the folder that scripts/c_library made, FOLDER the source of notify-debouncer-full 0.6.0, as
scripts/bench/bench.py has it, whose workloads create, modify and rename these are, and its figures and turns: here
a path crosses the boundary as text, and each event that is emitted is read with its paths. N is 100000 if it
isn't given, and 5000 for instructions.

The second form says how long it takes from a write of a file to the line of c/watch.c, with a timeout of 50
milliseconds: the least, the middle and the most of N writes, 50 if it isn't given.
"""
import os
import statistics
import subprocess
import sys
import tempfile
import time

from bench import TOP, count, head, least_of_turns, ratio_row

if "--help" in sys.argv[1:]:
    sys.exit(print(*[line for line in __doc__.split("\n") if line][:2], sep="\n"))

KINDS = ["create", "modify", "rename"]


def main(counts, library, source, n=None, *kinds):
    room = tempfile.TemporaryDirectory()
    ours, crate = os.path.join(room.name, "workloads"), os.path.join(room.name, "rust_crate")
    files = [os.path.join(TOP, "c", name) for name in ("test/workloads.c", "heap.c")]
    archive = os.path.join(library, "libdebounce_c.a")
    subprocess.run(["gcc", "-O2", "-I", os.path.join(TOP, "c"), *files, archive, "-o", ours], check=True)
    subprocess.run([os.path.join(TOP, "scripts", "rust_crate", "build"), source, crate], check=True)
    if counts:
        return count(ours, crate, n or "5000", kinds or KINDS)
    n = n or "100000"
    head(n)
    for kind in kinds or KINDS:
        here, there = least_of_turns([[ours, n, kind], [crate, n, kind]])
        ratio_row(kind, here[0], there[0], "ns")


def watch(library, n="50"):
    room = tempfile.TemporaryDirectory()
    program, tree = os.path.join(room.name, "watch"), os.path.join(room.name, "tree")
    os.mkdir(tree)
    source, archive = os.path.join(TOP, "c", "watch.c"), os.path.join(library, "libndf.a")
    subprocess.run(["gcc", "-O2", "-I", os.path.join(TOP, "c"), source, archive, "-o", program], check=True)
    how = {"stdin": subprocess.PIPE, "stdout": subprocess.PIPE, "stderr": subprocess.PIPE, "text": True}
    with subprocess.Popen([program, "--timeout", "50", "--until-eof", tree], **how) as journal:
        journal.stderr.readline()
        taken = []
        for i in range(int(n)):
            begin = time.monotonic()
            with open(os.path.join(tree, f"f{i}"), "w") as file:
                file.write("text")
            line = journal.stdout.readline()
            taken.append((time.monotonic() - begin) * 1000)
            if not line.endswith(f"f{i}\n"):
                sys.exit(f"of f{i} it prints {line}")
        journal.stdin.close()
    print(f"{n} writes: {min(taken):.1f}, {statistics.median(taken):.1f} and {max(taken):.1f} ms to the line")


if __name__ == "__main__":
    words = sys.argv[1:]
    if words[:1] == ["--watch"] and len(words) > 1:
        sys.exit(watch(*words[1:]))
    counts = words[:1] == ["--instructions"]
    words = words[1:] if counts else words
    if len(words) < 2 or not set(words[3:]) <= set(KINDS):
        sys.exit(__doc__)
    main(counts, *words)
