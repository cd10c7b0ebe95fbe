#!/usr/bin/env python3
"""Prints which functions cost a check most, and at what.

usage: scripts/bench/function_cost.py FOLDER [COUNT]

FOLDER is where a check keeps what it checked, as out/incremental/NAME in a crate's folder after `rt check
--jobs 1` of a crate that wasn't checked before. Each file there is of one function and one step of its proof;
`Lts` is the table of its steps for the borrow checker. The seconds of a file are those since the file before
it: a clock's, not a processor's, and of no use after a check by several jobs. The first function that asks for
something pays for what is loaded then. After any check the sizes tell nearly as much, at some four seconds a MB:
`ls -S out/incremental/*/*.Lts.oantt`; one of 8 MB wants to be cut.
"""
import collections
import os
import re
import sys

if "--help" in sys.argv[1:]:
    sys.exit(print(*[line for line in __doc__.split("\n") if line][:2], sep="\n"))

FILE = re.compile(r"Rattle-\w+-(?:proofs|specs\.contracts)\.(.+)\.oantt$")
STEPS = (
    "Answers Carried Code Given Goals Instances Invariants Key Kinds Layout Lts Met Named Proof Reads Statement "
    "Symbol TheLink TheLinks Tie"
).split()


def function_and_step(name):
    """Returns which function a file is of, and which step; nothing of a file that is of no function."""
    found = FILE.match(name)
    words = found[1].split(".") if found else []
    for i, word in enumerate(words):
        if i > 0 and word.split("-")[0] in STEPS:
            return ".".join(words[:i]), word.split("-")[0]
    return None, None


def costs_in(folder):
    """Returns the seconds of each function, by its steps."""
    files = sorted((it.stat().st_mtime, it.name) for it in os.scandir(folder) if it.name.endswith(".oantt"))
    costs = collections.defaultdict(collections.Counter)
    for (before, _), (time, name) in zip(files, files[1:]):
        function, step = function_and_step(name)
        if function:
            costs[function][step] += time - before
    return costs


def main(folder, count="20"):
    costs = costs_in(folder)
    for function in sorted(costs, key=lambda it: -sum(costs[it].values()))[: int(count)]:
        steps = ", ".join(f"{step} {seconds:.1f}" for step, seconds in costs[function].most_common(3))
        print(f"{sum(costs[function].values()):6.1f}  {function}: {steps}")


if __name__ == "__main__":
    if not 2 <= len(sys.argv) <= 3:
        sys.exit(__doc__)
    main(*sys.argv[1:])
