#!/usr/bin/env python3
"""Times the rounds of the watcher that polls beside a plain walk of the folder, and prints a table.

usage: scripts/bench/bench_polling.py [FILES..]

FILES are numbers of files, 1000 10000 100000 if none is given; a hundred stand in a folder, and nothing
changes. The program `bench` has to be built (rt ci bench). It times each round itself, with modified times,
with numbers too, and with neither, and the plain walk, scripts/bench/plain_walk.rs, compiled by rustc, does too; they
run in turns, and each figure is the least of all its rounds. The peak memory is that of the rounds with numbers,
as Linux tells it.
"""
import os
import subprocess
import sys
import tempfile
import time

if "--help" in sys.argv[1:]:
    sys.exit(print(*[line for line in __doc__.split("\n") if line][:2], sep="\n"))

TOP = os.path.dirname(os.path.dirname(os.path.dirname(os.path.abspath(__file__))))
BENCH = os.path.join(TOP, "crates", "bench", "out", "bench")
ROUNDS = "10"
TURNS = 5


def make_files(folder, count):
    for number in range(count):
        place = os.path.join(folder, f"folder{number // 100}")
        if number % 100 == 0:
            os.mkdir(place)
        with open(os.path.join(place, f"file{number % 100}"), "w") as file:
            file.write("text\n")


def peak_of(number):
    """Returns the peak memory of a process so far in MB, or 0 if it has ended."""
    try:
        with open(f"/proc/{number}/status") as status:
            lines = [line.split() for line in status if line.startswith("VmHWM:")]
        return int(lines[0][1]) / 1024 if lines else 0
    except OSError:
        return 0


def run(*words):
    """Returns the words that the command prints, and its peak memory in MB."""
    process = subprocess.Popen(words, stdout=subprocess.PIPE, text=True)
    peak = 0
    while process.poll() is None:
        peak = max(peak, peak_of(process.pid))
        time.sleep(0.002)
    if process.returncode != 0:
        sys.exit(f"{' '.join(words)} ended with {process.returncode}")
    return process.stdout.read().split(), peak


def times_of(walk, folder):
    """Returns the least nanoseconds of each form of a round and of a walk, and the peak memory."""
    least, memory = [float("inf")] * 4, 0
    for _ in range(TURNS):
        timed, _ = run(BENCH, "rounds", ROUNDS, folder)
        numbered, peak = run(BENCH, "rounds-with-numbers", ROUNDS, folder)
        untimed, _ = run(BENCH, "rounds-without-times", ROUNDS, folder)
        walked, _ = run(walk, folder, ROUNDS)
        took = [int(timed[0]), int(numbered[0]), int(untimed[0]), int(walked[1])]
        least = list(map(min, least, took))
        memory = max(memory, peak)
    return least, memory


def main(*counts):
    with tempfile.TemporaryDirectory() as room:
        walk = os.path.join(room, "plain_walk")
        source = os.path.join(TOP, "scripts", "bench", "plain_walk.rs")
        subprocess.run(["rustc", "-O", "-o", walk, source], check=True)
        print("| files | a round | with numbers | without modified times | a plain walk | peak memory |")
        print("|---:|---:|---:|---:|---:|---:|")
        for count in map(int, counts or ("1000", "10000", "100000")):
            folder = os.path.join(room, str(count))
            os.mkdir(folder)
            make_files(folder, count)
            least, memory = times_of(walk, folder)
            figures = " | ".join(f"{took / 1e6:,.1f} ms" for took in least)
            print(f"| {count:,} | {figures} | {memory:,.1f} MB |", flush=True)


if __name__ == "__main__":
    if not all(word.isdigit() for word in sys.argv[1:]):
        sys.exit(__doc__)
    main(*sys.argv[1:])
