#!/usr/bin/env python3
"""Times change_journal with hints: from a write to its line, and what it takes of a processor at rest.

usage: scripts/bench/bench_hints.py [PROGRAM]

PROGRAM is change_journal, crates/change_journal/out/change_journal if none is given (rt ci change_journal builds
it). The folder has 20,000 files in 200 folders; the timeout is 50 ms. With inotifywait, if it is installed, and
with hints that this script writes itself, the folder is looked at each minute; without hints, each second.
At rest the processor's time of 20 seconds is taken, and then forty writes are timed.
"""
import glob
import json
import os
import queue
import random
import shutil
import statistics
import subprocess
import sys
import tempfile
import threading
import time

if "--help" in sys.argv[1:]:
    sys.exit(print(*[line for line in __doc__.split("\n") if line][:2], sep="\n"))

TOP = os.path.dirname(os.path.dirname(os.path.dirname(os.path.abspath(__file__))))
JOURNAL = os.path.join(TOP, "crates", "change_journal", "out", "change_journal")
EVENTS = "modify,create,delete,move,attrib,close_write"
FILES = 20_000
WRITES = 40
REST = 20


def make_files(folder):
    for number in range(FILES):
        place = os.path.join(folder, f"folder{number // 100}")
        if number % 100 == 0:
            os.mkdir(place)
        with open(os.path.join(place, f"file{number % 100}"), "w") as file:
            file.write("text\n")


def processor_seconds(process):
    """Returns what the scheduler counts for its threads: the clock of /proc/PID/stat is cut to hundredths."""
    counts = glob.glob(f"/proc/{process.pid}/task/*/schedstat")
    return sum(int(open(count).read().split()[0]) for count in counts) / 1e9


class Journal:
    """A journal of the folder, and what gives it hints."""

    def __init__(self, program, folder, kind):
        self.kind = kind
        self.tool = None
        words = [program, folder, "--json", "--timeout", "50"]
        words += ["--interval", "1000"] if kind == "none" else ["--interval", "60000", "--hints", "-"]
        source = subprocess.PIPE
        if kind == "inotifywait":
            watch = ["inotifywait", "-mrq", "-e", EVENTS, "--format", "%w%f", folder]
            self.tool = subprocess.Popen(watch, stdout=subprocess.PIPE, stderr=subprocess.DEVNULL)
            source = self.tool.stdout
        self.process = subprocess.Popen(words, stdin=source, stdout=subprocess.PIPE, stderr=subprocess.DEVNULL)
        self.lines = queue.Queue()
        threading.Thread(target=self.read, daemon=True).start()

    def read(self):
        for line in self.process.stdout:
            self.lines.put((time.monotonic(), json.loads(line)["paths"]))

    def write(self, path):
        """Writes to the file, and returns how many seconds later the journal has told of it."""
        begun = time.monotonic()
        with open(path, "a") as file:
            file.write("more\n")
        if self.kind == "own":
            self.process.stdin.write(path.encode() + b"\n")
            self.process.stdin.flush()
        while True:
            told, paths = self.lines.get(timeout=30)
            if path in paths:
                return told - begun

    def end(self):
        for process in (self.process, self.tool):
            if process:
                process.kill()
                process.wait()


def measure(program, folder, kind):
    """Returns the share of a processor at rest, and the seconds from each write to its line."""
    journal = Journal(program, folder, kind)
    time.sleep(8)
    before = processor_seconds(journal.process)
    time.sleep(REST)
    share = (processor_seconds(journal.process) - before) / REST
    took = []
    for _ in range(WRITES):
        time.sleep(random.uniform(0.2, 0.6))
        name = os.path.join(f"folder{random.randrange(FILES // 100)}", f"file{random.randrange(100)}")
        took.append(journal.write(os.path.join(folder, name)))
    journal.end()
    return share, sorted(took)


def main():
    program = sys.argv[1] if len(sys.argv) > 1 else JOURNAL
    tools = ["inotifywait"] if shutil.which("inotifywait") else []
    print("| hints | interval | at rest | least | median | nine of ten | most |")
    print("|---|---:|---:|---:|---:|---:|---:|")
    for kind in [*tools, "own", "none"]:
        with tempfile.TemporaryDirectory() as folder:
            make_files(folder)
            share, took = measure(program, folder, kind)
        interval = "1 s" if kind == "none" else "60 s"
        times = [took[0], statistics.median(took), took[len(took) * 9 // 10], took[-1]]
        cells = " | ".join(f"{seconds * 1000:.0f} ms" for seconds in times)
        print(f"| {kind} | {interval} | {share * 100:.2f} % | {cells} |", flush=True)


main()
