#!/usr/bin/env python3
"""Runs change_journal for long over a folder that changes all the while, and says what it lost and what it took.

usage: scripts/bench/soak.py [PROGRAM] [--minutes N] [--files N] [--rate N]

PROGRAM is change_journal, crates/change_journal/out/change_journal if none is given (rt ci change_journal builds
it). Two journals watch one folder of 100,000 files in 1,000 folders for 60 minutes: one has a hint for each
change, written by this script, and looks at all once a minute, the other looks each second. Files are written,
made and removed, and folders made and removed with what is in them, 50 changes a second in all; what a change is,
is drawn by a seed that is printed. A reader of each journal keeps the paths by creations and removals alone.

At the end, of each journal: whether its reader has just the folder's paths, what it said was missed, the peak of
its memory from the 10th to the 20th minute and in the last ten (of a shorter run: of its second sixth and its last
sixth), and its processor's seconds. Then 100,000 files appear in the folder at once, and are taken away at once:
how long until all of them were printed, and until the removal was; beside them a file is written every half second,
and the longest time until one of these was printed is said.
"""
import argparse
import json
import os
import random
import shutil
import subprocess
import sys
import tempfile
import threading
import time

if "--help" in sys.argv[1:]:
    sys.exit(print(*[line for line in __doc__.split("\n") if line][:2], sep="\n"))

TOP = os.path.dirname(os.path.dirname(os.path.dirname(os.path.abspath(__file__))))
JOURNAL = os.path.join(TOP, "crates", "change_journal", "out", "change_journal")
EACH = 100


def make_files(folder, files):
    for number in range(files):
        place = os.path.join(folder, f"folder{number // EACH}")
        if number % EACH == 0:
            os.mkdir(place)
        with open(os.path.join(place, f"file{number % EACH}"), "w") as file:
            file.write("text\n")


def paths_in(folder):
    """Returns the paths of the folder and of all below it."""
    found = {folder}
    for at, folders, files in os.walk(folder):
        found.update(os.path.join(at, name) for name in [*folders, *files])
    return found


class Journal:
    """A running journal, and a reader that keeps the paths."""

    def __init__(self, program, folder, has_hints):
        self.name = "with hints" if has_hints else "by looking"
        self.has_hints = has_hints
        self.top = folder
        words = [program, folder, "--initial", "--json", "--until-eof", "--timeout", "200"]
        words += ["--interval", "60000", "--hints", "-"] if has_hints else ["--interval", "1000"]
        pipes = {"stdin": subprocess.PIPE, "stdout": subprocess.PIPE, "stderr": subprocess.PIPE}
        self.process = subprocess.Popen(words, **pipes)
        self.paths, self.below, self.events, self.said = set(), {}, 0, []
        self.seen = {}  # of a path: when the last event came that names it
        self.readers = [threading.Thread(target=it, daemon=True) for it in (self.read, self.listen)]
        for it in self.readers:
            it.start()

    def read(self):
        for line in self.process.stdout:
            event = json.loads(line)
            self.events += 1
            for path in event["paths"]:
                self.seen[path] = time.monotonic()
            if event["kind"].startswith("Create"):
                self.add(event["paths"][0])
            elif event["kind"].startswith("Remove"):
                self.drop(event["paths"][0])

    def add(self, path):
        # The folders above are told too.
        if not path.startswith(self.top):
            return
        self.paths.add(path)
        self.below.setdefault(os.path.dirname(path), set()).add(path)

    def drop(self, path):
        self.paths.discard(path)
        self.below.get(os.path.dirname(path), set()).discard(path)
        for it in list(self.below.get(path, ())):
            self.drop(it)
        self.below.pop(path, None)

    def listen(self):
        for line in self.process.stderr:
            self.said.append(line.decode().strip())

    def hint(self, path):
        if self.has_hints:
            self.process.stdin.write(path.encode() + b"\n")
            self.process.stdin.flush()

    def begin_peak(self):
        with open(f"/proc/{self.process.pid}/clear_refs", "w") as it:
            it.write("5")

    def peak(self):
        """Returns the peak of its memory since `begin_peak`, in kilobytes."""
        with open(f"/proc/{self.process.pid}/status") as it:
            return next(int(line.split()[1]) for line in it if line.startswith("VmHWM"))

    def seconds(self):
        with open(f"/proc/{self.process.pid}/stat") as it:
            words = it.read().rpartition(")")[2].split()
        return (int(words[11]) + int(words[12])) / os.sysconf("SC_CLK_TCK")

    def end(self):
        self.process.stdin.close()
        self.process.wait()
        for it in self.readers:
            it.join()


class Folder:
    """The folder that changes, as this script knows it."""

    def __init__(self, top, files):
        self.top = top
        self.folders = [os.path.join(top, f"folder{number}") for number in range(files // EACH)]
        self.files = [os.path.join(it, f"file{number}") for it in self.folders for number in range(EACH)]
        self.made = 0
        self.brief = []  # folders that go again, and when

    def change(self):
        """Makes a change, and returns the path to hint at."""
        self.made += 1
        if self.brief and time.monotonic() > self.brief[0][0]:
            return self.drop_brief()
        draw = random.random()
        if draw < 0.7 or len(self.files) < 10:
            path = random.choice(self.files)
            with open(path, "a") as it:
                it.write("more\n")
            return path
        if draw < 0.83:
            path = os.path.join(random.choice(self.folders), f"new{self.made}")
            with open(path, "w") as it:
                it.write("text\n")
            self.files.append(path)
            return path
        if draw < 0.96:
            at = random.randrange(len(self.files))
            self.files[at], self.files[-1] = self.files[-1], self.files[at]
            path = self.files.pop()
            os.remove(path)
            return path
        # A folder comes with ten files and goes again, so that the files stay as many.
        path = os.path.join(self.top, f"brief{self.made}")
        os.mkdir(path)
        for number in range(10):
            with open(os.path.join(path, f"file{number}"), "w") as it:
                it.write("text\n")
        self.brief.append((time.monotonic() + 3, path))
        return path

    def drop_brief(self):
        """Removes the oldest of the brief folders, and returns its path."""
        _, path = self.brief.pop(0)
        shutil.rmtree(path)
        return path


def wait_until(what, most):
    """Returns how many seconds it took until `what` held, or nothing."""
    begun = time.monotonic()
    while time.monotonic() - begun < most:
        if what():
            return time.monotonic() - begun
        time.sleep(0.005)
    return None


def run(folder, journals, minutes, rate):
    """Makes changes for so long, and returns of each journal its two peaks."""
    begun = time.monotonic()
    window = min(600, minutes * 10)
    marks = [(window, "begin"), (2 * window, "end"), (minutes * 60 - window, "begin"), (minutes * 60, "end")]
    peaks = {it: [] for it in journals}
    number = 0
    while marks:
        now = time.monotonic() - begun
        while marks and now >= marks[0][0]:
            for it in journals:
                it.begin_peak() if marks[0][1] == "begin" else peaks[it].append(it.peak())
            print(f"after {now / 60:.1f} minutes: {number} changes, {[it.peak() for it in journals]} kB", flush=True)
            marks.pop(0)
        path = folder.change()
        for it in journals:
            it.hint(path)
        number += 1
        time.sleep(max(0, number / rate - (time.monotonic() - begun)))
    while folder.brief:
        path = folder.drop_brief()
        for it in journals:
            it.hint(path)
    print(f"{number} changes in {(time.monotonic() - begun) / 60:.1f} minutes")
    return peaks


def shown(seconds):
    return "not within its time" if seconds is None else f"{seconds:.1f} s"


def grow_and_go(top, journals, files):
    """A folder of so many files appears at once, and is taken away at once."""
    with tempfile.TemporaryDirectory(dir=os.path.dirname(top)) as aside:
        grown = os.path.join(top, "grown")
        os.mkdir(os.path.join(aside, "grown"))
        make_files(os.path.join(aside, "grown"), files)
        beside = os.path.join(top, "beside")
        for word, move in (("appear", (os.path.join(aside, "grown"), grown)), ("go", (grown, os.path.join(aside, "gone")))):
            wanted = paths_in(move[0]) if word == "appear" else set()
            inner = {grown + it[len(move[0]):] for it in wanted}
            took, late = {it: None for it in journals}, {it: 0.0 for it in journals}
            begun = time.monotonic()
            os.rename(*move)
            for it in journals:
                it.hint(grown)
            wrote = None
            while time.monotonic() - begun < 600 and None in took.values():
                if wrote is None or time.monotonic() - wrote > 0.5 and all(it.seen.get(beside, 0) >= wrote for it in journals):
                    with open(beside, "a") as file:
                        file.write("more\n")
                    wrote = time.monotonic()
                    for it in journals:
                        it.hint(beside)
                for it in journals:
                    late[it] = max(late[it], 0 if it.seen.get(beside, 0) >= wrote else time.monotonic() - wrote)
                    has_all = inner <= it.paths if word == "appear" else grown not in it.paths
                    if took[it] is None and has_all:
                        took[it] = time.monotonic() - begun
                time.sleep(0.05)
            for it in journals:
                print(f"{it.name}: {files} files that {word} at once: after {shown(took[it])}, a file beside them within {late[it]:.1f} s")


def main():
    words = argparse.ArgumentParser(description=__doc__, formatter_class=argparse.RawDescriptionHelpFormatter)
    words.add_argument("program", nargs="?", default=JOURNAL)
    words.add_argument("--minutes", type=float, default=60)
    words.add_argument("--files", type=int, default=100_000)
    words.add_argument("--rate", type=float, default=50)
    words = words.parse_args()
    seed = random.randrange(1 << 32)
    random.seed(seed)
    print(f"seed {seed}")
    with tempfile.TemporaryDirectory() as room:
        top = os.path.join(room, "top")
        os.mkdir(top)
        make_files(top, words.files)
        journals = [Journal(words.program, top, has_hints) for has_hints in (True, False)]
        wanted = paths_in(top)
        for it in journals:
            took = wait_until(lambda: len(it.paths) >= len(wanted), 600)
            print(f"{it.name}: {len(wanted)} paths at first after {shown(took)}")
        peaks = run(Folder(top, words.files), journals, words.minutes, words.rate)
        wanted = paths_in(top)
        for it in journals:
            took = wait_until(lambda: it.paths == wanted, 120)
            wrong = sorted(it.paths ^ wanted)
            is_right = f"WRONG at {wrong[:3]}" if wrong else f"right after {shown(took)}"
            print(f"{it.name}: after the last change its reader is {is_right}", flush=True)
        grow_and_go(top, journals, words.files)
        wanted = paths_in(top)
        for it in journals:
            wait_until(lambda: it.paths == wanted, 120)
            seconds = it.seconds()
            it.end()
            wrong = sorted(it.paths ^ wanted)
            said = [line for line in it.said if "watching" not in line] or ["nothing"]
            print(f"{it.name}: {it.events} events, reader {f'WRONG at {wrong[:3]}' if wrong else 'right'}, it said: {'; '.join(said)}")
            early, late = peaks[it]
            print(f"  peak {early} kB early and {late} kB late, {late / early:.3f}; {seconds:.0f} s of a processor")


main()
