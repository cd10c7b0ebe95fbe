"""pairs.py [--gap SECONDS] [--triples COUNT SEED] COMMAND..: whether a reader of a watcher's lines has what stands there.

Each pair of file operations is done in a folder of its own, from two starts, or triples that are drawn. The watcher is
COMMAND.. ROOT, and prints a kind and paths, parted by tabs, until its input ends. The reader has paths, and of each file
what it read when a line named it; at the end that is compared with the folder. Status 1: a reader has something else.
"""
import argparse
import ctypes
import itertools
import os
import random
import shutil
import subprocess
import sys
import tempfile
import threading
import time

libc = ctypes.CDLL(None)
texts = itertools.count()


def write(path, text=None, mode="w"):
    with open(path, mode) as file:
        file.write(text or f"{next(texts):07x}")


def write_same_length(path):
    size = os.path.getsize(path)
    write(path, (f"{next(texts):07x}" * (size // 7 + 1))[:size])


def remove(path):
    if os.path.isdir(path) and not os.path.islink(path):
        shutil.rmtree(path)
    else:
        os.remove(path)


def replace(path, make):
    remove(path)
    make(path)


def make_folder(path):
    os.mkdir(path)
    write(path + "/z")


def make_deep(path):
    os.makedirs(path)
    write(path + "/f")


def save(path, keeps_time=False):
    """As an editor does: another file takes the place of the first."""
    before = os.stat(path)
    write("t", f"{next(texts):07x}" if keeps_time else f"{next(texts):07x} saved")
    if keeps_time:
        os.utime("t", ns=(before.st_atime_ns, before.st_mtime_ns))
    os.rename("t", path)


def exchange(one, other):
    if libc.renameat2(-100, one.encode(), -100, other.encode(), 2):
        raise OSError


def move_in_turn(*paths):
    for path, to in zip(paths, paths[1:]):
        os.rename(path, to)


def move_into(path, folder):
    os.makedirs(folder, exist_ok=True)
    os.rename(path, f"{folder}/{path}")


OPERATIONS = {
    "write a": lambda: write("a"),
    "append to a": lambda: write("a", mode="a"),
    "write as much to a": lambda: write_same_length("a"),
    "cut a": lambda: os.truncate("a", 0),
    "rm a": lambda: remove("a"),
    "rm b": lambda: remove("b"),
    "write b": lambda: write("b"),
    "mv a b": lambda: os.rename("a", "b"),
    "mv b a": lambda: os.rename("b", "a"),
    "save a": lambda: save("a"),
    "save a as old as before": lambda: save("a", keeps_time=True),
    "ln a b": lambda: os.link("a", "b"),
    "ln -s a b": lambda: os.symlink("a", "b"),
    "a becomes a folder": lambda: replace("a", make_folder),
    "a becomes a link": lambda: replace("a", lambda path: os.symlink("b", path)),
    "rm -r d": lambda: shutil.rmtree("d"),
    "mv d e": lambda: os.rename("d", "e"),
    "mv e d": lambda: os.rename("e", "d"),
    "make e": lambda: make_folder("e"),
    "empty e": lambda: replace("e", os.mkdir),
    "rm -r e": lambda: shutil.rmtree("e"),
    "exchange a b": lambda: exchange("a", "b"),
    "exchange d e": lambda: exchange("d", "e"),
    "exchange a d": lambda: exchange("a", "d"),
    "write d/n": lambda: write("d/n"),
    "rm d/x": lambda: remove("d/x"),
    "write d/x": lambda: write("d/x"),
    "mv d/x a": lambda: os.rename("d/x", "a"),
    "mv a d/x": lambda: os.rename("a", "d/x"),
    "mv d away": lambda: os.rename("d", f"{outside(os.getcwd())}/d{next(texts)}"),
    "mv e in": lambda: os.rename(outside(os.getcwd()) + "/pre", "e"),
    "mv d in": lambda: os.rename(outside(os.getcwd()) + "/pre", "d"),
    "mkfifo p": lambda: os.mkfifo("p"),
    "touch a": lambda: os.utime("a", (1e9, 1e9 + next(texts))),
    "d becomes a file": lambda: replace("d", write),
    "mv d into e": lambda: move_into("d", "e"),
    "mv d/s s": lambda: os.rename("d/s", "s"),
    "mv s d/s": lambda: os.rename("s", "d/s"),
    "make d/k/k/k": lambda: make_deep("d/k/k/k"),
    "mv a and back": lambda: move_in_turn("a", "q", "a"),
    "mv d and back": lambda: move_in_turn("d", "q", "d"),
    "swap a b": lambda: (os.rename("a", "q"), os.rename("b", "a"), os.rename("q", "b")),
}


def start(case, is_full):
    out = outside(case)
    for folder in (case + "/d/s", out + "/pre/in"):
        os.makedirs(folder)
    for path in (case + "/a", case + "/d/x", case + "/d/s/y", out + "/pre/f", out + "/pre/in/g"):
        write(path)
    if is_full:
        write(case + "/b")
        make_folder(case + "/e")


def outside(case):
    return case.replace("/w/", "/o/", 1)


def content(path):
    try:
        if os.path.islink(path) or not os.path.isfile(path):
            return None
        with open(path, "rb") as file:
            return file.read()
    except OSError:
        return "gone"


def tree(folder):
    return {os.path.join(at, name): None for at, folders, names in os.walk(folder) for name in folders + names}


def read(folder):
    return {path: content(path) for path in tree(folder)}


class Reader(threading.Thread):
    """What a reader of the lines has, by the folder of each pair."""

    def __init__(self, root, cases, lines):
        super().__init__(daemon=True)
        self.root, self.lines = root, lines
        self.cases = {case: read(case) for case in cases}
        self.is_at_end = threading.Event()

    def run(self):
        for line in self.lines:
            kind, *paths = line.rstrip("\n").split("\t")
            if paths and paths[0] == self.root + "/end":
                self.is_at_end.set()
            elif paths:
                case = "/".join(paths[0].split("/")[: self.root.count("/") + 2])
                self.play(self.cases.setdefault(case, {}), kind, *paths)
        self.is_at_end.set()

    def play(self, have, kind, path, to=None):
        below = [known for known in have if known == path or known.startswith(path + "/")]
        if kind.startswith("Remove"):
            for known in below:
                del have[known]
        elif to:
            have.update({to + known[len(path) :]: have.pop(known) for known in below})
            have[to] = content(to)
        elif kind.startswith("Create") or path in have:
            have[path] = content(path)


def main():
    words = argparse.ArgumentParser()
    words.add_argument("--gap", type=float, default=0)
    words.add_argument("--triples", type=int, nargs=2)
    words.add_argument("command", nargs=argparse.REMAINDER)
    asked = words.parse_args()
    if asked.triples:
        drawn = random.Random(asked.triples[1])
        sequences = [
            (tuple(drawn.choice(list(OPERATIONS)) for _ in range(3)), drawn.random() < 0.5) for _ in range(asked.triples[0])
        ]
    else:
        sequences = list(itertools.product(itertools.product(OPERATIONS, repeat=2), (False, True)))
    memory = "/dev/shm" if os.path.isdir("/dev/shm") else None
    with tempfile.TemporaryDirectory(dir=memory) as top:
        root = os.path.realpath(top) + "/w"
        cases = {f"{root}/c{number}": sequence for number, sequence in enumerate(sequences)}
        for case, (_, is_full) in cases.items():
            start(case, is_full)
        wrong = follow(asked.command + [root], root, cases, asked.gap)
    for (steps, is_full), paths in wrong[:20]:
        print(", ".join(steps), "(full)" if is_full else "(bare)", "->", "; ".join(paths[:4]))
    print(f"{len(cases)} sequences, {len(wrong)} wrong")
    return 1 if wrong else 0


def follow(command, root, cases, gap):
    """The sequences after which the reader has something else than stands there, and where."""
    watcher = subprocess.Popen(command, stdin=subprocess.PIPE, stdout=subprocess.PIPE, stderr=subprocess.PIPE, text=True)
    line = watcher.stderr.readline()
    while line and "watching" not in line:
        line = watcher.stderr.readline()
    threading.Thread(target=watcher.stderr.read, daemon=True).start()
    reader = Reader(root, cases, watcher.stdout)
    reader.start()
    for rank in range(len(next(iter(cases.values()))[0]) if gap else 1):
        for case, (steps, _) in cases.items():
            os.chdir(case)
            for step in steps[rank : rank + 1] if gap else steps:
                try:
                    OPERATIONS[step]()
                except OSError:
                    pass  # there is nothing to do it with
        time.sleep(gap)
    os.chdir("/")
    # What happened last is told last, but for what waits at the end.
    os.mkdir(root + "/end")
    reader.is_at_end.wait(300)
    time.sleep(1)
    watcher.stdin.close()
    reader.join(60)
    wrong = []
    for case, sequence in cases.items():
        there, have = read(case), reader.cases[case]
        paths = [path for path in {**there, **have} if path not in there or path not in have or there[path] != have[path]]
        if paths or watcher.wait() != 0:
            wrong.append((sequence, [path[len(case) + 1 :] for path in sorted(paths)]))
    return wrong


sys.exit(main())
