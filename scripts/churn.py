#!/usr/bin/env python3
"""Changes a folder under folder_mirror and document_index, and says whether copy and answers are right at the end.

usage: scripts/churn.py [--times N] [--changes N] [--seed N] [--renames] [--mirror PROGRAM] [--index PROGRAM]
                        [--journal PROGRAM]

The programs are crates/folder_mirror/out/folder_mirror and crates/document_index/out/document_index if none are
given (rt ci builds them). Each of the 50 times both watch one folder, in which 150 changes follow one another
within some seconds: files are written, written over by a rename, renamed, removed, made and removed again before
the next look; folders come and go with what is in them; permission closes files and folders for a while. As root
the programs run as nobody, so that permission means something. The mirror is ended by the end of its input at the
last change; then its status is 0 and the copy is the folder, path by path and byte by byte. The index is asked for each
word until its answers are right, for a minute at most. The last line is 'N right, M wrong'; a wrong one is said
with its seed.

With --renames half of the changes are renames, of files and of folders: onto each other, into each other's place,
through a third name, out of the folder and back. A journal of the folder (crates/change_journal/out/change_journal)
is read too, and its reader's paths are those of the folder at the end. Now and then a folder that lay still is
renamed to where nothing is: the line before the last says how many of these the mirror moved, of how many. If it is
less than nine of ten, the status is 1.
"""
import argparse
import contextlib
import os
import random
import shutil
import subprocess
import sys
import tempfile
import time

if "--help" in sys.argv[1:]:
    sys.exit(print(*[line for line in __doc__.split("\n") if line][:2], sep="\n"))

TOP = os.path.dirname(os.path.dirname(os.path.abspath(__file__)))
WORDS = ["apple", "birch", "cedar", "dune", "elm", "fern"]
AS_NOBODY = ["setpriv", "--reuid=65534", "--regid=65534", "--clear-groups", "--no-new-privs"]
NOBODY = 65534


def program(name):
    return os.path.join(TOP, "crates", name, "out", name)


class Folder:
    """The folder that changes."""

    def __init__(self, top, draw):
        self.top, self.draw = top, draw
        self.number = 0
        os.mkdir(top)
        for _ in range(20):
            self.write()

    def place(self):
        """Returns the path of a folder, which it makes if there is none."""
        path = os.path.join(self.top, *self.draw.sample(["a", "b", "c"], self.draw.randrange(3)))
        os.makedirs(path, exist_ok=True)
        return path

    def files(self):
        return sorted(os.path.join(at, it) for at, _, names in os.walk(self.top) for it in names)

    def text(self):
        self.number += 1
        words = self.draw.sample(WORDS, self.draw.randrange(1, 4))
        return " ".join(words) + f" {self.number}\n" + "x " * self.draw.randrange(200)

    def write(self, path=None):
        path = path or os.path.join(self.place(), f"file{self.draw.randrange(12)}")
        if not os.path.isdir(path):
            with open(path, "w", encoding="utf-8") as it:
                it.write(self.text())

    def write_over(self):
        path = os.path.join(self.place(), f"file{self.draw.randrange(12)}")
        self.write(path + ".new")
        os.replace(path + ".new", path)

    def rename(self):
        files = self.files()
        if files:
            os.replace(self.draw.choice(files), os.path.join(self.place(), f"file{self.draw.randrange(12)}"))

    def remove(self):
        files = self.files()
        if files:
            os.remove(self.draw.choice(files))

    def come_and_go(self):
        path = os.path.join(self.place(), f"brief{self.draw.randrange(4)}")
        self.write(path)
        time.sleep(self.draw.uniform(0, 0.06))
        os.remove(path)

    def come_and_go_as_folder(self):
        path = os.path.join(self.place(), "d")
        if os.path.isdir(path):
            shutil.rmtree(path)
        else:
            os.mkdir(path)
            for number in range(3):
                self.write(os.path.join(path, f"file{number}"))

    def close(self):
        every = [os.path.join(at, it) for at, folders, names in os.walk(self.top) for it in [*folders, *names]]
        if every:
            os.chmod(self.draw.choice(every), self.draw.choice([0, 0o444, 0o111]))

    def open(self):
        for at, folders, names in os.walk(self.top):
            for name in folders:
                os.chmod(os.path.join(at, name), 0o755)
            for name in names:
                os.chmod(os.path.join(at, name), 0o644)

    def folders(self):
        return sorted(os.path.join(at, it) for at, names, _ in os.walk(self.top) for it in names)

    def rename_folder(self):
        folders = self.folders()
        if folders:
            # Into itself it can't go, nor onto a folder that has something.
            with contextlib.suppress(OSError):
                os.rename(self.draw.choice(folders), os.path.join(self.place(), self.draw.choice("abcd")))

    def exchange(self):
        every = [*self.files(), *self.folders()]
        if len(every) > 1:
            one, other = self.draw.sample(every, 2)
            third = os.path.join(self.top, "third")
            if not one.startswith(other) and not other.startswith(one):
                os.rename(one, third)
                os.rename(other, one)
                os.rename(third, other)

    def out_and_back(self):
        every = [*self.files(), *self.folders()]
        if every:
            path = self.draw.choice(every)
            os.rename(path, self.top + ".away")
            time.sleep(self.draw.choice([0, 0.06]))
            os.rename(self.top + ".away", path)

    def rename_still(self):
        """Renames a folder that lay still for a while to where nothing is. Returns both paths."""
        self.number += 1
        old, new = (os.path.join(self.top, f"{name}{self.number}") for name in ("still", "moved"))
        os.mkdir(old)
        for number in range(3):
            self.write(os.path.join(old, f"file{number}"))
        time.sleep(0.5)
        os.rename(old, new)
        time.sleep(0.5)
        return old, new

    def change_or_rename(self):
        renames = [self.rename, self.rename_folder, self.rename_folder, self.exchange, self.out_and_back]
        # A file can have come to a folder's name, and a folder to a file's: what can't be done is left.
        with contextlib.suppress(OSError):
            if self.draw.randrange(2):
                self.draw.choice(renames)()
                time.sleep(self.draw.choice([0, 0, 0.01, 0.05]))
            else:
                self.change()

    def change(self):
        deeds = [self.write, self.write, self.write_over, self.rename, self.remove, self.come_and_go]
        self.draw.choice([*deeds, self.come_and_go, self.come_and_go_as_folder, self.close, self.open])()
        time.sleep(self.draw.choice([0, 0, 0.01, 0.05]))


def shape(top):
    """Returns of each path below the folder its bytes, or that it is a folder. Permissions alone aren't followed."""
    found = {}
    for at, folders, files in os.walk(top):
        for name in folders:
            found[os.path.relpath(os.path.join(at, name), top)] = "folder"
        for name in files:
            path = os.path.join(at, name)
            with open(path, "rb") as it:
                found[os.path.relpath(path, top)] = it.read()
    return found


def start(words, room, output):
    # Its standard input is a pipe of its own user's: that of another one can't be opened by its name.
    words = ["sh", "-c", 'cat | "$@"', "sh", *words]
    words = [*(AS_NOBODY if os.geteuid() == 0 else []), *words]
    said = open(os.path.join(room, os.path.basename(output) + ".said"), "wb")
    return subprocess.Popen(words, cwd=room, stdin=subprocess.PIPE, stdout=subprocess.PIPE, stderr=said)


def ask(index, word):
    index.stdin.write(word.encode() + b"\n")
    index.stdin.flush()
    answer = []
    while line := index.stdout.readline().decode().rstrip("\n"):
        answer.append(line)
    # Texts sort otherwise than paths do: `d.new` comes before `d/file`.
    return sorted(answer)


def documents_with(word, room):
    found = []
    for at, _, names in os.walk(os.path.join(room, "from")):
        for name in names:
            path = os.path.join(at, name)
            with open(path, encoding="utf-8") as it:
                if word in it.read().split():
                    found.append(os.path.relpath(path, room))
    return sorted(found)


def paths_of(journal):
    """Returns the paths of whoever plays the journal's lines."""
    paths = set()
    for line in journal.splitlines():
        kind, path, *_ = [*line.split("\t"), ""]
        if kind.startswith("Remove"):
            paths = {it for it in paths if it != path and not it.startswith(path + "/")}
        elif kind.startswith("Create"):
            paths.add(path)
    return paths


def wait_for(path, text):
    for _ in range(600):
        with open(path, encoding="utf-8") as it:
            if text in it.read():
                return
        time.sleep(0.1)


def churn(seed, changes, mirror, index, journal=None):
    """Returns what was wrong, how many folders that lay still were moved by the mirror, and of how many. With a
    journal half of the changes are renames."""
    draw = random.Random(seed)
    with tempfile.TemporaryDirectory() as room:
        os.chmod(room, 0o777)
        if os.geteuid() == 0:
            os.chown(room, NOBODY, NOBODY)
        # What the folder has is nobody's too, so that permission means the same to whoever reads it.
        os.umask(0o022)
        folder = Folder(os.path.join(room, "from"), draw)
        words = ["--timeout", "100", "--interval", "20"]
        copies = start([mirror, "from", "to", *words, "--until-eof"], room, "mirror")
        answers = start([index, "from", *words], room, "index")
        wait_for(os.path.join(room, "mirror.said"), "watching")
        wait_for(os.path.join(room, "index.said"), "watching")
        lines = start([journal, "from", *words, "--initial", "--until-eof"], room, "journal") if journal else None
        if lines:
            wait_for(os.path.join(room, "journal.said"), "watching")
        still = []
        for number in range(changes):
            (folder.change_or_rename if journal else folder.change)()
            if journal and number % 30 == 29:
                folder.open()
                still.append(folder.rename_still())
        folder.open()
        copies.stdin.close()
        done = copies.stdout.read().decode()
        status = copies.wait()
        copies.stdout.close()
        moves = {line for line in done.splitlines() if line.startswith("move ")}
        told = sum(f"move {os.path.relpath(old, room)}\t{os.path.relpath(new, room)}" in moves for old, new in still)
        wrong = [] if status == 0 else [f"the mirror's status is {status}"]
        here, there = shape(os.path.join(room, "from")), shape(os.path.join(room, "to"))
        for path in sorted(here.keys() | there.keys()):
            if here.get(path) != there.get(path):
                wrong.append(f"the copy at {path}: {there.get(path)!r:.60}, and not {here.get(path)!r:.60}")
        if lines:
            lines.stdin.close()
            read = paths_of(lines.stdout.read().decode())
            lines.wait()
            lines.stdout.close()
            stand = {"from", *(os.path.join("from", it) for it in here)}
            wrong += [f"the journal's reader at {it}" for it in sorted(read ^ stand)]
        for word in WORDS:
            wanted = documents_with(word, room)
            until = time.monotonic() + 60
            while (answer := ask(answers, word)) != wanted and time.monotonic() < until:
                time.sleep(0.1)
            if answer != wanted:
                wrong.append(f"the answer to {word}: {sorted(set(answer) ^ set(wanted))}")
        answers.stdin.close()
        answers.wait()
        answers.stdout.close()
        if wrong:
            for name in ("mirror", "index", *(["journal"] if lines else [])):
                with open(os.path.join(room, f"{name}.said"), encoding="utf-8", errors="replace") as it:
                    wrong += [f"  it said: {line.strip()}" for line in list(it)[-3:]]
        return wrong, told, len(still)


def main():
    words = argparse.ArgumentParser(description=__doc__, formatter_class=argparse.RawDescriptionHelpFormatter)
    words.add_argument("--times", type=int, default=50)
    words.add_argument("--changes", type=int, default=150)
    words.add_argument("--seed", type=int, default=random.randrange(1 << 32))
    words.add_argument("--renames", action="store_true")
    words.add_argument("--mirror", default=program("folder_mirror"))
    words.add_argument("--index", default=program("document_index"))
    words.add_argument("--journal", default=program("change_journal"))
    words = words.parse_args()
    right = told = still = 0
    with tempfile.TemporaryDirectory() as reached:
        # Whoever runs the programs can reach these copies of them.
        os.chmod(reached, 0o755)
        mirror, index = (shutil.copy(it, reached) for it in (words.mirror, words.index))
        journal = shutil.copy(words.journal, reached) if words.renames else None
        for seed in range(words.seed, words.seed + words.times):
            wrong, moved, folders = churn(seed, words.changes, mirror, index, journal)
            right, told, still = right + (not wrong), told + moved, still + folders
            for it in [f"seed {seed}:", *wrong] if wrong else []:
                print(it, flush=True)
    if words.renames:
        print(f"{told} of {still} folders that lay still were moved")
    print(f"{right} right, {words.times - right} wrong")
    return 1 if right < words.times or 10 * told < 9 * still else 0


if __name__ == "__main__":
    sys.exit(main())
