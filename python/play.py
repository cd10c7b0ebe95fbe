"""Plays scripts through the C library, and prints what the program mirror prints of them.

play.py SCRIPT                        prints what comes of the script
play.py --cases PROGRAM DOCUMENT..    compares each script of the documents with the block below it, and with what
                                      PROGRAM, a built mirror, prints of it (- for none); the last line says how many
                                      are the same. A number above 64 bits, which C can't say, is left out.
play.py --random PROGRAM SEED COUNT   compares so many random scripts with what PROGRAM prints of them
"""
import random
import subprocess
import sys
import tempfile

import ndf

ERRORS = {"Generic": ndf.GENERIC, "PathNotFound": ndf.PATH_NOT_FOUND, "WatchNotFound": ndf.WATCH_NOT_FOUND}
ERROR_WORDS = ["Generic", "Io", "PathNotFound", "WatchNotFound", "Full", "Memory"]


class TooLarge(Exception):
    """A number above 64 bits."""


def number(word):
    value = int(word)
    if value >= 2**64:
        raise TooLarge
    return value


def parts_of(text):
    """The parts of a path, in an order that is that of paths: the root, `.`, `..`, names by their bytes."""
    parts = [(0, b"/")] if text.startswith("/") else []
    for i, part in enumerate(text.split("/")):
        if part == "..":
            parts.append((2, b".."))
        elif part == "." and i == 0:
            parts.append((1, b"."))
        elif part not in ("", "."):
            parts.append((3, part.encode()))
    return tuple(parts)


def text_of(parts):
    """The text of a path."""
    if not parts:
        return '""'
    names = [name.decode() for _, name in parts]
    return "/" + "/".join(names[1:]) if parts[0][0] == 0 else "/".join(names)


def played(paths, kind, first):
    """A reader's set of paths after an event."""
    word = ndf.WORDS[kind]
    if word.startswith("Create("):
        return paths | {first}
    if word.startswith("Remove("):
        return {path for path in paths if path[: len(first)] != first}
    return paths


def event_line(head, event):
    options = [f"tracker={event.tracker}"] if event.tracker is not None else []
    options += [f"info={event.info}"] if event.info is not None else []
    options += ["rescan"] if event.rescan else []
    paths = [text_of(parts_of(path)) for path in event.paths]
    return " ".join([head, str(event.time), event.word, ",".join(options) or "-", *paths])


class Player:
    """What a script has come to."""

    def __init__(self, timeout, taken, given, start):
        self.debouncer = ndf.Debouncer(timeout, taken, given)
        self.reader = set(start)
        self.raw = set(start)
        self.lines = []

    def run(self, command, fields):
        try:
            getattr(self, command)(*fields)
        except ndf.Refused as refused:
            self.lines.append(f"refused {ndf.CODES[refused.code].capitalize()}")

    def event(self, moment, kind, options, *paths):
        said = {}
        for option in [] if options == "-" else options.split(","):
            name, _, value = option.partition("=")
            said[name] = value if name == "info" else number(value) if name == "tracker" else True
        paths = ["" if path == '""' else path for path in paths]
        self.debouncer.feed(ndf.KIND_OF_WORD[kind], *paths, moment=number(moment), **said)
        if paths:
            self.raw = played(self.raw, ndf.KIND_OF_WORD[kind], parts_of(paths[0]))

    def error(self, word):
        self.debouncer.add_error(ERRORS[word])

    def root(self, mode, path):
        self.debouncer.watch("" if path == '""' else path, mode == "Recursive")

    def unroot(self, path):
        self.debouncer.unwatch("" if path == '""' else path)

    def errors(self):
        errors = self.debouncer.errors()
        self.lines.append(f"errors {len(errors)}")
        self.lines += [f"error {ERROR_WORDS[error.kind]}" for error in errors]

    def tick(self, moment):
        batch = self.debouncer.tick(number(moment))
        self.lines.append(f"batch {moment} {len(batch)}")
        self.play(batch)
        self.lines += [event_line("event", event) for event in batch]

    def play(self, events):
        for event in events:
            if event.paths:
                self.reader = played(self.reader, event.kind, parts_of(event.paths[0]))

    def end(self):
        counts = self.debouncer.counts()
        self.lines.append(f"taken {counts.taken} given {counts.given} waiting {counts.waiting}")
        waiting = self.debouncer.outlook()
        self.lines += [event_line("wait", event) for event in waiting]
        self.paths("reader", self.reader)
        self.play(waiting)
        self.paths("after", self.reader)
        self.paths("raw", self.raw)
        return "".join(line + "\n" for line in self.lines)

    def paths(self, word, paths):
        self.lines.append(" ".join([word, *(text_of(path) for path in sorted(paths))]))


def play(script):
    """What mirror prints of the script, which is one."""
    timeout, counts, start, player = 0, (0, 0), [], None
    for line in script.splitlines():
        if not line or line.startswith("#"):
            continue
        word, *fields = line.split(" ")
        if word == "timeout":
            timeout = number(fields[0])
        elif word == "counts":
            counts = tuple(map(number, fields))
        elif word == "start":
            start.append(parts_of("" if fields[0] == '""' else fields[0]))
        else:
            player = player or Player(timeout, *counts, start)
            player.run(word, fields)
    player = player or Player(timeout, *counts, start)
    return player.end()


def by_program(program, script):
    with tempfile.NamedTemporaryFile("w") as file:
        file.write(script)
        file.flush()
        return subprocess.run([program, file.name], capture_output=True, text=True).stdout


def check(program, documents):
    same, left_out, all_same = 0, 0, True
    for document in documents:
        with open(document, encoding="utf-8") as file:
            sections = file.read().split("\n## ")[1:]
        for section in sections:
            name, *blocks = section.split("\n```\n")
            name = name.splitlines()[0]
            # A script that is at fault is .ci/programs/mirror.sh's, one whose events are sorted as they stand the
            # crate's own.
            if not blocks or "not a command" in section or (len(blocks) > 2 and "prints" not in blocks[1]):
                continue
            script, wanted = blocks[0] + "\n", blocks[2] + "\n" if len(blocks) > 3 else None
            try:
                got = play(script)
            except TooLarge:
                left_out += 1
                continue
            others = [wanted] if wanted is not None else []
            others += [by_program(program, script)] if program != "-" else []
            if not others:
                continue
            if all(other == got for other in others):
                same += 1
            else:
                all_same = False
                print(f"{name} differs: the library\n{got}and not\n" + "or\n".join(others))
    print(f"{same} scripts are the same through the library, {left_out} have a number above 64 bits")
    return all_same and same > 0


PATHS = ["/", "/a", "/a/b", "/a/b/c", "/ab", "/b", "/b/a", "a", "..", ".", '""']


def random_event(chance, moment):
    options = [f"tracker={chance.randrange(3)}"] if chance.random() < 0.5 else []
    options += ["info=i"] if chance.random() < 0.1 else []
    options += ["rescan"] if chance.random() < 0.05 else []
    options += ["exists"] if chance.random() < 0.5 else []
    renames = ["Modify(Name(Any))", "Modify(Name(To))", "Modify(Name(From))"]
    kind = chance.choice(renames if chance.random() < 0.4 else ndf.WORDS)
    paths = [chance.choice(PATHS) for _ in range(chance.choice([0, 1, 1, 1, 1, 1, 2]))]
    return " ".join(["event", str(moment), kind, ",".join(options) or "-", *paths])


def random_script(chance):
    lines = [f"timeout {chance.randrange(80)}"]
    lines += [f"counts {2**64 - 1 - chance.randrange(8)} 5"] if chance.random() < 0.1 else []
    lines += [f"start {chance.choice(PATHS)}" for _ in range(chance.randrange(3))]
    moment = 0
    for _ in range(chance.randrange(60)):
        moment = max(0, moment + chance.randrange(-3, 12))
        path = chance.choice(PATHS)
        mode = chance.choice(["Recursive", "NonRecursive"])
        others = [f"error {chance.choice([*ERRORS])}", "errors", f"root {mode} {path}", f"unroot {path}"]
        ticks = [f"tick {moment + chance.randrange(100)}"]
        lines.append(chance.choice([random_event(chance, moment)] * 8 + ticks * 2 + others))
    return "".join(line + "\n" for line in lines)


def check_random(program, seed, count):
    chance = random.Random(seed)
    for _ in range(count):
        script = random_script(chance)
        got, wanted = play(script), by_program(program, script)
        if got != wanted:
            print(f"of the script\n{script}comes through the library\n{got}and not\n{wanted}")
            return False
    print(f"{count} random scripts are the same through the library")
    return True


def main(words):
    if len(words) == 4 and words[0] == "--random":
        return 0 if check_random(words[1], int(words[2]), int(words[3])) else 1
    if len(words) > 2 and words[0] == "--cases":
        return 0 if check(words[1], words[2:]) else 1
    if len(words) == 1:
        with open(words[0], encoding="utf-8") as file:
            print(play(file.read()), end="")
        return 0
    print("usage: play.py SCRIPT | --cases PROGRAM DOCUMENT.. | --random PROGRAM SEED COUNT", file=sys.stderr)
    return 2


if __name__ == "__main__":
    sys.exit(main(sys.argv[1:]))
