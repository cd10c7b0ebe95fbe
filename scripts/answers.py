#!/usr/bin/env python3
"""Asks the Rust crate for its answers to random scripts, and writes them down for `worked_cases --answers`.

usage: scripts/answers.py ORACLE SOURCE FILE [SEED [PORTION]]

FILE is crates/worked_cases/data/ANSWERS, which was made with the seed 1 and the portion 1. SOURCE is the folder with
the crate's sources: src/lib.rs and src/cache.rs of notify-debouncer-full 0.6.0, under the names
src--src--lib.rs.txt and src--src--cache.rs.txt. ORACLE is the folder of the oracle, a harness that is built round these
two files and reads the scripts of the program `mirror`: build.sh SOURCE OUT makes it, harness and shims hold its
own code. With `--later` it gives the crate each moment raised to the greatest so far, as this debouncer does. What has
file numbers is asked of a second program, made of the same two files with scripts/answers/numbers.rs as its harness and
scripts/answers/walkdir.rs as its walk through folders. Nothing of the crate stands in this repository.

Left out, and counted, are scripts in which events of one last path come from more than one queue, whose order the
crate leaves to a hashed map (`# order-open`); those that rename a folder below which something waits, which the crate
leaves behind (`# folder-move`); and those with a moment that the crate's clock can't hold (status 9).

FILE begins with lines that say what it is, each with a `#`. Then comes a list of signs, a line each: a sign, and the
text that it stands for, in which `|` is a line feed and `_` a space. After an empty line each line is an answer: the
first 16 digits of the SHA-256 of what was printed, a space, and the script in signs; a character that is no sign stands
for itself. A script that begins with a line `numbers` is carried out over a map of file numbers, and one that
begins with a line `calls` is a list of calls of such a map.
"""
import hashlib
import os
import random
import re
import shutil
import subprocess
import sys
import tempfile
from collections import Counter

if __name__ == "__main__" and "--help" in sys.argv[1:]:
    sys.exit(print(*[line for line in __doc__.split("\n") if line][:2], sep="\n"))

KINDS = ["Any", "Other"]
KINDS += [f"Access({kind})" for kind in ["Any", "Read", "Other"]]
MODES = ["Any", "Execute", "Read", "Write", "Other"]
KINDS += [f"Access({kind}({mode}))" for kind in ["Open", "Close"] for mode in MODES]
KINDS += [f"Create({kind})" for kind in ["Any", "File", "Folder", "Other"]]
KINDS += [f"Modify({kind})" for kind in ["Any", "Other"]]
KINDS += [f"Modify(Data({change}))" for change in ["Any", "Size", "Content", "Other"]]
KINDS += [
    f"Modify(Metadata({kind}))"
    for kind in ["Any", "AccessTime", "WriteTime", "Permissions", "Ownership", "Extended", "Other"]
]
KINDS += [f"Modify(Name({mode}))" for mode in ["Any", "To", "From", "Both", "Other"]]
KINDS += [f"Remove({kind})" for kind in ["Any", "File", "Folder", "Other"]]
CREATIONS = [kind for kind in KINDS if kind.startswith("Create")]
REMOVALS = [kind for kind in KINDS if kind.startswith("Remove")]
CHANGES = [kind for kind in KINDS if kind.startswith("Modify") and "Name" not in kind]
FROM, TO, EITHER = "Modify(Name(From))", "Modify(Name(To))", "Modify(Name(Any))"

COMMANDS = ["|event_", "|tick_", "|root_Recursive", "|root_NonRecursive", "|unroot", "|errors", "|error_Generic"]
COMMANDS += ["|error_PathNotFound", "|error_WatchNotFound", "|start", "|counts_", "timeout_", "numbers|", "calls"]
COMMANDS += ["|add_Recursive", "|add_NonRecursive", "|remove", "|rescan", "_Recursive", "_NonRecursive"]
OPTIONS = ["tracker=", "info=", "rescan", "exists"]
PATHS = ["/", "/a", "/a/b", "/a/b/c", "/a/d", "/ab", "/ab/b", "/b", "/b/a", "/b/c", "/c", "/d", "/e", "/f"]
ODD_PATHS = ['""', ".", "..", "a", "a/b", "./a", "../a", "/a//b/", "/a/./b", "/..", "//"]
SIGNS = "ABCDEFGHIJKLMNOPQRSTUVWXYZabcdefghijklmnopqrstuvwxyz!$%&'*+;<>?@[]^`{}~./()\":αβγδεζηθικλμνξοπρστυφχψω"


# Scripts: each of these gives the lines of one.


def honest(chance):
    """Events of a tree in which things are made, changed and removed, as a watcher tells them."""
    tree = {"/": "Folder"}
    for path in chance.sample(PATHS[1:], chance.randrange(6)):
        add(tree, path, chance.choice(["File", "Folder"]))
    lines = header(chance) + [f"start {path}" for path in sorted(tree)]
    moment = 0
    for _ in range(length(chance)):
        moment += chance.choice([0, 0, 1, 2, 5, 20])
        lines += timed(chance, moment)
        path = chance.choice(PATHS[1:])
        if path in tree:
            if chance.random() < 0.5:
                lines.append(f"event {moment} {chance.choice(CHANGES)} - {path}")
                continue
            below = sorted((one for one in tree if one.startswith(path + "/")), reverse=True)
            told = below if chance.random() < 0.5 else []
            for one in [*told, path]:
                lines.append(f"event {moment} Remove({chance.choice(['Any', tree[one]])}) - {one}")
            for one in [*below, path]:
                del tree[one]
        else:
            kind = chance.choice(["File", "Folder"])
            before = set(tree)
            if add(tree, path, kind):
                for one in sorted(set(tree) - before):
                    lines.append(f"event {moment} Create({chance.choice(['Any', tree[one]])}) - {one}")
    return lines + ending(chance, moment)


def add(tree, path, kind):
    """Adds the path with the folders above it, unless one of these is a file."""
    above = [path[:at] for at in range(1, len(path)) if path[at] == "/"]
    if any(tree.get(one, "Folder") != "Folder" for one in above):
        return False
    for one in above:
        tree.setdefault(one, "Folder")
    tree[path] = kind
    return True


def stepping(chance):
    """Events on few paths while the clock steps forward and back, with ticks right before, at and after a timeout."""
    timeout = chance.choice([0, 1, 5, 10, 50])
    lines = [f"timeout {timeout}"]
    moments, moment = [0], 0
    for _ in range(length(chance)):
        moment = max(0, moment + chance.choice([-60, -7, -1, 0, 0, 1, 1, 3, 8, 30]))
        if chance.random() < 0.3:
            moment = max(0, chance.choice(moments) + timeout + chance.choice([-1, 0, 1]))
            lines.append(f"tick {moment}")
            continue
        moments.append(moment)
        kind = chance.choice([*CREATIONS, *REMOVALS, *CHANGES, "Any", "Access(Any)", FROM, TO])
        options = f"tracker={chance.randrange(2)}" if "Name" in kind else "-"
        lines.append(f"event {moment} {kind} {options} {chance.choice(PATHS[:5])}")
    return lines + ending(chance, moment)


def renames(chance, with_trackers=True):
    """Renames among few files, with what else happens to them."""
    names = chance.sample(["/a", "/b", "/c", "/d", "/e", "/f", "/ab", "/a/b", "/b/a"], chance.randrange(2, 5))
    lines = header(chance) + [f"start {path}" for path in names if chance.random() < 0.5]
    moment, tracker = 0, 0
    count = length(chance)
    while len(lines) < count:
        moment += chance.choice([0, 1, 1, 2, 9, 30])
        lines += timed(chance, moment)
        drawn = chance.random()
        if drawn < 0.6:
            tracker += 1
            first, second = chance.choice(names), chance.choice(names)
            one = f"tracker={tracker}" if with_trackers or chance.random() < 0.2 else "-"
            two = one if chance.random() < 0.85 else f"tracker={chance.randrange(tracker + 1)}"
            exists = "exists" if two == "-" else f"{two},exists"
            if chance.random() < 0.9:
                lines.append(f"event {moment} {chance.choice([FROM, FROM, EITHER])} {one} {first}")
            if chance.random() < 0.2:
                lines.append(f"event {moment} {chance.choice(KINDS)} - {chance.choice(names)}")
            moment += chance.choice([0, 1, 1, 60])
            if chance.random() < 0.9:
                kind, options = chance.choice([(TO, two), (TO, two), (EITHER, exists)])
                lines.append(f"event {moment} {kind} {options} {second}")
        else:
            kind = chance.choice([*CREATIONS, *REMOVALS, *CHANGES, "Any", "Modify(Name(Both))"])
            lines.append(f"event {moment} {kind} - {chance.choice(names)}")
    return lines + ending(chance, moment)


def untracked(chance):
    """Renames of which most have no tracker."""
    return renames(chance, with_trackers=False)


def folders(chance):
    """Renames and removals of folders, with what waits in them."""
    lines = header(chance)
    moment = 0
    for _ in range(length(chance)):
        moment += chance.choice([0, 1, 3, 15])
        lines += timed(chance, moment)
        kind = chance.choice([*CREATIONS, *REMOVALS, *REMOVALS, *CHANGES, FROM, TO])
        options = f"tracker={chance.randrange(2)}" if "Name" in kind else "-"
        lines.append(f"event {moment} {kind} {options} {chance.choice(PATHS)}")
    return lines + ending(chance, moment)


def wild(chance):
    """Events of all kinds, with all options and any paths, roots, errors, rescans, counts."""
    lines = header(chance)
    lines += [f"start {chance.choice(PATHS + ODD_PATHS)}" for _ in range(chance.randrange(3))]
    moment = 0
    for _ in range(length(chance)):
        moment = max(0, moment + chance.choice([-5, 0, 1, 4, 20]))
        lines += timed(chance, moment)
        lines.append(any_command(chance, moment))
    return lines + ending(chance, moment)


def any_command(chance, moment):
    path = chance.choice(PATHS + ODD_PATHS)
    drawn = chance.random()
    if drawn < 0.8:
        return any_event(chance, moment)
    mode = chance.choice(["Recursive", "NonRecursive"])
    error = chance.choice(["Generic", "PathNotFound", "WatchNotFound"])
    return chance.choice([f"root {mode} {path}", f"unroot {path}", f"error {error}", "errors"])


def any_event(chance, moment, counts=(0, 1, 1, 1, 1, 1, 1, 1, 2, 3)):
    options = [f"tracker={chance.choice([0, 1, 2, 2**64 - 1])}"] if chance.random() < 0.4 else []
    options += [f"info={chance.randrange(3)}"] if chance.random() < 0.1 else []
    options += ["rescan"] if chance.random() < 0.08 else []
    options += ["exists"] if chance.random() < 0.4 else []
    chance.shuffle(options)
    kind = chance.choice([FROM, TO, EITHER]) if chance.random() < 0.3 else chance.choice(KINDS)
    paths = [chance.choice(PATHS * 3 + ODD_PATHS) for _ in range(chance.choice(counts))]
    return " ".join(["event", str(moment), kind, ",".join(options) or "-", *paths])


def counted(chance):
    """Events of which no more can be counted after some."""
    room = chance.randrange(8)
    taken = 2**64 - 1 - room
    lines = [f"timeout {chance.choice([0, 10, 50])}", f"counts {taken} {chance.choice([0, 7, taken])}"]
    return lines + wild(chance)[1:]


def great(chance):
    """Moments and timeouts of any size, some above what the crate's clock can hold."""
    sizes = [2**32, 2**63, 2**64, 2**80, 10**27, 10**28, 2**128 - 1]
    base, timeout = chance.choice(sizes), chance.choice([0, 50, *sizes])
    lines = [f"timeout {timeout}"]
    for _ in range(chance.randrange(1, 6)):
        moment = min(2**128 - 1, base + chance.randrange(100))
        lines.append(f"event {moment} {chance.choice(KINDS)} - {chance.choice(PATHS[:4])}")
        if chance.random() < 0.5:
            lines.append(f"tick {min(2**128 - 1, moment + timeout - chance.randrange(3) + 1)}")
    return lines


def long(chance):
    """As `folders`, then events of any kind on a path each, and longer."""
    lines = folders(chance)
    moment = 100
    for _ in range(chance.randrange(20, 60)):
        moment += chance.choice([0, 1, 2, 10])
        lines += timed(chance, moment)
        lines.append(any_event(chance, moment, counts=[1]))
    return lines + ending(chance, moment)


def numbered(chance):
    """Roots, renames and rescans over a map of file numbers, by which renames without trackers are joined."""
    lines = ["numbers", f"timeout {chance.choice([0, 10, 50])}"]
    paths = PATHS[1:9] if chance.random() < 0.5 else ["/a", "/b", "/c", "/d"]
    moment = 0
    for _ in range(length(chance)):
        moment = max(0, moment + chance.choice([-3, 0, 1, 1, 4, 20]))
        lines += timed(chance, moment)
        path, drawn = chance.choice(paths), chance.random()
        if drawn < 0.25:
            mode = chance.choice(["Recursive", "NonRecursive"])
            lines.append(chance.choice([f"root {mode} {path}"] * 3 + [f"unroot {path}"]))
        elif drawn < 0.3:
            lines.append(f"event {moment} Other rescan")
        elif drawn < 0.65:
            second = chance.choice(paths)
            options = chance.choice(["-", "-", "-", "tracker=1", "tracker=2", "exists"])
            lines.append(f"event {moment} {chance.choice([FROM, EITHER])} - {path}")
            lines.append(f"event {moment} {chance.choice([TO, TO, EITHER])} {options} {second}")
        else:
            kind = chance.choice([*CREATIONS, *REMOVALS, *CHANGES, "Any", "Other", FROM, TO])
            lines.append(f"event {moment} {kind} - {path}")
    return lines + [f"tick {moment + 100}"]


def rooted(chance):
    """Roots that lie in one another, and what is scanned below them."""
    lines = ["numbers", "timeout 10"]
    paths = ["/a", "/a/b", "/a/b/c", "/a/d"]
    for moment in range(length(chance)):
        path, drawn = chance.choice(paths), chance.random()
        if drawn < 0.4:
            lines.append(f"root {chance.choice(['Recursive', 'NonRecursive'])} {path}")
        elif drawn < 0.6:
            lines.append(f"unroot {path}")
        elif drawn < 0.7:
            lines.append(f"event {moment} Other rescan")
        else:
            lines.append(f"event {moment} {chance.choice([*CREATIONS, *CHANGES])} - {path}")
    return lines + ["tick 100"]


def calls(chance):
    """Calls of a map of file numbers."""
    lines = ["calls"]
    for _ in range(length(chance)):
        path, drawn = chance.choice(PATHS + ODD_PATHS[:2]), chance.random()
        modes = [chance.choice(["Recursive", "NonRecursive"]) for _ in range(3)]
        if drawn < 0.5:
            lines.append(f"add {modes[0]} {path}")
        elif drawn < 0.85:
            lines.append(f"remove {path}")
        else:
            roots = [f"{mode} {chance.choice(PATHS)}" for mode in modes[: chance.randrange(4)]]
            lines.append(" ".join(["rescan", *roots]))
    return lines


def header(chance):
    return [f"timeout {chance.choice([0, 1, 10, 50, 50, 50])}"]


def length(chance):
    return chance.choice([1, 2, 3, 4, 5, 6, 8, 10, 12, 14, 16, 18, 20, 24])


def timed(chance, moment):
    """A tick, now and then."""
    if chance.random() < 0.85:
        return []
    return [f"tick {moment + chance.choice([0, 5, 10, 49, 50, 51])}"]


def ending(chance, moment):
    """A tick that has all that waits, in half of the scripts; the outlook has it in the others."""
    return [f"tick {moment + 100}"] if chance.random() < 0.5 else []


# How many scripts of each kind are kept.
WANTED = {
    honest: 5000, stepping: 3500, renames: 3500, untracked: 1500, folders: 2500, wild: 4000, counted: 500, great: 300,
    long: 400, numbered: 2500, rooted: 500, calls: 2000,
}

# Those that are carried out over a map of file numbers, or are calls of one.
NUMBERED = [numbered, rooted, calls]


# The crate's programs.


def build(oracle, source, room):
    """Builds the oracle, and the one with numbers out of the same files. Returns their commands."""
    here = os.path.join(os.path.dirname(os.path.abspath(__file__)), "answers")
    changed = os.path.join(room, "changed")
    shutil.copytree(oracle, changed)
    shutil.copy(os.path.join(here, "numbers.rs"), os.path.join(changed, "harness", "mod.rs"))
    shutil.copy(os.path.join(here, "walkdir.rs"), os.path.join(changed, "shims", "walkdir.rs"))
    plain, numbers = os.path.join(room, "plain"), os.path.join(room, "numbers")
    for folder, program in [(oracle, plain), (changed, numbers)]:
        subprocess.run(["bash", os.path.join(folder, "build.sh"), source, program], check=True)
    return [plain, "--later"], [numbers]


def ask(command, script, file):
    """What the program prints of the script, or why there is no answer to keep."""
    with open(file, "w", encoding="utf-8") as out:
        out.write(script)
    ended = subprocess.run([*command, file], capture_output=True, text=True, check=False)
    if ended.returncode == 9:
        return None, "a moment that the crate's clock can't hold"
    if ended.returncode != 0 or ended.stderr:
        raise SystemExit(f"status {ended.returncode} {ended.stderr} of\n{script}")
    if "\n# order-open\n" in ended.stdout:
        return None, "an order that the crate leaves open"
    if "\n# folder-move\n" in ended.stdout:
        return None, "a renamed folder with what waits below it"
    return ended.stdout, None


# The file.


def signs(scripts):
    """A sign for each text that stands often in scripts."""
    texts = [*COMMANDS, *(f"_{kind}_" for kind in KINDS), *OPTIONS, *(f"_{path}" for path in PATHS + ODD_PATHS)]
    if len(texts) > len(SIGNS):
        raise SystemExit(f"{len(texts)} texts, and {len(SIGNS)} signs")
    saved = Counter()
    for text in texts:
        plain = text.replace("|", "\n").replace("_", " ")
        saved[text] = sum(script.count(plain) for script in scripts) * (len(plain) - 1)
    return [(sign, text) for sign, (text, _) in zip(SIGNS, saved.most_common())]


def in_signs(table):
    """What writes a script in signs: at each place the longest text that has one."""
    texts = {sign: text.replace("|", "\n").replace("_", " ") for sign, text in table}
    sign_of = {text: sign for sign, text in texts.items()}
    longest_first = sorted(sign_of, key=len, reverse=True)
    found = re.compile("|".join(map(re.escape, longest_first)))

    def write(script):
        short = found.sub(lambda text: sign_of[text[0]], script)
        if "".join(texts.get(sign, sign) for sign in short) != script or "\n" in short:
            raise SystemExit(f"a character has no sign in\n{script}")
        return short

    return write


def gather(oracle, source, seed, portion):
    """The answers, each a digest and its script; and how many scripts of each kind were left out, by why."""
    answers, left_out, seen = [], Counter(), set()
    with tempfile.TemporaryDirectory() as room:
        plain, numbers = build(oracle, source, room)
        file = os.path.join(room, "script")
        for make, wanted in WANTED.items():
            chance = random.Random(f"{seed} {make.__name__}")
            end = len(answers) + int(wanted * portion)
            while len(answers) < end:
                script = "\n".join(make(chance))
                printed, why = None, "the same script again"
                if script not in seen:
                    printed, why = ask(numbers if make in NUMBERED else plain, script, file)
                seen.add(script)
                if why:
                    left_out[make.__name__, why] += 1
                else:
                    answers.append((hashlib.sha256(printed.encode()).hexdigest()[:16], script))
    return answers, left_out


def write_file(name, answers, seed):
    table = signs([script for _, script in answers])
    write = in_signs(table)
    with open(name, "w", encoding="utf-8") as file:
        crate = "the Rust crate notify-debouncer-full 0.6.0"
        print(f"# What {crate} prints of {len(answers)} random scripts, by digests.", file=file)
        print(f"# Made by scripts/answers.py, which says how and what the lines mean, from the seed {seed}.", file=file)
        for sign, text in table:
            print(sign, text, file=file)
        print(file=file)
        for digest, script in answers:
            print(digest, write(script), file=file)


def main(words):
    if len(words) not in (3, 4, 5):
        print(__doc__.split("\n\n")[1], file=sys.stderr)
        return 2
    oracle, source, name = words[:3]
    seed = int(words[3]) if len(words) > 3 else 1
    portion = float(words[4]) if len(words) > 4 else 1
    answers, left_out = gather(oracle, source, seed, portion)
    write_file(name, answers, seed)
    for make, wanted in WANTED.items():
        others = [f"{count} {why}" for (kind, why), count in sorted(left_out.items()) if kind == make.__name__]
        print(f"{make.__name__}: {int(wanted * portion)} kept; left out: {', '.join(others) or 'none'}")
    print(f"{len(answers)} answers, {os.path.getsize(name)} bytes")
    return 0


if __name__ == "__main__":
    sys.exit(main(sys.argv[1:]))
