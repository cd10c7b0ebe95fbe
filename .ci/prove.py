#!/usr/bin/env python3
"""Proves the repository from nothing, and tries the wrong bodies below which something has changed.

usage: .ci/prove.py [--all]

`rt ci` runs on a copy of the tree, outside of the repository. The copy lacks the wrong bodies (files of must-fail) that
were refused before: .ci/tried has a line for each, with a digest of all on which its refusal rests, and what has the
same digest isn't tried again. --all tries all. The copy also lacks the crates that are only run (`ONLY_RUN`).

What `rt ci` built goes into crates/*/out. The wrong bodies that it saw refused go into .ci/tried of this tree, which is
to be committed. The output and the status are those of scripts/gate_cost.py over the copy.
"""
import glob
import hashlib
import itertools
import os
import re
import shutil
import subprocess
import sys
import tempfile

TOP = os.path.dirname(os.path.dirname(os.path.realpath(__file__)))
TRIED = os.path.join(TOP, ".ci", "tried")
# Nobody relies on these tests and measures: the gate runs them as trials (.ci/check_trials.sh), and proves what they call.
ONLY_RUN = ("bench", "scenes", "test_polling", "test_programs", "test_run")
OWN = ("src", "specs", "proofs")
BELOW = ("src", "specs")


def git(folder, *words):
    return subprocess.run(["git", "-C", folder, *words], check=True, stdout=subprocess.PIPE, text=True).stdout


def copy_tree(to):
    """Copies what is in the repository now into the folder, but for what is built."""
    tar = ["tar", "-C", TOP, "--exclude=./.git", "--exclude=./crates/*/out", "-cf", "-", "."]
    with subprocess.Popen(tar, stdout=subprocess.PIPE) as packed:
        subprocess.run(["tar", "-C", to, "-xf", "-"], check=True, stdin=packed.stdout)
    if packed.returncode:
        sys.exit("prove: the tree can't be copied")


def git_ids(folder):
    """Returns of each file and folder below crates git's id of what is in it, by its path."""
    git(folder, "init", "--quiet")
    git(folder, "add", "--all", "crates")
    lines = git(folder, "ls-tree", "-r", "-t", git(folder, "write-tree").strip(), "crates").splitlines()
    entries = (line.partition("\t") for line in lines)
    return {path: about.split()[2] for about, _, path in entries}


def libraries(folder):
    """Returns of each crate of crates.txt the crates of the repository that lie below it."""
    with open(os.path.join(folder, "crates.txt"), encoding="utf-8") as it:
        lines = [re.match(r"(\w+)[^:#]*:(.*)", line) for line in it]
    named = {line[1]: line[2].split() for line in lines if line}
    below = {}

    def find(crate):
        if crate not in below:
            direct = [it for it in named[crate] if it in named]
            below[crate] = set(direct).union(*map(find, direct))
        return below[crate]

    return {crate: find(crate) for crate in named}


def wrong_bodies(folder):
    """Returns the wrong bodies of all crates, each as its path."""
    return sorted(glob.glob("crates/*/must-fail/*.edit", root_dir=folder))


def logic():
    """Returns which logic the toolchain has; kits with one logic refuse the same."""
    version = subprocess.run(["rt", "version"], check=True, stdout=subprocess.PIPE, text=True).stdout
    return re.search(r"logic \w+", version)[0]


def digests_of(folder, edits):
    """Returns of each wrong body a digest of all on which its refusal rests: itself, its crate, the statements below."""
    ids, below, first = git_ids(folder), libraries(folder), logic()

    def digest(edit):
        crate = edit.split("/")[1]
        paths = [f"crates/{crate}/{part}" for part in OWN]
        paths += [f"crates/{it}/{part}" for it in sorted(below[crate]) for part in BELOW]
        lines = [first, ids[edit], *(f"{path} {ids[path]}" for path in paths if path in ids)]
        return hashlib.sha256("\n".join(lines).encode()).hexdigest()[:32]

    return {edit: digest(edit) for edit in edits}


def read_tried():
    """Returns the digests of the wrong bodies that were refused."""
    if not os.path.isfile(TRIED):
        return set()
    with open(TRIED, encoding="utf-8") as it:
        return {line.split()[1] for line in it if line.strip()}


def write_tried(tried):
    with open(TRIED, "w", encoding="utf-8") as it:
        it.writelines(f"{edit} {tried[edit]}\n" for edit in sorted(tried))


def leave_out(folder, edits, known):
    """Takes the wrong bodies that are known to be refused out of the copy, and says how many of each crate."""
    for crate, of_crate in itertools.groupby(edits, lambda it: it.split("/")[1]):
        of_crate = list(of_crate)
        left_out = [it for it in of_crate if it in known]
        print(f"gate: {crate}: {len(left_out)} of {len(of_crate)} wrong bodies were refused before and aren't tried again")
        for edit in left_out:
            os.remove(os.path.join(folder, edit))


def leave_out_programs(folder):
    """Takes the programs that are only run out of the copy."""
    with open(os.path.join(folder, "crates.txt"), encoding="utf-8") as it:
        lines = it.readlines()
    with open(os.path.join(folder, "crates.txt"), "w", encoding="utf-8") as it:
        it.writelines(line for line in lines if line.split(":")[0] not in ONLY_RUN)
    for crate in ONLY_RUN:
        print(f"gate: {crate} is only run, as a trial")
        shutil.rmtree(os.path.join(folder, "crates", crate))


def lanes():
    """Returns how many checks run at a time: as many as processors, or as memory holds (a large one takes 3 GB).

    With this number `rt ci` begins a check as soon as a processor is free, and first the one with the longest chain
    behind it. Left to itself it plans with twice the memory, and such a check waits while others run.
    """
    with open("/proc/meminfo", encoding="ascii") as it:
        free = int(re.search(r"MemAvailable: *(\d+) kB", it.read())[1])
    return max(1, min(len(os.sched_getaffinity(0)), free // 3_500_000))


def prove(folder):
    """Runs `rt ci` in the folder, and returns its status and the wrong bodies that it saw refused."""
    refused = set()
    gate = [os.path.join(TOP, "scripts", "gate_cost.py")]
    how = {"stdout": subprocess.PIPE, "stderr": subprocess.STDOUT, "text": True, "errors": "replace"}
    how["env"] = {"RT_JOBS": str(lanes()), **os.environ}
    with subprocess.Popen(gate, cwd=folder, **how) as running:
        for line in running.stdout:
            print(line, end="", flush=True)
            edit = re.match(r"rt: must-fail (\w+)/(\S+\.edit): refused, ", line)
            if edit:
                refused.add(f"crates/{edit[1]}/must-fail/{edit[2]}")
    return running.returncode, refused


def put_back(folder):
    """Puts what was built into the crates of this tree, in the place of what was. What `rt check` keeps there stays."""
    for crate in os.listdir(os.path.join(TOP, "crates")):
        built, to = (os.path.join(it, "crates", crate, "out") for it in (folder, TOP))
        for name in os.listdir(to) if os.path.isdir(to) else []:
            if name != "incremental" and not os.path.exists(os.path.join(to, name, "stamp")):
                remove(os.path.join(to, name))
        for name in os.listdir(built) if os.path.isdir(built) else []:
            os.makedirs(to, exist_ok=True)
            if not os.path.exists(os.path.join(to, name)):
                shutil.move(os.path.join(built, name), to)


def remove(path):
    shutil.rmtree(path) if os.path.isdir(path) else os.remove(path)


def main(words):
    if words not in ([], ["--all"]):
        sys.exit(__doc__)
    with tempfile.TemporaryDirectory(prefix="ndf-gate-") as folder:
        copy_tree(folder)
        edits = wrong_bodies(folder)
        digests = digests_of(folder, edits)
        refused_before = set() if words else read_tried()
        known = {it for it in edits if digests[it] in refused_before}
        leave_out(folder, edits, known)
        leave_out_programs(folder)
        sys.stdout.flush()
        status, refused = prove(folder)
        write_tried({it: digests[it] for it in known | refused})
        put_back(folder)
    return status


if __name__ == "__main__":
    sys.exit(main(sys.argv[1:]))
