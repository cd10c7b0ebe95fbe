#!/usr/bin/env python3
"""Runs `rt ci`, says each minute what it does, and prints at the end what each crate cost.

usage: scripts/gate_cost.py [WORD..], at the top of the repository

WORDs are handed to `rt ci`: kit 13f takes `--anew`, so that nothing comes from earlier runs, and names of
crates, which are proved with those below them; 13b takes none. What rt prints goes through as it comes, and
the status is rt's. Seconds are those of processors, user and system, of each run of rattle and all that it
starts: /proc is read five times a second, and what a process used since the last look before its end isn't
counted. So no figure is too great, and one of less than a second says little. On a machine that is busy with
other work they grow, by a third and more.
"""
import collections
import os
import re
import subprocess
import sys
import threading
import time

if __name__ == "__main__" and "--help" in sys.argv[1:]:
    sys.exit(print(*[line for line in __doc__.split("\n") if line][:2], sep="\n"))

TICKS = os.sysconf("SC_CLK_TCK")
KINDS = ["proof", "edits", "tests", "runs"]
RUN = re.compile(r"/rt-run-[^/]*/bin/(\w+?)(_tests)?$")
EDIT = re.compile(r"/rt-edit-[^/]*$")
MINUTE = 60

Process = collections.namedtuple("Process", "parent spent began")


def processes():
    """Returns of each process its parent, the seconds of it and of those that it waited for, and its start."""
    found = {}
    for name in filter(str.isdigit, os.listdir("/proc")):
        try:
            with open(f"/proc/{name}/stat", encoding="ascii", errors="replace") as it:
                words = it.read().rpartition(")")[2].split()
        except OSError:
            continue
        found[int(name)] = Process(int(words[1]), sum(map(int, words[11:15])) / TICKS, words[19])
    return found


def folder_of(number):
    try:
        return os.readlink(f"/proc/{number}/cwd")
    except OSError:
        return ""


def task_of(number):
    """Returns the crate that the process works for, and at what, or nothing."""
    try:
        with open(f"/proc/{number}/cmdline", "rb") as it:
            words = it.read().decode(errors="replace").split("\0")
    except OSError:
        return None
    runs = [it for it in map(RUN.search, words) if it]
    if runs:
        return runs[0][1], "runs"
    if os.path.basename(words[0]) != "rattle" or "--crate-name" not in words:
        return None
    crate = words[words.index("--crate-name") + 1]
    if "--test" in words:
        return crate, "tests"
    # An edited crate is checked in a folder of its own.
    return crate, "edits" if EDIT.search(folder_of(number)) else "proof"


class Costs:
    """What the tasks below a process cost."""

    def __init__(self, top):
        self.top = top
        self.tasks = {}  # of a process and its start
        self.most = {}  # of a task's first process: the most seconds that were seen
        self.now = []  # the tasks that went on at the last look

    def look(self):
        now = processes()
        spent = collections.Counter()
        for number in now:
            first, at = None, number
            # The task is that of the uppermost process which has one.
            while at in now and at != self.top:
                key = at, now[at].began
                if key not in self.tasks or self.tasks[key] is None:
                    self.tasks[key] = task_of(at)
                first = key if self.tasks[key] else first
                at = now[at].parent
            if first and at == self.top:
                spent[first] += now[number].spent
        for key, seconds in spent.items():
            self.most[key] = max(self.most.get(key, 0), seconds)
        self.now = sorted({self.tasks[it] for it in spent})

    def by_crate(self):
        costs = collections.defaultdict(collections.Counter)
        for key, seconds in self.most.items():
            crate, kind = self.tasks[key]
            costs[crate][kind] += seconds
        return costs


def pass_on(lines, functions):
    """Passes rt's lines on, and notes how many functions each crate has."""
    crate = None
    for line in lines:
        print(line, end="", flush=True)
        begun = re.match(r"== (\w+)(: its tests)?$", line)
        if begun:
            crate = None if begun[2] else begun[1]
        counted = re.match(r"logic=proved functions=(\d+)", line)
        if counted and crate:
            functions[crate] = int(counted[1])


def row(name, functions, cost):
    each = f"{cost['proof'] / functions:.1f}" if functions else ""
    seconds = " | ".join(f"{cost[kind]:.0f}" if cost[kind] else "" for kind in KINDS)
    print(f"| {name} | {functions or ''} | {seconds} | {sum(cost.values()):.0f} | {each} |")


def main():
    pipes = {"stdout": subprocess.PIPE, "stderr": subprocess.STDOUT}
    begun = time.time()
    rt = subprocess.Popen(["rt", "ci", *sys.argv[1:]], text=True, errors="replace", **pipes)
    functions, costs = {}, Costs(rt.pid)
    reader = threading.Thread(target=pass_on, args=(rt.stdout, functions))
    reader.start()
    told = begun
    while rt.poll() is None:
        costs.look()
        if time.time() - told >= MINUTE:
            told += MINUTE
            going = ", ".join(f"{kind} of {crate}" for crate, kind in costs.now) or "nothing"
            print(f"gate: after {(told - begun) / MINUTE:.0f} min, going on: {going}\n", end="", flush=True)
        time.sleep(0.2)
    reader.join()
    found = costs.by_crate()
    print("| crate | functions | proof | edits | tests | runs | in all | proof of a function |")
    print("|---|---:|---:|---:|---:|---:|---:|---:|")
    for crate in sorted(found, key=lambda it: -sum(found[it].values())):
        row(f"`{crate}`", functions.get(crate, 0), found[crate])
    row("all", sum(functions.values()), sum(found.values(), collections.Counter()))
    seconds = sum(sum(it.values()) for it in found.values())
    print(f"rt ci: {(time.time() - begun) / 60:.0f} minutes by the clock, {seconds / 60:.0f} of a processor")
    return rt.returncode


if __name__ == "__main__":
    sys.exit(main())
