"""watch.py [--timeout MS] [--seconds N] [--until-eof] [--renames] FOLDER: prints each change below a folder, from inotify,
as c/watch.c does. What inotify says is only a place to look at: what a look finds is said to the library, which tells
how that differs from what it knew.
"""
import argparse
import ctypes
import errno
import os
import select
import stat
import struct
import sys
import time
from collections import defaultdict

import ndf

MODIFY, ATTRIB, MOVED_FROM, MOVED_TO, CREATE, DELETE = 0x2, 0x4, 0x40, 0x80, 0x100, 0x200
UNMOUNT, OVERFLOW, IGNORED, IS_FOLDER = 0x2000, 0x4000, 0x8000, 0x40000000
ONLY_FOLDERS, DONT_FOLLOW, NOT_UNLINKED = 0x1000000, 0x2000000, 0x4000000
MASK = MODIFY | ATTRIB | MOVED_FROM | MOVED_TO | CREATE | DELETE | ONLY_FOLDERS | DONT_FOLLOW | NOT_UNLINKED
WHOLE, NEW, WRITTEN, TOUCHED = 1, 2, 4, 8  # why to look at a place
GONE = (errno.ENOENT, errno.ENOTDIR)
ESCAPES = str.maketrans({"\\": "\\\\", "\t": "\\t", "\n": "\\n", "\r": "\\r"})
libc = ctypes.CDLL(None, use_errno=True)


def say(text):
    print("watch:", text, file=sys.stderr, flush=True)


def number_of(s):
    return s.st_dev & 0xFFFFFFFF, s.st_ino


def kind_of(s):
    return "file" if stat.S_ISREG(s.st_mode) else "folder" if stat.S_ISDIR(s.st_mode) else "other"


class Notes:
    """An instance of inotify, with which watch is of which folder."""

    def __init__(self):
        self.descriptor = libc.inotify_init1(os.O_NONBLOCK | os.O_CLOEXEC)
        if self.descriptor < 0:
            raise OSError(ctypes.get_errno(), "inotify")
        self.folders = {}  # its path and its number

    def watch(self, path, number):
        """Whether the folder wasn't watched under this path."""
        watch = libc.inotify_add_watch(self.descriptor, os.fsencode(path), MASK)
        if watch < 0:
            raise OSError(ctypes.get_errno(), os.strerror(ctypes.get_errno()), path)
        before, self.folders[watch] = self.folders.get(watch), (path, number)
        return before is None or before[0] != path

    def drop(self, watch):
        libc.inotify_rm_watch(self.descriptor, watch)
        del self.folders[watch]

    def read(self):
        """What one read has. A rename's second half may come a moment after the first."""
        notices = self._read()
        if notices and notices[-1][1] & MOVED_FROM and select.select([self.descriptor], [], [], 0.002)[0]:
            notices += self._read()
        return notices

    def _read(self):
        try:
            data = os.read(self.descriptor, 65536)
        except BlockingIOError:
            return []
        notices, at = [], 0
        while at < len(data):
            watch, mask, _, size = struct.unpack_from("iIII", data, at)
            notices.append((watch, mask, os.fsdecode(data[at + 16 : at + 16 + size].rstrip(b"\0"))))
            at += 16 + size
        return notices


class Watcher:
    def __init__(self, root, timeout):
        self.root = root
        self.debouncer, self.timeout = ndf.Debouncer(timeout), timeout
        self.fed, self.is_pending = 0, False  # when the last events were fed, and whether one may not have been emitted since
        self.notes = Notes()
        self.is_blind = False  # something couldn't be looked at
        self.unwatched = self.left_out = 0
        for end in [i for i, letter in enumerate(root) if letter == "/"]:
            self.debouncer.found(root[: end or 1], "folder")
        s = os.lstat(root)
        self.notes.watch(root, number_of(s))
        self.find(root, s, False)
        self.debouncer.end_look_known()

    def found(self, path, s):
        """Says that this stands at the path; whether the library knows the folder above."""
        is_file = stat.S_ISREG(s.st_mode)
        length, modified = (s.st_size, s.st_mtime_ns) if is_file else (0, None)
        try:
            self.debouncer.found(path, kind_of(s), length, modified, number_of(s))
        except ndf.Refused as refused:
            self.left_out += ndf.CODES[refused.code] == "not_text"
            return False
        return True

    def known(self, path):
        try:
            return self.debouncer.known(path)
        except ndf.Refused:
            return None

    def watch(self, path, s):
        try:
            return self.notes.watch(path, number_of(s))
        except OSError as error:
            if error.errno not in GONE:
                # One folder above the limit stands for all.
                if error.errno != errno.ENOSPC or not self.unwatched:
                    say(f"cannot watch {path}: {error.strerror}")
                self.is_blind, self.unwatched = True, self.unwatched + 1
            return False

    def find(self, path, s, is_known):
        """Says that this stands at the path, and if it is a folder, what stands in it. The watch comes before the listing.
        What isn't found again is gone, but not what can't be looked at, if it is the folder that is known.
        """
        if not stat.S_ISDIR(s.st_mode):
            self.found(path, s)
            return
        before, names = self.known(path), []
        is_same = bool(before) and before.is_folder and before.number == number_of(s)
        self.watch(path, s)
        try:
            names = os.listdir(path)
        except OSError as error:
            if self.is_closed(error) and is_same:
                self.debouncer.still(path)
                return
        if is_known:
            self.debouncer.gone(path)
        for name in names if self.found(path, s) else []:
            below = os.path.join(path, name)
            try:
                there = os.lstat(below)
            except OSError as error:
                if self.is_closed(error) and is_same:
                    self.debouncer.still(below)
            else:
                self.find(below, there, False)

    def is_closed(self, error):
        """Whether it is no error that says that nothing stands there."""
        self.is_blind |= error.errno not in GONE
        return error.errno not in GONE

    def look_at(self, path, reason):
        """Looks at a place: whether all below it was said too, and whether it is as it was known."""
        before, s = self.known(path), None
        try:
            s = os.lstat(path)
        except OSError as error:
            if error.errno not in GONE:
                self.is_blind = True
            elif before:
                self.debouncer.gone(path)
            return bool(before) and error.errno in GONE, False
        is_same = before and before.number == number_of(s) and ndf.STANDS[before.kind] == kind_of(s)
        if stat.S_ISDIR(s.st_mode) and (not is_same or reason & WHOLE or self.watch(path, s)):
            self.find(path, s, bool(before))
            return True, False
        self.found(path, s)
        is_file = stat.S_ISREG(s.st_mode)
        return False, is_same and (not is_file or (before.length, before.modified) == (s.st_size, s.st_mtime_ns))

    def say_written(self, places):
        """A file of several names was written under all of them."""
        inodes = set()
        for path, reason in places.items():
            if reason & WRITTEN:
                inodes |= self.inode_of_several(path)
            if reason & (WRITTEN | NEW):
                try:
                    self.debouncer.changed(path)
                except ndf.Refused:
                    pass
        for folder, _ in list(self.notes.folders.values()) if inodes else []:
            try:
                names = [entry.path for entry in os.scandir(folder) if entry.inode() in inodes]
                for path in names:
                    self.debouncer.changed(path)
                    self.found(path, os.lstat(path))
            except (OSError, ndf.Refused):
                pass

    def inode_of_several(self, path):
        try:
            s = os.lstat(path)
        except OSError:
            before = self.known(path)
            return {before.inode} if before and not before.is_folder else set()
        return {s.st_ino} if stat.S_ISREG(s.st_mode) and s.st_nlink > 1 else set()

    def look(self, places):
        """One look at all places."""
        self.say_written(places)
        whole, touched = None, []
        for path in sorted(places, key=lambda path: path.split("/")):
            if whole and (whole == "/" or is_at_or_below(path, whole)):
                continue
            is_whole, is_same = self.look_at(path, places[path])
            if is_whole:
                whole = path
            elif is_same and places[path] & TOUCHED:
                touched.append(path)
        moment = time.monotonic_ns()
        self.debouncer.end_look(moment)
        self.fed, self.is_pending = time.monotonic_ns(), True
        for path in touched:
            self.debouncer.feed(ndf.METADATA_ANY, path, moment=moment)
        if any(reason & WHOLE for reason in places.values()):
            self.drop_strangers()

    def drop_strangers(self):
        """Watches no longer what isn't known at its path: it went elsewhere."""
        for watch, (path, number) in list(self.notes.folders.items()):
            known = self.known(path)
            if not known or known.number != number:
                self.notes.drop(watch)

    def check_root(self, places):
        """If something else stands at the root than is known, it was moved, replaced or unmounted, or is there again."""
        known, number = self.known(self.root), None
        try:
            number = number_of(os.lstat(self.root))
        except OSError as error:
            if error.errno not in GONE:
                return
        if number == (known and known.number):
            return
        say(f"{self.root} {'is gone' if not number else 'is another one now' if known else 'is there again'}")
        if known:
            self.debouncer.gone(self.root)
            self.debouncer.end_look(time.monotonic_ns())
        places[self.root] |= WHOLE

    def turn(self):
        """Takes what one read has, however much comes, and looks."""
        places, is_lost = defaultdict(int), False
        for watch, mask, name in self.notes.read():
            is_lost |= bool(mask & OVERFLOW)
            folder, _ = self.notes.folders.get(watch, (None, None))
            if folder is None:
                continue
            if name:
                places[os.path.join(folder, name)] |= self.reason(mask)
            elif mask & (IGNORED | UNMOUNT):
                places[folder] |= WHOLE
            if mask & IGNORED:
                del self.notes.folders[watch]
        if is_lost:
            # With another instance the watches begin anew: to end each of the old one would fill its queue again.
            os.close(self.notes.descriptor)
            self.notes, self.unwatched = Notes(), 0
            places[self.root] |= WHOLE
        else:
            self.check_root(places)
        if places:
            self.look(places)

    def tick(self):
        """What is due."""
        if not self.is_pending:
            return []
        moment = time.monotonic_ns()
        batch = self.debouncer.tick(moment)
        self.is_pending = moment - self.fed < self.timeout
        return batch

    def reason(self, mask):
        comes = mask & (CREATE | MOVED_TO)
        reason = (WRITTEN if mask & MODIFY else 0) | (TOUCHED if mask & ATTRIB else 0)
        if mask & IS_FOLDER:
            return reason | (WHOLE if comes or mask & MOVED_FROM or (mask & ATTRIB and self.is_blind) else 0)
        return reason | (NEW if comes else 0)


def is_at_or_below(path, top):
    return path == top or path.startswith(top + "/")


def target_of(removal, creations):
    """The creation of what was removed. What lay in a folder that moved has its tracker too, wherever it is now."""
    kind = removal.word.replace("Remove", "Create")
    found = sorted((event.paths[0].count("/"), at, event.paths[0]) for at, event in creations if event.word == kind)
    return found[0][1] if found and all(is_at_or_below(path, found[0][2]) for _, _, path in found) else None


def with_moves(batch):
    """The batch with each of its moves told: a removal and a creation that share a tracker. Those of a file become one event;
    what lies in a folder is told anew, so there the move stands behind the removal, where it moves nothing.
    """
    told, creations = [[event] for event in batch], defaultdict(list)
    for at, event in enumerate(batch):
        if event.word.startswith("Create") and event.tracker is not None:
            creations[event.tracker].append((at, event))
    for at, event in enumerate(batch):
        is_move = event.word.startswith("Remove") and event.tracker is not None
        to = target_of(event, creations[event.tracker]) if is_move else None
        if to is None:
            continue
        old = event.paths[0]
        both = ndf.Event(ndf.NAME_BOTH, event.time, [old, batch[to].paths[0]])
        between = batch[min(at, to) + 1 : max(at, to)]
        if event.kind == ndf.REMOVE_FOLDER:
            told[at].append(both)
        elif not any(is_at_or_below(path, old) for other in between for path in other.paths):
            told[at], told[to] = [], [both]
    return [event for events in told for event in events]


def show(batch, renames):
    for event in with_moves(batch) if renames else batch:
        print(event.word, *(path.translate(ESCAPES) for path in event.paths), sep="\t")
    sys.stdout.flush()


def main():
    def count(text):
        if not text.isdecimal():
            raise ValueError
        return int(text)

    words = argparse.ArgumentParser(prog="watch.py")
    words.add_argument("--timeout", type=count, default=500, metavar="MS")
    words.add_argument("--seconds", type=count, default=10**9, metavar="N")
    words.add_argument("--until-eof", action="store_true")
    words.add_argument("--renames", action="store_true")
    words.add_argument("folder")
    asked = words.parse_args()
    root = asked.folder.rstrip("/") or "/"
    end = time.monotonic() + asked.seconds
    try:
        watcher = Watcher(root, asked.timeout * 1_000_000)
    except OSError as error:
        say(f"cannot watch {root}: {error.strerror}")
        return 5
    say(f"watching {root}")
    pause = min(max(asked.timeout / 4000, 0.001), 0.25)
    goes_on = True
    while goes_on and time.monotonic() < end:
        inputs = [watcher.notes.descriptor] + [0] * asked.until_eof
        ready, _, _ = select.select(inputs, [], [], pause if watcher.is_pending else 0.25)
        goes_on = 0 not in ready or bool(os.read(0, 4096))
        watcher.turn()
        show(watcher.tick(), asked.renames)
    show(watcher.debouncer.outlook(), asked.renames)
    if watcher.left_out:
        say(f"names that are not UTF-8 are left out, {watcher.left_out} times")
    if watcher.unwatched:
        say(f"{watcher.unwatched} folders are not watched")
    return 1 if watcher.unwatched else 0


if __name__ == "__main__":
    sys.exit(main())
