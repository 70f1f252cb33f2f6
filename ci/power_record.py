"""The calls that a program makes on a log and to hear its feed, as ci/power.c notes them or strace
tells them; and what a kept log has to do, against which they are held.

A kept log is a gate, an entry, a gate, an entry, and so on, a gate, each gate one byte. Its calls:

- The file of that very name is opened, by a descriptor above 2: what is meant for a standard stream
  that was closed must not land there. It is locked before any other call.
- Before its first read what it holds is brought to the disk (synced), and so is its folder, where
  the file was made.
- Where it is empty, its first gate is written, a space; a sync.
- Where it isn't at rest, it is cut at the gate behind its last entry; a sync; the gate is written
  closed, a space; a sync. Where it is at rest, nothing is written.
- An entry is put by writing it and a closed gate behind the last gate; a sync; then that gate is
  written open, a newline; a sync.
- Before each read of standard input all is put that the lines that have come whole print, and no
  more, and nothing waits for a sync.
"""

import os
import re
from collections import namedtuple

from log_reader import bytes_of
from power_trial import expect, front_of, settled

# A call: its name, the descriptors or what they lead to, and what else it has.
#   open FD CREATES PATH, close FD, dup FD NEW, lock FD EXCLUSIVE, read FD COUNT, pread FD AT COUNT,
#   pwrite FD AT BYTES, write FD BYTES, cut FD SIZE, sync FD, memory SIZE, other FD NAME
LOG, FOLDER = "the log", "its folder"

# What was called between two syncs of the log: writes (place, bytes) and cuts (size, None), how
# many bytes of the feed had come before the last read, and whether a read stands behind it.
Stage = namedtuple("Stage", "calls heard")


def noted(text):
    """The calls of a record that ci/power.c wrote."""
    for line in text.splitlines():
        name, *words = line.split(" ")
        has_bytes = name in ("open", "pwrite", "write")
        numbers = [int(it) for it in (words[:-1] if has_bytes else words)]
        yield (name, *numbers, *([bytes.fromhex(words[-1])] if has_bytes else []))


TOLD = re.compile(r"(?:\d+ +)?(\w+)\((.*)\) += (-?\d+|0x[0-9a-f]+|\?)(?: .*)?$")
TAKES_MEMORY = {"brk", "mmap", "mremap"}
# Calls that leave a file and its descriptors as they are.
ONLY_LOOK = {"statx", "stat", "fstat", "newfstatat", "lseek", "access", "readlink", "execve",
             "ioctl", "getcwd", "munmap", "mprotect", "madvise", "poll"}


def bytes_told(word):
    """The bytes of a word of `strace -xx`."""
    return bytes.fromhex(word.strip('"').replace("\\x", ""))


def told(text):
    """The calls of a text that `strace -xx` wrote."""
    for line in text.splitlines():
        it = TOLD.match(line)
        if not it or it[3] == "?":
            continue
        name, words, answer = it[1], it[2].split(", "), it[3]
        if name in TAKES_MEMORY:
            is_file = name == "mmap" and words[4] != "-1"
            yield ("other", int(words[4]), name) if is_file else ("memory", 0)
            continue
        if answer.startswith("-") and name not in ("open", "openat", "read") or name in ONLY_LOOK:
            continue
        answer = int(answer)
        if name in ("open", "openat", "creat"):
            place = name == "openat"
            creates = int("O_CREAT" in it[2] or name == "creat")
            yield "open", answer, creates, bytes_told(words[place])
        elif name == "fcntl":
            if words[1].startswith("F_DUPFD"):
                yield "dup", int(words[0]), answer
        elif name in ("dup", "dup2", "dup3"):
            yield "dup", int(words[0]), answer
        elif name == "close":
            yield "close", int(words[0])
        elif name == "flock":
            yield "lock", int(words[0]), int("LOCK_EX" in words[1])
        elif name == "read":
            yield "read", int(words[0]), answer
        elif name == "pread64":
            yield "pread", int(words[0]), int(words[3]), answer
        elif name == "pwrite64":
            yield "pwrite", int(words[0]), int(words[3]), bytes_told(words[1])[:answer]
        elif name == "write":
            yield "write", int(words[0]), bytes_told(words[1])[:answer]
        elif name == "ftruncate":
            yield "cut", int(words[0]), int(words[1])
        elif name in ("fsync", "fdatasync"):
            yield "sync", int(words[0])
        else:
            yield "other", int(words[0]) if words[0].isdigit() else -1, name


def calls_of(raw, path, folder):
    """Of these calls those that are made on the log of that path or on its folder, those that are
    made on standard streams, and those that take memory. What a descriptor leads to stands in its
    place. `folder` is where the program runs."""
    name = os.path.realpath(os.path.join(folder, path))
    leads = {0: 0, 1: 1, 2: 2}
    for call in raw:
        what, file, rest = call[0], call[1] if len(call) > 1 else None, call[2:]
        if what == "memory":
            yield call
            continue
        if what == "open":
            opened = os.path.realpath(os.path.join(folder, os.fsdecode(rest[1])))
            leads.pop(file, None)
            if opened in (name, os.path.dirname(name)) and file >= 0:
                leads[file] = LOG if opened == name else FOLDER
                yield what, leads[file], rest[0]
            continue
        found = leads.get(file)
        if what == "dup" and rest[0] >= 0:
            leads.pop(rest[0], None)
            if found is not None:
                leads[rest[0]] = found
        elif what == "close":
            leads.pop(file, None)
        elif found is not None:
            is_high = file > 2 or what == "lock"
            expect(found != LOG or is_high, f"{what} of the log by the descriptor {file}")
            expect(what != "other", f"{rest} of {found}")
            yield (what, found, *rest)


class Held:
    """Calls on a log, as they are held against what a kept log has to do, one by one."""

    def __init__(self, start):
        # what a read finds
        self.seen = bytearray(start or b"")
        self.is_made, self.is_opened = start is None, False
        self.is_locked = self.folder_is_synced = False
        # what is empty has nothing that has to be brought to the disk
        self.is_synced = not start
        self.waiting, self.stages = [], []
        # the bytes of the feed that had come before the last read, and those that have come
        self.before, self.come = 0, 0
        # of each read of the feed how much had come before it, and how many stages
        self.reads = []

    def take(self, call):
        what, file, rest = call[0], call[1], call[2:]
        if file == LOG:
            self.log(what, rest)
        elif file == FOLDER and what == "sync":
            self.folder_is_synced = True
        elif file == 0 and what == "read":
            self.read(rest[0])

    def read(self, count):
        """A read of the feed."""
        expect(not self.waiting, f"a read of the feed while calls wait for a sync: {self.waiting}")
        expect(not self.is_made or self.folder_is_synced, "the folder of a new file isn't synced")
        self.reads.append((self.come, len(self.stages)))
        self.before = self.come
        self.come += max(count, 0)

    def log(self, what, rest):
        if what == "open":
            expect(not self.is_opened, "the log is opened twice")
            expect(rest[0] == int(self.is_made), "the log is made, or isn't")
            self.is_opened = True
            return
        if what == "lock":
            expect(rest[0] == 1, "the lock isn't for one alone")
            self.is_locked = True
            return
        expect(self.is_locked, f"{what} of the log before it is locked")
        if what == "sync":
            self.is_synced = True
            if self.waiting:
                self.stages.append(Stage(tuple(self.waiting), self.before))
                self.waiting = []
        elif what == "pread":
            expect(self.is_synced, "the log is read before what it holds is on the disk")
            expect(not self.is_made or self.folder_is_synced, "the folder isn't synced first")
            at, count = rest
            expect(count >= 0 and at + count <= len(self.seen), "a read behind the end")
        elif what == "pwrite":
            expect(self.is_synced, "the log is written before what it holds is on the disk")
            at, data = rest
            expect(at <= len(self.seen), "a write leaves a hole")
            self.seen[at : at + len(data)] = data
            self.waiting.append((at, data))
        elif what == "cut":
            expect(self.is_synced, "the log is cut before what it holds is on the disk")
            expect(rest[0] <= len(self.seen), "a cut makes the log longer")
            del self.seen[rest[0] :]
            self.waiting.append((rest[0], None))
        else:
            expect(False, f"{what} of the log")


def written(stage):
    """What a stage writes: a size, or the places and their bytes."""
    cuts = [at for at, data in stage if data is None]
    if cuts:
        return cuts if len(cuts) == len(stage) else [*stage]
    return {at + place: byte for at, data in stage for place, byte in enumerate(data)}


def bytes_at(place, data):
    return {place + at: byte for at, byte in enumerate(data)}


def stages_due(start, entries):
    """What the stages have to write from that file on, and how many of them are the opening's."""
    begin = settled(start or b"")
    gate = len(begin) - 1
    due = [] if begin == start else [[gate], bytes_at(gate, b" ")]
    if not start:
        due = [bytes_at(gate, b" ")]
    opening = len(due)
    for it in entries:
        whole = bytes_of(it)
        due += [bytes_at(gate + 1, whole + b" "), bytes_at(gate, b"\n")]
        gate += 1 + len(whole)
    return opening, due


def shown(stage):
    """A stage in few words."""
    if isinstance(stage, list):
        return f"a cut at {stage}"
    return f"{len(stage)} bytes from {min(stage, default=None)}"


def expect_no_memory_taken(calls):
    """Expects that no call takes memory behind the first read of the feed; how many do so before.
    """
    names = [(it[0], it[1] if it[0] == "read" else None) for it in calls]
    first = names.index(("read", 0)) if ("read", 0) in names else len(names)
    behind = names[first:].count(("memory", None))
    expect(not behind, f"{behind} calls take memory behind the first read of the feed")
    return names[:first].count(("memory", None))


def hold(calls, start, entries, count, left):
    """Holds calls against what a kept log has to do: `start` are its bytes from before, None where
    there was no file; `entries` are those that the whole feed prints; `count` answers how many of
    them the whole lines among so many first bytes print; `left` are the bytes of the file at the
    end. It answers the stages, and how many calls took memory before the first read."""
    held, taken = Held(start), expect_no_memory_taken(calls)
    for call in calls:
        if call[0] != "memory":
            held.take(call)
    expect(held.is_opened, "no file of that name is opened")
    expect(not held.waiting, "calls wait for a sync at the end")
    opening, due = stages_due(start, entries)
    done = [written(it.calls) for it in held.stages]
    for place, (one, other) in enumerate(zip(done, due)):
        expect(one == other, f"stage {place}: {shown(one)} in place of {shown(other)}")
    expect(len(done) == len(due), f"{len(done)} stages in place of {len(due)}")
    for come, stages in held.reads:
        wanted = opening + 2 * count(come)
        expect(stages == wanted, f"{stages} stages before {come} bytes, and not {wanted}")
    expect(bytes(held.seen) == left, "the calls don't make the file that is there")
    expect(front_of(left)[0] == front_of(start or b"")[0] + entries, "other entries are kept")
    return held.stages, taken
