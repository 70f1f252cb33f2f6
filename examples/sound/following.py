"""Follows the log that a watch keeps, for `follow` and `alarm`: gives each entry that it stands for
once, in order, and keeps its place.

A place alone doesn't suffice. A log is renamed and begun anew, shortened, or cut; a power cut may
take an entry back, and another one then stands there. So the marks of the entries that were given
are kept beside the place. Where the last one no longer stands at its place, or the log is another
file, the log is read from its begin, and what has a mark was given.
"""
import collections
import contextlib
import fcntl
import hashlib
import json
import os
import re
import stat
import subprocess
import time

MOST_MARKS = 2_000   # of entries that were given; a watch itself remembers 600 at most
MOST_BEHIND = 4_147  # bytes behind a closed gate: the longest entry and its gate
PIECE = 4_000_000    # bytes that are read at once
QUIET = 0.4          # seconds for which a log that is begun, or is damaged, has to stay as it is,
PATIENCE = 3         # or seconds after which it is read all the same
LONG = 5             # seconds between two tries to read behind damage in a file that stays as it is
DAMAGED, DEVICE, SET_UP = 2, 1, 78

# An entry as a line of JSON and as it stands in a log; how many bytes stand before the gate before
# it and before the gate behind it; its mark; and whether the gate before it is open.
Entry = collections.namedtuple("Entry", "line text place next mark is_open")


class Fault(Exception):
    """What ends a program, and its status."""

    def __init__(self, status, text):
        super().__init__(text)
        self.status = status


class Unread(Fault):
    """A state isn't understood."""


def mark_of(text):
    return hashlib.sha256(text).hexdigest()[:16]


def read_kept(data, begin):
    """The entries for which bytes of a kept log stand that begin at a gate, behind so many others;
    and at which of their lines they are damaged, or None."""
    words = ["navtex", "log", "--kept", "--json", "--from", str(begin)]
    try:
        ran = subprocess.run(words, input=data, capture_output=True, start_new_session=True)
    except OSError as error:
        raise Fault(SET_UP, f"navtex doesn't start here: {error.strerror}") from None
    entries = []
    for line in ran.stdout.splitlines(keepends=True):
        said = json.loads(line)
        place, behind = said["place"], said["next"]
        text = data[place + 1 - begin : behind - begin]
        entries.append(Entry(line, text, place, behind, mark_of(text), data[place - begin] != ord(" ")))
    told = re.search(rb"line (\d+) is not of a log", ran.stderr)
    if ran.returncode and not told:
        first = ran.stderr.decode(errors="replace").strip().split("\n")[0]
        raise Fault(SET_UP, f"navtex log ended with status {ran.returncode}: {first}")
    return entries, int(told[1]) if told else None


class State:
    """What is kept from run to run: the file of the log by its number and the time of its last
    change, the last entry's place, and the marks. `seen` are those of the file that is read, `old`
    those of earlier ones that were not met in it. It is written anew as a whole."""

    def __init__(self, path):
        self.path = path and os.path.abspath(path)
        self.is_new = self.is_changed = True
        self.kept = {"version": 1, "file": None, "changed": 0, "place": None, "is_open": True, "next": 0,
                     "seen": [], "old": [], "is_short": False}
        if path:
            self.load()

    def load(self):
        try:
            os.makedirs(os.path.dirname(self.path), exist_ok=True)
            self.lock = open(self.path + ".lock", "a", encoding="ascii")
            fcntl.flock(self.lock, fcntl.LOCK_EX | fcntl.LOCK_NB)
            with open(self.path, encoding="ascii") as file:
                text = file.read()
        except BlockingIOError:
            raise Fault(DAMAGED, f"another one has the state {self.path}") from None
        except FileNotFoundError:
            return
        except OSError as error:
            raise Fault(DEVICE, f"the state {self.path} can't be opened: {error.strerror}") from None
        if text:
            self.is_new = False
            self.understand(text)

    def understand(self, text):
        try:
            kept = json.loads(text)
            if kept.get("version") != 1 or set(self.kept) - set(kept):
                raise ValueError
        except (ValueError, AttributeError):
            self.lock.close()
            raise Unread(DAMAGED, f"{self.path} is no state") from None
        self.kept = kept

    def save(self):
        """Brings it to the disk: what was there before stands until all of it does."""
        self.is_changed = False
        if not self.path:
            return
        try:
            with open(self.path + ".new", "w", encoding="ascii") as file:
                file.write(json.dumps(self.kept, separators=(",", ":")))
                file.flush()
                os.fsync(file.fileno())
            os.replace(self.path + ".new", self.path)
            folder = os.open(os.path.dirname(self.path), os.O_RDONLY)
            with contextlib.suppress(OSError):
                os.fsync(folder)
            os.close(folder)
        except OSError as error:
            raise Fault(DEVICE, f"the state {self.path} can't be written: {error.strerror}") from None


class Log:
    """An open file of a log."""

    def __init__(self, path):
        self.path = path
        self.file = os.open(path, os.O_RDONLY | os.O_NONBLOCK | os.O_CLOEXEC)
        if not stat.S_ISREG(self.status().st_mode):
            os.close(self.file)
            raise OSError(None, "it is no regular file")

    def status(self):
        return os.fstat(self.file)

    def number(self):
        return self.status().st_ino

    def look(self):
        """What changes where the file does, but for writes within a moment of the clock."""
        it = self.status()
        return it.st_ino, it.st_size, it.st_mtime_ns

    def bytes(self, begin, count):
        parts = []
        while count > 0:
            part = os.pread(self.file, count, begin)
            if not part:
                break
            parts.append(part)
            begin, count = begin + len(part), count - len(part)
        return b"".join(parts)

    def sync(self):
        """Brings to the disk what was read, so that no power cut takes it back."""
        with contextlib.suppress(OSError):
            os.fsync(self.file)

    def lines_before(self, place):
        return sum(self.bytes(at, min(PIECE, place - at)).count(b"\n") for at in range(0, place, PIECE))

    def close(self):
        os.close(self.file)


def behind_damage(data, begin):
    """The entries at the first `[` behind a damaged place where a whole one stands. Behind a space
    it counts only where another one follows, since else it may be one that is just being put."""
    at = data.find(b"[", 1)
    while at > 0:
        window = b"\n" + data[at : at + 3 * MOST_BEHIND]
        entries, _ = read_kept(window, begin + at - 1)
        if entries and data[at - 1] != ord(" "):
            return entries
        if len(entries) > 1:
            return [entries[0]._replace(is_open=False)]
        at = data.find(b"[", at + 1)
    return []


class Follower:
    """Gives the entries of a log, also over its files that were renamed. `tell` is called with what
    the user has to know; a log that isn't there is told after so many seconds."""

    def __init__(self, path, state, tell, grace=0):
        self.path, self.state, self.tell, self.grace = os.path.abspath(path), state, tell, grace
        self.log, self.ahead = None, []
        self.missing = self.told = None     # since when it isn't there, and what was told of that
        self.found = self.found_at = None   # what was unclear, and since when
        self.is_unclear = False             # whether to look again soon
        self.barren = None                  # damage behind which nothing was found, and when
        self.damages = []                   # what was told of damage

    # where the log is

    def files(self):
        """The regular files of its folder, with their names."""
        folder = os.path.dirname(self.path)
        with contextlib.suppress(OSError), os.scandir(folder) as entries:
            for it in entries:
                with contextlib.suppress(OSError):
                    if it.is_file(follow_symlinks=False):
                        yield it.name, it.path, it.stat(follow_symlinks=False)

    def open(self, path):
        """Opens a file; of the log it is told why it can't be opened, and that it can be again."""
        try:
            log = Log(path)
        except OSError as error:
            if path == self.path:
                is_gone = isinstance(error, FileNotFoundError)
                self.miss("isn't there" if is_gone else f"can't be read: {error.strerror}")
            return None
        if path == self.path:
            if self.told:
                self.tell(f"{self.path} is there")
            self.missing = self.told = None
        return log

    def miss(self, text):
        self.missing = self.missing or time.monotonic()
        if self.told != text and time.monotonic() - self.missing >= self.grace:
            self.told = text
            self.tell(f"{self.path} {text}")

    def open_first(self):
        """Opens the file whose entries were given last, under whatever name; or the log. Whether
        there is one."""
        kept = self.state.kept
        names = [path for _, path, it in self.files() if it.st_ino == kept["file"]]
        with contextlib.suppress(OSError):
            if kept["file"] in (None, os.stat(self.path).st_ino):
                names = [self.path, *names]
        for path in names:
            self.log = self.open(path)
            if self.log and (path == self.path or self.stands()):
                return True
            self.leave()
        if kept["file"] is None or not self.go_on(self.following(kept["changed"], kept["file"])):
            self.open(self.path)
            return False
        self.tell(f"the file of {self.path} that was read last is gone; what was put into it behind "
                  f"{kept['next']} bytes may be missing")
        return True

    def following(self, changed, number):
        """The log that was begun behind this one: the next that was renamed like the log, or the
        log itself."""
        name = os.path.basename(self.path)
        try:
            now = os.stat(self.path).st_ino
        except OSError:
            now = None
        later = [(it.st_mtime_ns, path) for other, path, it in self.files()
                 if other.startswith((name + ".", name + "-")) and it.st_ino not in (now, number)
                 and it.st_mtime_ns >= changed and self.looks_kept(path)]
        return min(later)[1] if later else self.path

    @staticmethod
    def looks_kept(path):
        with contextlib.suppress(OSError), open(path, "rb") as file:
            return file.read(2) == b"\n["
        return False

    def leave(self):
        if self.log:
            self.log.close()
        self.log, self.ahead, self.found = None, [], None

    def go_on(self, path):
        """Goes on with another file; whether it can be opened."""
        log = self.open(path)
        if log:
            self.leave()
            self.log = log
        return bool(log)

    def is_left(self):
        """Whether the log is another file by now."""
        try:
            return os.stat(self.path).st_ino != self.log.number()
        except OSError:
            return True

    # its entries

    def begin(self):
        """Reads the file from its begin. What was given before is known by its mark; where not all
        marks are kept, what stands before the first known one was given too."""
        kept = self.state.kept
        old = kept["old"] + kept["seen"]
        kept.update(file=self.log.number(), place=None, is_open=True, next=0, old=old, seen=[])
        self.ahead = []
        if old and kept["is_short"]:
            kept["next"] = self.first_known()
        self.note_change()

    def first_known(self):
        """The place of the first entry that has a mark, or 0."""
        place, known = 0, set(self.state.kept["old"])
        while True:
            entries, _ = read_kept(self.log.bytes(place, PIECE), place)
            for it in entries:
                if it.mark in known:
                    return it.place
            if not entries:
                return 0
            place = entries[-1].next

    def note_change(self):
        self.state.is_changed = True
        self.state.kept["changed"] = self.log.status().st_mtime_ns

    def stands(self):
        """Whether the last entry stands where it stood."""
        kept = self.state.kept
        if kept["place"] is None:
            return True
        data = self.log.bytes(kept["place"], kept["next"] - kept["place"])
        is_open = data[:1] != b" " or not kept["is_open"]
        return is_open and mark_of(data[1:]) == kept["seen"][-1]

    def is_quiet(self, what):
        """Whether something unclear stayed as it is for a while: a log may just be written."""
        now, found = time.monotonic(), (what, self.log.look())
        if self.found is None or self.found[0][0] != what:
            self.found_at = now
        if self.found is None or self.found[0] != found:
            self.found = found, now
        is_quiet = now - self.found[1] >= QUIET or now - self.found_at >= PATIENCE
        self.is_unclear = not is_quiet
        return is_quiet

    def is_begun(self):
        """Whether the place is one of the file that is open; else that is read from its begin, once
        nothing is written there."""
        kept = self.state.kept
        if kept["file"] == self.log.number() and self.stands():
            return True
        if (kept["seen"] or kept["old"]) and not self.is_quiet("begin"):
            return False
        self.begin()
        self.found = None
        return True

    def read_on(self):
        """The entries behind the place, brought to the disk."""
        begin, size = self.state.kept["next"], self.log.status().st_size
        is_closed = self.log.bytes(begin, 1) == b" "
        if size - begin <= 1 or is_closed and size - begin <= 1 + MOST_BEHIND:
            return []
        barren = self.log.look(), begin
        if self.barren and self.barren[0] == barren and time.monotonic() - self.barren[1] < LONG:
            return []
        data = self.log.bytes(begin, PIECE)
        entries, line = read_kept(data, begin)
        if not entries and line:
            if not self.is_quiet(f"damage at {begin}"):
                return []
            entries = self.read_damaged(data, begin, line)
        if entries:
            self.found = None
            self.log.sync()
        else:
            self.barren = barren, time.monotonic()
        return entries

    def read_damaged(self, data, begin, line):
        """The first entries behind damage, which is told once."""
        text = f"{self.log.path} is damaged at line {self.log.lines_before(begin) + line}"
        is_of_listen = begin == 0 and data[:1] == b"["
        if text not in self.damages:
            self.damages.append(text)
            self.tell(f"{text}: it begins with an entry, as a log of listen does" if is_of_listen
                      else f"{text}: what is not of a log is passed over")
        return [] if is_of_listen else behind_damage(data, begin)

    def look(self):
        """The next entries that weren't given: none where nothing is new."""
        self.is_unclear = False
        for _ in range(1_000):
            if not self.log and not self.open_first() or not self.is_begun():
                return []
            self.ahead = self.ahead or self.read_on()
            if self.ahead:
                new = self.pass_known()
                if new:
                    return new
            elif self.is_unclear or not self.is_left():
                return []
            elif not self.go_on(self.following(self.log.status().st_mtime_ns, self.log.number())):
                return []
        return []

    def pass_known(self):
        """Takes the first entries that were given before; answers those behind them that weren't."""
        old = collections.Counter(self.state.kept["old"])
        while self.ahead and old[self.ahead[0].mark]:
            it = self.ahead[0]
            old[it.mark] -= 1
            self.state.kept["old"].remove(it.mark)
            self.take([it])
        new = []
        for it in self.ahead:
            if old[it.mark]:
                break
            new.append(it)
        return new

    def take(self, entries):
        """The entries, which come next, were given."""
        kept = self.state.kept
        del self.ahead[: len(entries)]
        last = entries[-1]
        kept.update(place=last.place, next=last.next, is_open=last.is_open)
        kept["seen"] += [it.mark for it in entries]
        more = len(kept["seen"]) + len(kept["old"]) - MOST_MARKS
        if more > 0:
            kept["is_short"] = True
            del kept["seen"][: max(0, more - len(kept["old"]))]
            del kept["old"][:more]
        self.note_change()

    def pass_all(self):
        """Takes all that stands in the log by now, and answers it."""
        passed = []
        while True:
            entries = self.look()
            if entries:
                self.take(entries)
                passed += entries
            elif self.is_unclear:
                time.sleep(QUIET / 2)
            else:
                return passed
