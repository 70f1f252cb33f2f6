"""What the parts of `ci/power` share: the program and what it is run on."""

import array
import fcntl
import functools
import os
import random
import re
import resource
import shutil
import signal
import subprocess
import termios
import time
from collections import namedtuple

from log_reader import bytes_of, entry_at, line_of, read_kept

ROOT = os.path.dirname(os.path.dirname(os.path.abspath(__file__)))
BEGIN = 1_735_689_600
SLOT = 600
STATIONS = "ABCDEFGHIJKLMNOPQRSTUVWX"
# Where a sync costs nothing, for logs that are only opened.
IN_MEMORY = "/dev/shm" if os.access("/dev/shm", os.W_OK) else None
CANT_OPEN, CANT_WRITE = "navtex: the log {} can't be opened: {}", "navtex: the log {} can't be written"
PUT_FAILED = "navtex: the log can't be written; entries go to standard output from here on"

# Behind the last N of an emission's only message stand CR, LF, LF and three ends: 49 elements are
# behind its copy.
BEHIND_A_COPY = 49

# A message that is sent on a channel, the lines of its elements, and which of them ends its copy.
Message = namedtuple("Message", "channel identity text lines last")


class Wrong(Exception):
    """What went wrong."""


def expect(holds, what):
    if not holds:
        raise Wrong(what)


def content(path):
    with open(path, "rb") as file:
        return file.read()


def write(path, data):
    with open(path, "wb") as file:
        file.write(data)


class Trial:
    """The program, a folder for its files, and chance."""

    def __init__(self, given, folder):
        self.program = os.path.realpath(given.program)
        # what asks for a watch, and what for the log of the same lines
        together = ["--combine"] if getattr(given, "combine", False) else []
        self.watching, self.listening = [self.program, "watch", *together], ["listen", *together]
        self.folder, self.all, self.short, self.kills = folder, given.all, given.short, given.kills
        self.days = 2 if given.short else 7
        self.chance = random.Random(given.seed)
        self.counter = 0
        self.made = None

    def path(self, folder=None):
        """A name of no file so far, in the folder for files or in this one."""
        self.counter += 1
        return f"{folder or self.folder}/navtex-power-{os.getpid()}-{self.counter}.log"

    def library(self):
        """ci/power.c, built; None where there is no C compiler."""
        compiler = shutil.which("cc") or shutil.which("gcc") or shutil.which("clang")
        if compiler and not self.made:
            self.made = f"{self.folder}/power.so"
            words = ["-O2", "-shared", "-fPIC", "-o", self.made, f"{ROOT}/ci/power.c", "-ldl"]
            subprocess.run([compiler, *words], check=True)
        return self.made

    def text(self, length):
        """Lines of random words, of about that many characters."""
        words = []
        while sum(map(len, words)) + len(words) < length:
            # no N and no Z, so that no text has NNNN or ZCZC
            letters = self.chance.choice(["ABCDEFGHIJKLMOPQRSTUVWXY", "0123456789"])
            count = self.chance.randint(1, 9)
            words.append("".join(self.chance.choice(letters) for _ in range(count)))
        lines = re.findall(r".{1,60}(?: |$)", " ".join(words))
        return "".join(it.strip() + "\n" for it in lines)

    def message(self, channel, station, subject, number, length):
        """A message of random words on a channel."""
        text = self.text(length)
        sent = self.output(["send", station, "0"], f"#{subject}{number:02}\n{text};\n".encode())
        elements = [it[2:] for it in sent.decode().splitlines() if it.startswith("B ")]
        name = f"B{channel}" if channel else "B"
        lines = tuple(f"{name} {it}\n" for it in elements)
        last = len(lines) - 1 if len(elements[-1]) > BEHIND_A_COPY else len(lines) - 2
        return Message(channel, f"{station}{subject}{number:02}", text.encode(), lines, last)

    def output(self, words, given, status=0):
        """What a call of the program writes, which ends with that status."""
        ran = subprocess.run(
            [self.program, *words], input=given, stdout=subprocess.PIPE, stderr=subprocess.DEVNULL
        )
        expect(ran.returncode == status, f"navtex {' '.join(words)} ended with {ran.returncode}")
        return ran.stdout

    def watch(self, path, moment, given, env=None, limit=None):
        """A watch over this input; its status, its output and its lines on standard error."""

        def prepare():
            signal.signal(signal.SIGXFSZ, signal.SIG_IGN)
            resource.setrlimit(resource.RLIMIT_FSIZE, (limit, limit))

        try:
            ran = subprocess.run(
                [*self.watching, path, str(moment)], input=given, stdout=subprocess.PIPE,
                stderr=subprocess.PIPE, env={**os.environ, **(env or {})}, timeout=120,
                preexec_fn=None if limit is None else prepare,
            )
        except subprocess.TimeoutExpired:
            raise Wrong("a watch whose input ended doesn't end") from None
        return ran.returncode, ran.stdout, ran.stderr.decode().splitlines()


class Pipe:
    """The feed: what is written into it and not read stays there for the next watch."""

    def __init__(self):
        self.end, self.begin = os.pipe()

    def unread(self):
        count = array.array("i", [0])
        fcntl.ioctl(self.end, termios.FIONREAD, count)
        return count[0]

    def wait(self, alive, seconds=60):
        """Waits until all is read."""
        until = time.monotonic() + seconds
        while self.unread():
            expect(alive() is None, "the watch ended by itself")
            expect(time.monotonic() < until, "the watch doesn't read on")
            time.sleep(0.0002)


def feed_of(messages, moment=BEGIN):
    """The messages one behind the other, at moments a slot apart."""
    return "".join(
        f"T {moment + SLOT * at}\n" + "".join(it.lines) for at, it in enumerate(messages)
    ).encode()


@functools.lru_cache(maxsize=64)
def front_of(data):
    """The entries of a log that isn't damaged, and how many bytes they have with their gates."""
    entries, line = read_kept(data)
    expect(line is None, f"a log is damaged at line {line}")
    return entries, sum(1 + len(bytes_of(it)) for it in entries)


def settled(data):
    """What an opening leaves of a log that isn't damaged."""
    return data[: front_of(data)[1]] + b" "


def told_of_start(data):
    """What a start tells of the bytes that it cuts of a log that isn't damaged: how many they are,
    and of each whole entry among them its head."""
    place = len(settled(data)) - 1
    place += data[place : place + 1] == b" "
    behind = data[place:]
    if not behind:
        return []
    line = line_of(data, place)
    lines = [f"navtex: {len(behind)} bytes at line {line} of the log are no kept entry, and are cut"
             if len(behind) > 1
             else f"navtex: 1 byte at line {line} of the log is no kept entry, and is cut"]
    for at in (it.start() for it in re.finditer(rb"\[", behind)):
        if entry_at(behind, at)[0]:
            head = behind[at : behind.index(b"\n", at)].decode()
            lines.append(f"navtex: cut: {head}")
    return lines


def identity_of(entry):
    return f"{entry.station}{entry.subject}{entry.number:02}"


def expect_messages(messages, entries, what):
    """Expects that these entries are just these messages, in full, each once."""
    said = [(it.channel, identity_of(it), it.text, it.end) for it in entries]
    wanted = [(it.channel, it.identity, it.text, "full") for it in messages]
    shown = [it[:2] for it in said], [it[:2] for it in wanted]
    expect(said == wanted, f"{what}: {shown[0]} in place of {shown[1]}")
