"""Records what a watch does with its log, and makes each file that a power cut could leave of it.

What is between two syncs of the log may be on the disk or not, in any part: a write not, its first
byte, its half, all but its last byte, its second half alone, whole, or with other bytes in its
place; a cut not, half or whole. A watch is started over each of these files with an empty input.
"""

import bisect
import concurrent.futures
import contextlib
import glob
import itertools
import os
import random
import re
import shutil
import subprocess
import tempfile
import threading
from collections import namedtuple

from log_reader import (
    LONGEST_ENTRY,
    MOST_TORN,
    TEXT_BYTES,
    Entry,
    bytes_of,
    kept_of,
    read_log,
)
from power_record import calls_of, expect_no_memory_taken, hold, noted, stages_due, told
from power_trial import (
    BEGIN,
    IN_MEMORY,
    ROOT,
    SLOT,
    STATIONS,
    Pipe,
    Wrong,
    content,
    expect,
    front_of,
    settled,
    told_of_start,
    write,
)

MIB = 1 << 20
LEAST_FILES = 20_000
# So many of the first runs have their files opened.
MOST_OPENED = 26
# Lines without effect: not understood, too long, no elements, no text, of what can't be refused.
NOISE = [b"X\n", b"0" * 600 + b"\n", b"B 012\n", b"\xff\0\n", b"RJ L\n"]


class Feed:
    """What a watch hears, and what the lines of it print."""

    def __init__(self, trial, name, data, moment=BEGIN):
        self.trial, self.name, self.data, self.moment = trial, name, data, moment
        lines = data.splitlines(keepends=True)
        self.acting = [it for it in lines if it not in NOISE]
        # behind each line the bytes so far, and how many lines so far act
        self.ends = [*itertools.accumulate(map(len, lines))]
        self.acts = [0, *itertools.accumulate(it not in NOISE for it in lines)]
        self.entries = read_log(trial.output(trial.listening, b"".join(self.acting)))[0]
        # how many entries the first acting lines print, none of them, one, and so on
        self.counts = [0] * (len(self.acting) + 1)
        if self.acting:
            self.counts[-1] = self.printed(len(self.acting))
            self.count_between(0, len(self.acting))

    def printed(self, acts):
        """How many entries so many acting lines print. A line behind them that isn't understood
        ends `listen` there, so that nothing is closed."""
        given = b"".join(self.acting[:acts]) + b"X\n"
        return len(read_log(self.trial.output(self.trial.listening, given, status=2))[0])

    def count_between(self, low, high):
        """Counts what the lines between these two numbers print, of which the counts are known."""
        if self.counts[low] == self.counts[high]:
            self.counts[low:high] = [self.counts[low]] * (high - low)
        elif high - low > 1:
            middle = (low + high) // 2
            self.counts[middle] = self.printed(middle)
            self.count_between(low, middle)
            self.count_between(middle, high)

    def count(self, come):
        """How many entries the whole lines among so many first bytes print."""
        return self.counts[self.acts[bisect.bisect_right(self.ends, come)]]


# Feeds.


def feeds_of_examples(trial):
    """Each air file of `examples/` that `listen` takes."""
    paths = glob.glob(f"{ROOT}/examples/*.air") + glob.glob(f"{ROOT}/examples/week/*.air")
    for path in sorted(paths):
        data = content(path)
        first = re.search(rb"^T (\d+)$", data, re.M)
        if first:
            yield Feed(trial, os.path.relpath(path, ROOT), data, int(first[1]))


def lines_of(elements, channel):
    """Lines of these elements on a channel."""
    name = f"B{channel}" if channel else "B"
    return [f"{name} {elements[at : at + 490]}\n" for at in range(0, len(elements), 490)]


def emission(trial, identity, text, end="NNNN\n"):
    """The elements of a message, of a text of any length."""
    given = f"ZCZC {identity}\n{text}{end}".encode()
    lines = trial.output(["encode"], given).decode().splitlines()
    return "".join(it[2:] for it in lines)


def lossy(elements, first, count, every):
    """Loses both sendings of each so manieth character: a character is sent in a word of even
    number, and again five words behind it. The first element of a word inverted makes it wrong."""
    bits = list(elements)
    for word in range(first, first + count, 2 * every):
        for at in (word * 7, (word + 5) * 7):
            if at < len(bits):
                bits[at] = "10"[int(bits[at])]
    return "".join(bits)


def exact(trial, length):
    """A text of exactly so many characters."""
    text = trial.text(length + 1)[: max(0, length - 1)].rstrip() if length else ""
    return (text + "E" * (length - 1 - len(text)) + "\n") if length else ""


# A letter for subjects, and the numbers of messages: no two have one identity.
IDENTITIES = [f"{station}{subject}{number:02}" for number in range(1, 100) for subject in "ABCEFG"
              for station in STATIONS]


def made_feed(trial, name, texts, is_noisy=False):
    """A feed of texts on the channels in turn, each at its moment: a text or its length, which of
    its characters are lost, if any, and whether its end comes."""
    identities = iter(trial.chance.sample(IDENTITIES, len(texts)))
    lines = []
    for at, (text, every, is_ended) in enumerate(texts):
        text = text if isinstance(text, str) else exact(trial, text)
        elements = emission(trial, next(identities), text, "NNNN\n" if is_ended else "")
        if every:
            elements = lossy(elements, 60, 2 * len(text), every)
        lines += [f"T {BEGIN + SLOT * at}\n", *lines_of(elements, at % 3)]
    lines = [it.encode() for it in lines]
    for _ in range(len(lines) // 4 if is_noisy else 0):
        lines.insert(trial.chance.randint(1, len(lines)), trial.chance.choice(NOISE))
    return Feed(trial, name, b"".join(lines))


def feeds_of_lengths(trial):
    """Texts from none to 4,100 characters, long ones beside short ones; the longest entry too."""
    some = [0, 1, 2, 60, 950, 1_010, 4_096, 4_100, 1]
    more = [*range(3, 70), *range(70, 4_100, 37), 4_097, 4_098, 4_099]
    lengths = some if trial.short else some + trial.chance.sample(more, len(more))
    for begin in range(0, len(lengths), 9):
        texts = [(it, 0, True) for it in lengths[begin : begin + 9]]
        yield made_feed(trial, f"texts of {lengths[begin : begin + 9]} characters", texts)
    # Lost characters make four digits of errors, the channel has a mark, and the last of 4,100
    # characters is no newline.
    text = ("E" * 69 + "\n") * 60
    longest = made_feed(trial, "the longest entry", [(5, 0, True), (text, 4, True), (5, 0, True)])
    sizes = [len(bytes_of(it)) for it in longest.entries]
    expect(LONGEST_ENTRY in sizes, f"the longest entry: {sizes}")
    yield longest


def random_feed(trial, number):
    """Messages of any kind, by chance."""
    chance = trial.chance
    texts = [
        (chance.choice([0, 1, 3, 20, 20, 60, 200, chance.randint(0, 700)]),
         chance.choice([0, 0, 0, 5, 9, 40]), chance.random() < 0.9)
        for _ in range(chance.randint(3, 9))
    ]
    return made_feed(trial, f"feed {number}", texts, is_noisy=number % 2 == 0)


# Runs that are recorded.

# A run: its feed, what the log holds at first (None where there is none), the name of the log,
# whether it is given without its folder, and which standard descriptors are closed.
Run = namedtuple(
    "Run", "feed start name is_relative closed", defaults=(None, "w.log", False, ())
)
# Such a run with what was called between two syncs, and how many calls took memory before the
# first read of the feed.
Recorded = namedtuple("Recorded", "run stages taken")


def said_of(run):
    """A run in few words."""
    start = "no log" if run.start is None else f"a log of {len(run.start)} bytes"
    closed = f", closed {run.closed}" if run.closed else ""
    return f"{run.feed.name}, {start}, {run.name[:20]}{closed}"


class Recorder:
    """Runs watches, and records their calls."""

    def __init__(self, trial, folder):
        self.trial, self.folder, self.strace = trial, folder, shutil.which("strace")
        if self.strace:
            tried = subprocess.run([self.strace, "-o", "/dev/null", "true"], capture_output=True)
            self.strace = None if tried.returncode else self.strace

    def record(self, run, is_traced=False):
        """Runs a watch, and holds its calls against what a kept log has to do."""
        try:
            return self.held(run, bool(is_traced and self.strace))
        except Wrong as wrong:
            raise Wrong(f"{said_of(run)}: {wrong}") from None

    def held(self, run, is_traced):
        with tempfile.TemporaryDirectory(dir=self.folder) as room:
            path = os.path.join(room, run.name)
            given = run.name if run.is_relative else path
            if run.start is not None:
                write(path, run.start)
            self.run(run, room, given, is_traced)
            calls = self.calls_in(room, given, is_traced)
            others = {*os.listdir(room)} - {"record", "trace", run.name}
            expect(os.path.exists(path) and not others, f"the log is another file: {others}")
            left = content(path)
        entries = [] if 0 in run.closed else run.feed.entries
        return Recorded(run, *hold(calls, run.start, entries, run.feed.count, left))

    def words(self, run, room, given, is_traced):
        """The words of the call, and its environment."""
        words = [*self.trial.watching, given, str(run.feed.moment)]
        env = {"LD_PRELOAD": self.trial.library(), "POWER_RECORD": f"{room}/record"}
        if not is_traced:
            return words, {**os.environ, **env}
        passed = [f"-E{name}={value}" for name, value in env.items()]
        kinds = ["-e", "trace=%file,%desc,%memory", "-o", f"{room}/trace"]
        return [self.strace, "-xx", "-s", "10000000", *kinds, *passed, *words], None

    def run(self, run, room, given, is_traced):
        words, env = self.words(run, room, given, is_traced)
        pipe = Pipe()
        closing = (lambda: [os.close(it) for it in run.closed]) if run.closed else None
        with subprocess.Popen(
            words, stdin=pipe.end, stdout=subprocess.PIPE, stderr=subprocess.PIPE, cwd=room,
            env=env, preexec_fn=closing,
        ) as watch:
            try:
                if 0 not in run.closed:
                    feed(watch, pipe, run.feed.data)
            finally:
                os.close(pipe.begin)
                os.close(pipe.end)
            output, faults = watch.communicate(timeout=120)
        self.expect_ended(run, watch.returncode, output, faults.decode().splitlines())

    def expect_ended(self, run, status, output, faults):
        """Expects the end of a watch whose disk doesn't fail."""
        wanted = told_of_start(run.start or b"")
        if 0 in run.closed:
            wanted.append("navtex: read failed")
        if 2 in run.closed:
            wanted = []
        faults = [it for it in faults if "had no effect" not in it]
        ended = status, output, faults
        expect(ended == (int(0 in run.closed), b"", wanted), f"it ended so: {ended}")

    def calls_in(self, room, given, is_traced):
        """The calls of a run, which ci/power.c and strace tell alike."""
        with open(f"{room}/record") as file:
            calls = [*calls_of(noted(file.read()), given, room)]
        if is_traced:
            with open(f"{room}/trace") as file:
                others = [*calls_of(told(file.read()), given, room)]
            expect_no_memory_taken(others)
            noted_so, told_so = ([it for it in one if it[0] != "memory"] for one in (calls, others))
            expect(noted_so == told_so, "strace tells other calls")
        return calls


def feed(watch, pipe, data):
    """Writes the feed in pieces of 1 to 4,000 bytes, each when the one before it is read."""
    at, chance = 0, random.Random(len(data))
    while at < len(data):
        size = chance.choice([1, chance.randint(1, 600), chance.randint(1, 4_000)])
        os.write(pipe.begin, data[at : at + size])
        pipe.wait(watch.poll)
        at += size


def some_entries(chance, count, length):
    """Entries of other messages, older than the feeds, with texts of about that many characters."""
    letters = bytes(set(TEXT_BYTES) - set(b"*\n"))
    for at in range(count):
        text = bytes(chance.choices(letters, k=chance.randint(length // 2, length)))
        yield Entry(at % 3, "Y", "ABCEFG"[at % 6], 1 + at % 99, BEGIN - 500_000 + 60 * at, "full",
                    text + b"\n")


def long_log(trial):
    """A log of more than 2,000 entries and more than 1 MiB."""
    return kept_of(some_entries(trial.chance, 2_100, 640))


def tails(trial, length):
    """What a torn put leaves behind a closed gate, of that length: the beginning of an entry, and
    bytes of any kind."""
    text = b"E" * 4_100
    entry = bytes_of(Entry(1, "Y", "D", 50, BEGIN, "long", text)) + b" "
    yield (entry + bytes(MOST_TORN))[:length]
    yield trial.chance.randbytes(length)


def runs_of_tails(trial, quiet, long):
    """A torn tail of each length, behind a short log and some behind a long one."""
    short = kept_of(some_entries(trial.chance, 3, 60))
    few = [0, 1, 2, 42, 1_000, LONGEST_ENTRY, MOST_TORN]
    for length in few if trial.short else range(MOST_TORN + 1):
        for it in tails(trial, length):
            yield Run(quiet, short + it)
            if length in few:
                yield Run(quiet, it[:1])
    for length in few[1::2] if trial.short else few:
        yield Run(quiet, long + [*tails(trial, length)][length % 2])


def runs_of_places(trial, some):
    """Names of any kind, and standard streams that are closed."""
    for name in ("n" * 250, "l\u00f6g \u00e9 " + "x" * 190, "w.log"):
        yield Run(some, None, name)
        yield Run(some, None, name, True)
    for count in (1, 2, 3):
        for closed in itertools.combinations(range(3), count):
            for start in (None, kept_of(some_entries(trial.chance, 3, 60)) + b"[EA"):
                yield Run(some, start, closed=closed)


def runs(trial):
    """All runs that are recorded; of those that come first, files are made."""
    quiet = Feed(trial, "nothing", b"")
    some = made_feed(trial, "some messages", [(20, 0, True), (1_100, 9, True), (0, 0, False)], True)
    torn = kept_of(some_entries(trial.chance, 2, 30)) + b"[EA02 2025"
    first = [Run(some), Run(some, torn), Run(some, b"[")]
    first += [Run(it) for it in feeds_of_examples(trial)]
    first += [Run(it) for it in feeds_of_lengths(trial)]
    long = long_log(trial)
    expect(len(long) > MIB, "the long log isn't long")
    others = [Run(some, long), *runs_of_tails(trial, quiet, long), *runs_of_places(trial, some)]
    return first, others


# Files that a power cut could leave.


def parts_of(at, data, chance):
    """What a power cut could leave of a write: each the place and the bytes that stand there, or
    None where nothing does."""
    half, count = len(data) // 2, len(data)
    yield None
    yield at, data
    if count > 1:
        yield at, data[:1]
        yield at, data[:half]
        yield at, data[:-1]
        yield at + half, data[half:]
        yield at, chance.randbytes(half) + data[half:]
    else:
        for it in b" \n[*E\x01":
            yield at, bytes([it])
    for it in (bytes(count), b"\xff" * count, chance.randbytes(count), b" " * count, b"\n" * count):
        yield at, it
    yield at, bytes(chance.choices(TEXT_BYTES + b"[]/", k=count))


def cut_parts(size, length):
    """The lengths that a power cut could leave of a cut."""
    return [length, (length + size) // 2, size]


def left_by(base, calls, chance):
    """Each file that a power cut could leave, where these calls came behind the last sync."""
    found = [base]
    for at, data in calls:
        before, found = found, []
        for it in before:
            if data is None:
                found += [it[:size] for size in cut_parts(at, len(it))]
                continue
            for part in parts_of(at, data, chance):
                found.append(it if part is None else placed(it, *part))
    return {*found}


def placed(data, at, part):
    """The bytes with this part at that place; zeros where there were none before it."""
    return data[:at].ljust(at, b"\0") + part + data[at + len(part) :]


def files_left(recorded, chance):
    """The files that a power cut could leave at any moment of a run, each with the least and the
    most entries of the run that it may stand for."""
    run = recorded.run
    base = run.start or b""
    opening, _ = stages_due(run.start, [])
    for place, stage in enumerate(recorded.stages):
        done = max(0, place - opening) // 2
        least = max(done, run.feed.count(stage.heard))
        most = done + (place >= opening)
        for it in sorted(left_by(base, stage.calls, chance)):
            yield it, least, most
        for at, data in stage.calls:
            base = base[:at] if data is None else placed(base, at, data)


class Opener:
    """Starts a watch over files that a power cut could leave."""

    def __init__(self, trial, folder, recorded):
        self.trial, self.folder, self.run = trial, folder, recorded.run
        before = front_of(self.run.start or b"")[0]
        entries = before + self.run.feed.entries
        self.before = len(before)
        self.lines = self.json(kept_of(entries)) if entries else []
        self.told = {}

    def json(self, log):
        return self.trial.output(["log", "--json"], log).splitlines()

    def count(self, log):
        """How many entries `navtex log` finds in this log, which have to begin those of the run."""
        if log not in self.told:
            lines = self.json(log)
            expect(lines == self.lines[: len(lines)], f"other entries: {lines[-1:]}")
            self.told[log] = len(lines)
        return self.told[log]

    def start(self, path):
        """Starts a watch with an empty input; its status, and all that it writes. Nothing between
        it and the system costs time: there are many files."""
        words = [*self.trial.watching, path, str(self.run.feed.moment)]
        to = os.O_WRONLY | os.O_CREAT | os.O_TRUNC
        streams = [(os.POSIX_SPAWN_OPEN, 0, "/dev/null", os.O_RDONLY, 0),
                   (os.POSIX_SPAWN_OPEN, 1, f"{path}.told", to, 0o600),
                   (os.POSIX_SPAWN_DUP2, 1, 2)]
        number = os.posix_spawn(words[0], words, os.environ, file_actions=streams)
        status = os.waitstatus_to_exitcode(os.waitpid(number, 0)[1])
        return status, content(f"{path}.told").decode().splitlines()

    def expect_opened(self, image):
        data, least, most = image
        path = f"{self.folder}/image-{threading.get_ident()}.log"
        write(path, data)
        ended = self.start(path)
        what = f"{said_of(self.run)}: a file of {len(data)} bytes, {data[-60:]!r}"
        expect(ended == (0, told_of_start(data)), f"{what}: {ended}")
        left = content(path)
        expect(left == settled(data), f"{what}: {left[-60:]!r} is left")
        count = self.count(left) - self.before
        expect(least <= count <= most, f"{what}: {count} entries, not {least} to {most}")


def open_images(trial, folder, recorded, pool):
    """Starts a watch over each file that this run could leave; how many."""
    opener = Opener(trial, folder, recorded)
    made = [*files_left(recorded, trial.chance)]
    for _ in pool.map(opener.expect_opened, made):
        pass
    return len(made)


@contextlib.contextmanager
def room(trial):
    """A folder in memory, and as many threads as there are processors."""
    with tempfile.TemporaryDirectory(prefix="navtex-power-", dir=IN_MEMORY) as folder:
        with concurrent.futures.ThreadPoolExecutor(os.cpu_count()) as pool:
            yield folder, pool


def images(trial):
    """Records runs, and opens what a power cut could leave of them; answers what is to be told."""
    if not trial.library():
        return "left out: all of it, since there is no C compiler"
    with room(trial) as (folder, pool):
        recorder = Recorder(trial, folder)
        first, others = runs(trial)
        traced = 3 if trial.short else len(first)
        is_traced = [at < traced for at in range(len(first) + len(others))]
        recorded = [*pool.map(recorder.record, first + others, is_traced)][: len(first)]
        # of the many that are heard for their lengths, a few and the longest
        some = recorded[:3] if trial.short else recorded[:MOST_OPENED] + recorded[-1:]
        files = 0
        for it in some:
            files += open_images(trial, folder, it, pool)
        number = 0
        while not trial.short and files < LEAST_FILES:
            number += 1
            one = recorder.record(Run(random_feed(trial, number)))
            files += open_images(trial, folder, one, pool)
        count = len(first) + len(others) + number
        by = f"{traced} of them by strace too" if recorder.strace else "left out: strace, which is not there"
        return f"{count} runs recorded, {by}; {files} files, none wrong"


def memory(trial):
    """Hears a long feed, and counts the calls that take memory; answers what is to be told."""
    if not trial.library():
        return "left out: all of it, since there is no C compiler"
    with room(trial) as (folder, _):
        recorder = Recorder(trial, folder)
        lengths, losses = [0, 5, 60, 60, 300, 1_500], [0, 0, 9]
        texts = [(trial.chance.choice(lengths), trial.chance.choice(losses), True)
                 for _ in range(60 if trial.short else 600)]
        heard = made_feed(trial, "a long feed", texts, is_noisy=True)
        start = kept_of(some_entries(trial.chance, 300, 60))
        taken = recorder.record(Run(heard, start), True).taken
        expect(taken > 0, "no call is seen that takes memory before the first read")
        by = "nor by strace" if recorder.strace else "left out: strace, which is not there"
        size = f"{len(heard.data)} bytes and {len(heard.entries)} entries"
        return f"{taken} calls take memory before the first read; over {size} none behind it, {by}"
