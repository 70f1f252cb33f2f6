#!/usr/bin/env python3
"""A plain reader of a log and of a kept log, to compare the program with. It is written from what a
log is, not from the program's code, and it holds all bytes at once.

usage: ci/log_reader.py [--kept | --salvage] [--last] [--json] < FILE

It prints the entries, as they stand in a log or as JSON, and says on standard error which lines have
a torn entry. Where the bytes are damaged it says at which line, with status 2. With --salvage it
goes on there.

An entry is `[`, two letters, two digits, `/1` or `/2` on these channels, a space, the moment as
`YYYY-MM-DD HH:MM:SS`, a space, `full`, `cut` or `long`, a space, the number of `*` of the text,
`/`, the number of its bytes, `]`, a newline; the text; a newline if the text isn't empty and
doesn't end with one; a newline.

A log is cut before each `[`. Before the first one stands a tail. Each other part is an entry and a
tail, or the longest beginning of an entry, which is torn, and a tail. A tail is a gap: newlines and
spaces, or one byte of any kind. Or it is within reach of the last space of a gap, and then it is
torn: behind an entry, or before the first `[`, up to its first byte that is no newline and no space
it is a gap all the same; behind the beginning of an entry it is torn with it. A space reaches 4,147
bytes. A torn entry is told by the line of its first byte.

A kept log is a gate, an entry, a gate, an entry, and so on, a gate. A gate is one byte, closed
where it is a space. It stands for the entries that have an open gate before them. Behind these
there is nothing, or one byte, or a closed gate and a put that was torn.

Salvaged bytes are read up to the first byte with which they are no log. From there they are passed
over up to the next `[`, and told by that byte's line; with this `[` another log begins. The torn
entry of the part that is passed over isn't told.

Damaged bytes are damaged at the line of the first byte with which no bytes to come make them good;
where they end too early, at the line in which they end.
"""

import calendar
import json
import re
import sys
from collections import namedtuple
from datetime import datetime, timedelta

MOST_CHARACTERS = 4_100
LONGEST_ENTRY = 4_146
MOST_TORN = LONGEST_ENTRY + 1
LIFETIME = 66 * 3600
TEXT_BYTES = b"ABCDEFGHIJKLMNOPQRSTUVWXYZ0123456789 -?:().,'=+/*\n"
NUMBER = rb"(0|[1-9][0-9]{0,3})"
HEAD = re.compile(
    rb"\[([A-Z])([A-Z])([0-9]{2})(?:/([12]))? ([0-9]{4})-([0-9]{2})-([0-9]{2}) ([0-9]{2}):([0-9]{2}):([0-9]{2}) "
    rb"(full|cut|long) " + NUMBER + rb"/" + NUMBER + rb"\]\n"
)

Entry = namedtuple("Entry", "channel station subject number moment end text")


def moment_of(year, month, day, hour, minute, second):
    """The seconds since 1970 of a moment of UTC in the years 1970 to 2999, or None."""
    if not 1970 <= year <= 2999:
        return None
    try:
        since = datetime(year, month, day, hour, minute, second) - datetime(1970, 1, 1)
    except ValueError:
        return None
    return since.days * 86_400 + since.seconds


def civil(moment, between=" "):
    """The moment as it stands in a log."""
    return (datetime(1970, 1, 1) + timedelta(seconds=moment)).strftime(f"%Y-%m-%d{between}%H:%M:%S")


def bytes_of(entry):
    """The entry as it stands in a log."""
    mark = f"/{entry.channel}" if entry.channel else ""
    errors, characters = entry.text.count(b"*"), len(entry.text)
    head = f"[{entry.station}{entry.subject}{entry.number:02}{mark} {civil(entry.moment)} {entry.end} {errors}/{characters}]\n"
    newline = b"" if not entry.text or entry.text.endswith(b"\n") else b"\n"
    return head.encode() + entry.text + newline + b"\n"


def json_of(entry):
    """The entry as a line of JSON."""
    said = {
        "channel": entry.channel,
        "characters": len(entry.text),
        "end": entry.end,
        "errors": entry.text.count(b"*"),
        "good": is_good(entry),
        "identity": identity_of(entry),
        "moment": entry.moment,
        "number": entry.number,
        "station": entry.station,
        "subject": entry.subject,
        "text": entry.text.decode(),
        "time": civil(entry.moment, "T") + "Z",
    }
    return json.dumps(said, separators=(",", ":")).encode() + b"\n"


def identity_of(entry):
    """Its identity, as EA01."""
    return f"{entry.station}{entry.subject}{entry.number:02}"


def replaces(later, entry):
    """Whether a later entry takes the place of this one: it is of the same message, not numbered 00,
    comes less than 66 hours later, and this one isn't better."""
    if entry.number == 0 or (later.channel, identity_of(later)) != (entry.channel, identity_of(entry)):
        return False
    if not entry.moment <= later.moment < entry.moment + LIFETIME:
        return False
    worth = [(it.end == "full", -it.text.count(b"*")) for it in (later, entry)]
    return worth[0] >= worth[1]


def last_of(entries):
    """Those that none behind them replaces."""
    return [it for at, it in enumerate(entries) if not any(replaces(later, it) for later in entries[at + 1 :])]


def is_good(entry):
    """Whether the copy is full, with fewer than one error in 25 characters."""
    return entry.end == "full" and 25 * entry.text.count(b"*") < max(1, len(entry.text))


def entry_at(data, at):
    """The entry that begins there, and the place behind it; or None, and the place of the byte with
    which it is none any more. Of a head, which is one line, that is its first byte; where the bytes
    end too early it is their end."""
    head = HEAD.match(data, at)
    if not head:
        return None, at
    station, subject = head[1].decode(), head[2].decode()
    moment = moment_of(*(int(it) for it in head.groups()[4:10]))
    errors, characters = int(head[12]), int(head[13])
    if moment is None or errors > characters or characters > MOST_CHARACTERS:
        return None, at
    begin, lost = head.end(), 0
    for place in range(begin, begin + characters):
        if place == len(data):
            return None, place
        lost += data[place] == ord("*")
        left = begin + characters - place - 1
        if data[place] not in TEXT_BYTES or lost > errors or errors - lost > left:
            return None, place
    text = data[begin : begin + characters]
    end = begin + characters
    for _ in range(1 if not text or text.endswith(b"\n") else 2):
        if data[end : end + 1] != b"\n":
            return None, end
        end += 1
    return Entry(int(head[4] or 0), station, subject, int(head[3]), moment, head[11].decode(), text), end


def line_of(data, place):
    """The line of the byte at that place, from 1."""
    return 1 + data.count(b"\n", 0, place)


DIGITS = "0123456789"
LETTERS = "ABCDEFGHIJKLMNOPQRSTUVWXYZ"


def two(numbers, behind=""):
    """These numbers, each of two digits, with a text behind."""
    return [f"{it:02}{behind}" for it in numbers]


def pieces_of_a_head():
    """The pieces of a head in order: each is a list of its spellings, or a call that gives it for
    the spellings before."""
    yield lambda said: ["["]
    for _ in range(2):
        yield lambda said: list(LETTERS)
    for _ in range(2):
        yield lambda said: list(DIGITS)
    yield lambda said: [" ", "/1 ", "/2 "]
    yield lambda said: [f"{it}-" for it in range(1970, 3000)]
    yield lambda said: two(range(1, 13), "-")
    yield lambda said: two(range(1, calendar.monthrange(int(said[-2][:4]), int(said[-1][:2]))[1] + 1), " ")
    yield lambda said: two(range(24), ":")
    yield lambda said: two(range(60), ":")
    yield lambda said: two(range(60), " ")
    yield lambda said: ["full ", "cut ", "long "]
    yield lambda said: [f"{it}/" for it in range(MOST_CHARACTERS + 1)]
    yield lambda said: [f"{it}]" for it in range(int(said[-1][:-1]), MOST_CHARACTERS + 1)]
    yield lambda said: ["\n"]


def shared(one, other):
    """How many first characters the two share."""
    count = 0
    while count < min(len(one), len(other)) and one[count] == other[count]:
        count += 1
    return count


def longest_beginning(part):
    """How many first bytes of these are the beginning of an entry. No entry is their beginning."""
    rest, at, said = part.decode("latin-1"), 0, []
    for piece in pieces_of_a_head():
        spellings = piece(said)
        whole = [it for it in spellings if rest.startswith(it, at)]
        if not whole:
            left = rest[at : at + 8]
            return at + max(shared(left, it) for it in spellings)
        said.append(whole[0])
        at += len(whole[0])
    errors, characters = int(said[-3][:-1]), int(said[-2][:-1])
    return entry_at_text(part, at, errors, characters)


def entry_at_text(part, begin, errors, characters):
    """The place of the byte with which a text that begins there is none any more, or its end."""
    lost = 0
    for place in range(begin, min(begin + characters, len(part))):
        lost += part[place] == ord("*")
        left = begin + characters - place - 1
        if part[place] not in TEXT_BYTES or lost > errors or errors - lost > left:
            return place
    end = begin + characters
    while end < len(part) and part[end : end + 1] == b"\n":
        end += 1
    return min(end, len(part))


def blanks_in(tail):
    """With how many newlines and spaces the bytes begin."""
    return len(tail) - len(tail.lstrip(b"\n "))


def is_gap(tail):
    """Whether the bytes are newlines and spaces, or one byte."""
    return blanks_in(tail) == len(tail) or len(tail) == 1


def reach_behind(reach, gap):
    """How many bytes more the last space reaches behind these bytes of a gap."""
    if b" " in gap:
        return max(0, MOST_TORN - (len(gap) - 1 - gap.rindex(b" ")))
    return max(0, reach - len(gap))


def first_bad(part, head, is_torn, reach):
    """How many first bytes of a part can stand in a log."""
    for count in range(head, len(part) + 1):
        if not is_gap(part[head:count]):
            from_gap = head if is_torn else head + blanks_in(part[head:count])
            reached = reach - head if is_torn else reach_behind(reach - head, part[head:from_gap])
            if count - from_gap > reached:
                return count - 1
    return len(part)


def read_to_damage(data):
    """The entries of a log, the lines of its torn ones, and the place of the byte with which it is
    damaged, or None. Then the torn entry of the last part isn't told."""
    entries, torn, reach, begin = [], [], 0, 0
    while True:
        end = data.find(b"[", begin + (begin > 0 or data[:1] == b"["))
        first = begin == 0 and data[:1] != b"["
        end = len(data) if end < 0 else end
        part = data[begin:end]
        entry, place = (None, begin) if first else entry_at(data, begin)
        is_torn = not first and entry is None
        head = longest_beginning(part) if is_torn else place - begin
        good = first_bad(part, head, is_torn, reach)
        if entry:
            entries.append(entry)
        if good < len(part):
            return entries, torn, begin + good
        tail = part[head:]
        if is_gap(tail):
            reach = reach_behind(max(0, reach - head), tail)
            torn += [line_of(data, begin)] if is_torn else []
        elif is_torn:
            reach -= len(part)
            torn.append(line_of(data, begin))
        else:
            blanks = blanks_in(tail)
            reach = reach_behind(max(0, reach - head), tail[:blanks]) - (len(tail) - blanks)
            torn.append(line_of(data, begin + head + blanks))
        if end == len(data):
            return entries, torn, None
        begin = end


def read_all(data):
    """The entries of a log, the lines of its torn ones, and the line at which it is damaged, or
    None."""
    entries, torn, place = read_to_damage(data)
    return entries, torn, None if place is None else line_of(data, place)


def salvage_all(data):
    """The entries of a damaged log, what is told of it, in order, and the first line that is none
    of a log, or None. A thing that is told is a line, and whether it is damaged."""
    entries, told, begin = [], [], 0
    while True:
        rest, ended = data[begin:], data.count(b"\n", 0, begin)
        found, torn, place = read_to_damage(rest)
        entries += found
        told += [(ended + it, False) for it in torn]
        if place is not None:
            told.append((ended + line_of(rest, place), True))
        following = -1 if place is None else rest.find(b"[", place)
        if following < 0:
            return entries, told, next((line for line, is_bad in told if is_bad), None)
        begin += following


def notice_of(line, is_bad):
    """What is told of a line: of a torn entry, or of bytes that are passed over."""
    return f"line {line} is not of a log, and was passed over" if is_bad else f"line {line}: a torn entry was passed over"


def read_log(data):
    """The entries of a log, and the line at which it is damaged, or None."""
    entries, _, line = read_all(data)
    return entries, line


def read_kept(data):
    """The entries that a kept log stands for, and the line at which it is damaged, or None."""
    entries, gate = [], 0
    while True:
        left = len(data) - gate
        if left <= 1:
            return entries, None
        if data[gate : gate + 1] == b" ":
            if left - 1 <= MOST_TORN:
                return entries, None
            return entries, line_of(data, gate + 1 + MOST_TORN)
        entry, place = entry_at(data, gate + 1)
        if not entry:
            return entries, line_of(data, place)
        entries.append(entry)
        gate = place


def kept_of(entries):
    """The kept log of the entries, at rest."""
    return b"".join(b"\n" + bytes_of(it) for it in entries) + b" "


def main():
    options = sys.argv[1:]
    if set(options) - {"--kept", "--json", "--last", "--salvage"} or {"--kept", "--salvage"} <= set(options):
        sys.exit(__doc__)
    data = sys.stdin.buffer.read()
    if "--kept" in options:
        (entries, line), told = read_kept(data), []
    elif "--salvage" in options:
        entries, told, line = salvage_all(data)
    else:
        entries, torn, line = read_all(data)
        told = [(it, False) for it in torn]
    for it in last_of(entries) if "--last" in options else entries:
        sys.stdout.buffer.write(json_of(it) if "--json" in options else bytes_of(it))
    sys.stdout.flush()
    for it in told:
        print(notice_of(*it), file=sys.stderr)
    if line:
        print(f"line {line} is not of a log", file=sys.stderr)
    return 2 if line else 0


if __name__ == "__main__":
    sys.exit(main())
