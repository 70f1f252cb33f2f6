#!/usr/bin/env python3
"""A plain reader of an air file, to compare `navtex listen` and `navtex listen --combine` with. It
is written from what a log is, not from the program's code, and it holds all elements at once.

usage: ci/combined_reader.py [--combine] < AIR

It prints the log of the file; with --combine the one in which several sendings of a message are
taken together. Where a line has a fault it prints the log of the lines before it, and says on
standard error what the program says, with status 2.

On the way from elements to a log each function names the rule that it gives: of ITU-R M.540 (what
a message is), M.476 and M.625 (the code, and both sendings of a position), or of this profile.
"""

import re
import sys
from bisect import bisect_right
from collections import namedtuple
from datetime import datetime, timedelta
from itertools import accumulate

# The 32 combinations (M.476, M.625): the number of the word, element 1 in the least place, B as 1;
# its letter and its figure. A line feed prints a newline in either shift, a space a space. A `~`
# prints nothing: carriage return, both shifts, the blank, and the figures of D, F, G, H and J.
COMBINATIONS = """
    47 A -   72 B ?   1D C :   53 D ~   56 E 3   1B F ~   35 G ~   69 H ~   4D I 8   17 J ~
    1E K (   65 L )   39 M .   59 N ,   71 O 9   2D P 0   2E Q 1   55 R 4   4B S '   74 T 5
    4E U 7   3C V =   27 W 2   3A X /   2B Y 6   63 Z +   78 ~ ~   6C \n \n 5A ~ ~   36 ~ ~
    5C _ _   6A ~ ~
"""
CR, LF, LTRS, FIGS, SPACE, BLANK = range(27, 33)


def elements_of(number):
    """The seven elements of a word, in the order of sending; `1` is B."""
    return "".join(str(number >> place & 1) for place in range(7))


ROWS = [it.split(" ") for it in re.findall(r"[0-9A-F]{2} [^ ] [^ ]", COMBINATIONS)]
P1, P2, BETA = (elements_of(it) for it in (0x0F, 0x66, 0x33))
WORDS = [None] + [elements_of(int(number, 16)) for number, _, _ in ROWS]
PRINTS = [
    [""] + ["" if row[column] == "~" else row[column].replace("_", " ") for row in ROWS] for column in (1, 2)
]
LETTERS, FIGURES = PRINTS

# What a position is: a combination, 1 to 32, or one of these. A word counts as a combination, as
# idle, or as nothing, where it has the wrong weight.
IDLE, LOST, NOTHING = 0, -1, None
COUNTS_AS = {word: number for number, word in enumerate(WORDS) if word} | dict.fromkeys((P1, P2, BETA), IDLE)

# Limits, all of this profile.
PATTERN = 28  # elements of a lock's pattern
PATTERNS = (P2 + P1 + P2 + P1, P1 + P2 + P1 + P2)
LOOKED_AT, TOO_MANY_WRONG = 64, 40  # of so many words so many are wrong: the lock is lost
DX_TO_RX = 5  # slots from the first to the second sending of a position
MOST_CHARACTERS = 4_100  # of a text that is found
MOST_POSITIONS = 8_192  # of a copy that joins others
REMEMBERED = 200  # entries, and families
SIXTY_SIX_HOURS = 237_600
LAST_MOMENT = 32_503_679_999  # 2999-12-31 23:59:59
MOST_LINE, MOST_AIR = 514, 268_435_456  # bytes
VITAL = "ABDL"
NO_RELEASE = 10**18  # a line behind all others


# ---- The air file --------------------------------------------------------------------------------

# A line of elements of a channel: the place of its first element there, its number, and what is in
# force at it.
Line = namedtuple("Line", "first number moment refused")
Share = namedtuple("Share", "elements lines")
LINE = re.compile(rb"(T) (0|[1-9][0-9]{0,10})|(B)([012]?) ([01]+)|([RA])([SJ])([012]?) ([A-Z])")


def air_of(data):
    """*Air file* (this profile): the share of each of the three channels in the lines before the
    first fault, and that fault as the program says it, or None."""
    *whole, rest = data[:MOST_AIR].split(b"\n")
    pieces, lines, counts = ([], [], []), ([], [], []), [0, 0, 0]
    moment, refused, fault = None, [frozenset()] * 3, None
    for number, line in enumerate(whole, 1):
        fault = fault_of(number, line, moment)
        if fault:
            break
        t, at, b, b_channel, elements, act, of, channel, letter = LINE.fullmatch(line).groups()
        if t:
            moment = int(at)
        elif b:
            channel = int(b_channel or 0)
            lines[channel].append(Line(counts[channel], number, moment, refused[channel]))
            pieces[channel].append(elements.decode())
            counts[channel] += len(elements)
        else:
            named = {(of.decode(), letter.decode())}
            before = refused[int(channel or 0)]
            refused[int(channel or 0)] = before | named if act == b"R" else before - named
    fault = fault or fault_of_rest(len(whole) + 1, rest, len(data) > MOST_AIR)
    return [Share("".join(its), of_it) for its, of_it in zip(pieces, lines)], fault


def fault_of(number, line, last):
    """The fault of a whole line, or None; `last` is the moment in force, if there is one."""
    if len(line) > MOST_LINE:
        return f"line {number} is longer than {MOST_LINE} bytes"
    found = LINE.fullmatch(line)
    if not found:
        return f"line {number} is not understood"
    if found[1] and int(found[2]) > LAST_MOMENT:
        return f"line {number}: moment {int(found[2])} is out of range"
    if found[1] and int(found[2]) < (last or 0):
        return f"line {number}: moment {int(found[2])} is before {last}"
    if found[3] and last is None:
        return f"line {number} has elements before any moment"
    if (found[6], found[7]) == (b"R", b"J") and found[9].decode() in VITAL:
        return f"line {number}: subject {found[9].decode()} can't be refused"
    return None


def fault_of_rest(number, rest, is_too_long):
    """The fault of what stands behind the last whole line, or None."""
    if len(rest) > MOST_LINE:
        return f"line {number} is longer than {MOST_LINE} bytes"
    if is_too_long:
        return f"air file longer than {MOST_AIR} bytes"
    return f"line {number} has no end" if rest else None


# ---- From elements to copies ---------------------------------------------------------------------

# Of a lock: the place of its first element, whether its word 0 is a DX, its words up to the one
# that releases it, and how that was: "ended", "lost", or None where the elements end before.
Lock = namedtuple("Lock", "begin is_dx_first words how")


def locks_of(elements):
    """*Locks* (this profile), in order. The next search begins behind the releasing word."""
    behind = 0
    while True:
        begin, is_dx_first = search(elements, behind)
        if begin is None:
            return
        lock = lock_at(elements, begin, is_dx_first)
        yield lock
        if lock.how is None:
            return
        behind = begin + 7 * len(lock.words)


def search(elements, behind):
    """*Locks*: the least count of elements, greater than `behind`, of which the last 28 are P2 P1 P2
    P1 or P1 P2 P1 P2, and whether the next word is a DX; it is where they end with P1."""
    found = [(elements.find(it, max(0, behind + 1 - PATTERN)), it == PATTERNS[0]) for it in PATTERNS]
    found = [it for it in found if it[0] >= 0]
    if not found:
        return None, None
    first, is_dx_first = min(found)
    return first + PATTERN, is_dx_first


def lock_at(elements, begin, is_dx_first):
    """*Locks*: the words of a lock. It is ended three words behind the least DX word, from word 2
    on, that is P1 as the DX word before it. It is lost at the least word with which 40 of the last
    64 words are wrong. At one word it is ended."""
    words = [elements[at : at + 7] for at in range(begin, len(elements) - 6, 7)]
    first_dx = 0 if is_dx_first else 1
    pairs = (k for k in range(first_dx + 2, len(words), 2) if words[k] == P1 == words[k - 2])
    ended = next(pairs, len(words)) + 3
    wrong = [0, *accumulate(it not in COUNTS_AS for it in words)]
    full = (k for k in range(len(words)) if wrong[k + 1] - wrong[max(0, k + 1 - LOOKED_AT)] >= TOO_MANY_WRONG)
    lost = next(full, len(words))
    last = min(ended, lost)
    how = None if last >= len(words) else "ended" if last == ended else "lost"
    return Lock(begin, is_dx_first, words[: last + 1], how)


def paired(dx, rx):
    """*Pairing* (M.625; that differing signals are lost is this profile's)."""
    if dx == rx or rx is NOTHING:
        return LOST if dx is NOTHING else dx
    return rx if dx is NOTHING else LOST


# The positions of a lock, for each the place of the last element of its RX word, and how many first
# positions are sure: those up to the last two in a row of which both words count alike.
Heard = namedtuple("Heard", "positions places sure")


def heard_in(lock):
    """*Text of a lock* (M.625): each RX word is paired with the DX word five before it, or with a
    wrong one where the lock has none."""
    counts = [COUNTS_AS.get(it, NOTHING) for it in lock.words]
    rx = range(1 if lock.is_dx_first else 0, len(counts), 2)
    pairs = [(counts[k - DX_TO_RX] if k >= DX_TO_RX else NOTHING, counts[k]) for k in rx]
    alike = [one == other is not NOTHING for one, other in pairs]
    twice = [at for at in range(1, len(alike)) if alike[at - 1] and alike[at]]
    sure = twice[-1] + 1 if twice else 0
    return Heard([paired(*it) for it in pairs], [lock.begin + 7 * k + 6 for k in rx], sure)


def reading(positions, shift):
    """*Reading* (M.476), from a first shift: the text, and for each character the index of the
    position that prints it."""
    text, indexes = [], []
    for at, it in enumerate(positions):
        if it in (LTRS, FIGS):
            shift = LETTERS if it == LTRS else FIGURES
        prints = "*" if it == LOST else shift[it]
        if prints:
            text.append(prints)
            indexes.append(at)
    return "".join(text), indexes


def end_of(raw):
    """*Copies of a text* (M.540; 4,100 is this profile's): the text that stands behind a second
    digit, how it ended, and behind how many characters of `raw`; None where that is with its lock
    or with the file."""
    first = 1 if raw.startswith("\n") else 0
    markers = [(raw.find(it, first), how) for it, how in (("NNNN", "full"), ("ZCZC", "cut"))]
    at, how = min((it for it in markers if it[0] >= 0), default=(MOST_CHARACTERS + len(raw), None))
    if at + 4 <= first + MOST_CHARACTERS:
        return raw[first:at], how, at + 4
    if len(raw) >= first + MOST_CHARACTERS:
        return raw[first : first + MOST_CHARACTERS], "long", first + MOST_CHARACTERS
    return raw[first:], "cut", None


HEADER = re.compile(r"(?=(ZCZC +([A-Z][A-Z][0-9][0-9])))")

# A copy: where its second digit and where its end stands, as the line and the place of the element
# on the channel; what a copy shows; and its positions, but for what is left out.
Copy = namedtuple("Copy", "channel identity moment is_selected begin over text how positions")


def errors_in(text):
    """The errors of a text: its `*`."""
    return text.count("*")


def copies_of(channel, share, is_whole):
    """*Tagged copies* (M.540; the selection is this profile's) of a channel, in the order of their
    headers. A copy bears the moment and the selection at its second digit. Where the file wasn't
    read to its end, only those that had ended count."""
    firsts = [it.first for it in share.lines]

    def line_at(place):
        return share.lines[bisect_right(firsts, place) - 1]

    found = []
    for lock in locks_of(share.elements):
        heard = heard_in(lock)
        text, indexes = reading(heard.positions, LETTERS)
        for header in HEADER.finditer(text):
            digit, identity = header.end(1) - 1, header[2]
            said, how, count = end_of(text[digit + 1 :])
            last = len(heard.positions) if count is None else indexes[digit + count] + 1
            kept = min(last, heard.sure) if count is None and lock.how == "lost" else last
            if count is not None:
                over = heard.places[last - 1]
            else:
                over = None if lock.how is None else lock.begin + 7 * len(lock.words) - 1
            begin = heard.places[indexes[digit]]
            at = line_at(begin)
            is_selected = not at.refused & {("S", identity[0]), ("J", identity[1])}
            if over is not None or is_whole:
                end = (NO_RELEASE, 0) if over is None else (line_at(over).number, over)
                positions = heard.positions[indexes[digit] + 1 : kept]
                found.append(Copy(channel, identity, at.moment, is_selected, begin, end, said, how, positions))
    return found


# ---- From copies to the log of listen ------------------------------------------------------------


def is_urgent(identity):
    """Whether the number is 00 (M.540)."""
    return identity.endswith("00")


def is_good(text, how):
    """*Good* (this profile): full, with fewer than one error in 25 characters."""
    return how == "full" and 25 * errors_in(text) < max(1, len(text))


def is_live(entries, identity, moment):
    """*Printed and entered* (this profile): whether one of the last 200 entries has the identity
    and is less than 66 hours old."""
    return any(its == identity and moment - then < SIXTY_SIX_HOURS for its, then in entries[-REMEMBERED:])


def printed(copies):
    """*Printed and entered* (M.540 for the number 00; all else is this profile's): for each copy of
    a channel, whether it is printed."""
    entries, answers = [], []
    for it in copies:
        is_printed = it.is_selected and (is_urgent(it.identity) or not is_live(entries, it.identity, it.moment))
        if is_printed and is_good(it.text, it.how) and not is_urgent(it.identity):
            entries.append((it.identity, it.moment))
        answers.append(is_printed)
    return answers


def civil(moment):
    """The moment as it stands in a log, in UTC."""
    return (datetime(1970, 1, 1) + timedelta(seconds=moment)).strftime("%Y-%m-%d %H:%M:%S")


def entry_of(copy, text, how):
    """An entry of a log (this profile)."""
    mark = f"/{copy.channel}" if copy.channel else ""
    head = f"[{copy.identity}{mark} {civil(copy.moment)} {how} {errors_in(text)}/{len(text)}]\n"
    return head + text + ("\n" if text and not text.endswith("\n") else "") + "\n"


def log_of(entries):
    """*Log*: pairs of a copy and its entry, of all channels, in the order in which their copies
    end, at the file's end by channel."""
    ordered = sorted(entries, key=lambda it: (it[0].over, it[0].channel))
    return "".join(entry for _, entry in ordered).encode()


# ---- Several sendings together -------------------------------------------------------------------


def is_of_one_text(one, other):
    """*Of one text* (this profile): of the places at which both took a combination, those with two
    are less than 4 per cent of those with one."""
    both = [a == b for a, b in zip(one, other) if a > 0 and b > 0]
    same = sum(both)
    return 25 * (len(both) - same) < max(1, same)


def joined_at(one, other):
    """*Joined* at one index, of two positions."""
    taken = {it for it in (one, other) if it > 0}
    if taken:
        return taken.pop() if len(taken) == 1 else LOST
    return IDLE if one == other == IDLE else LOST


def joined(one, other):
    """*Joined* (this profile): both lists, index by index; behind the shorter one the longer."""
    longer = one if len(one) > len(other) else other
    return [joined_at(*it) for it in zip(one, other)] + longer[min(len(one), len(other)) :]


def read_positions(positions):
    """*Positions of a copy*: the text that a list of positions gives, how it ended, and the end of
    the list. It is read from figures, since a second digit stands before it."""
    raw, indexes = reading(positions, FIGURES)
    text, how, count = end_of(raw)
    return text, how, len(positions) if count is None else indexes[count - 1] + 1


class Family:
    """*Family*: its first copy's identity and moment, and the positions of all, joined."""

    def __init__(self, number, copy):
        self.number, self.identity, self.moment = number, copy.identity, copy.moment
        self.positions = copy.positions
        self.end = read_positions(self.positions)[2]

    def takes(self, copy, begun):
        """Whether a copy joins, where so many families were begun so far."""
        is_young = copy.moment - self.moment < SIXTY_SIX_HOURS and begun - self.number < REMEMBERED
        return is_young and is_of_one_text(self.positions[: self.end], copy.positions)

    def join(self, copy):
        """What a copy brings is kept whole, also behind the end of the text."""
        self.positions = joined(self.positions, copy.positions)
        self.end = read_positions(self.positions)[2]


def may_be_known(copy):
    """*Family*, *Printed and entered, combined*: which copies the memory of others can hold, by their
    number and their positions."""
    return not is_urgent(copy.identity) and len(copy.positions) <= MOST_POSITIONS


def has_family(copy):
    """*Family*: which copies have one."""
    return copy.is_selected and may_be_known(copy)


# What came of a copy: the number of its family from 1, or None; whether it joined one that was
# there; and the family's positions with it.
Member = namedtuple("Member", "family has_joined positions")


def members(copies):
    """*Family* (this profile): for each copy of a channel what came of it."""
    last_of, begun, answers = {}, 0, []
    for it in copies:
        if not has_family(it):
            answers.append(Member(None, False, it.positions))
            continue
        family = last_of.get(it.identity)
        has_joined = family is not None and family.takes(it, begun)
        if has_joined:
            family.join(it)
        else:
            begun += 1
            family = last_of[it.identity] = Family(begun, it)
        answers.append(Member(family.number, has_joined, family.positions))
    return answers


# A combined copy: its text and how it ended.
Shown = namedtuple("Shown", "text how")


def is_better(one, other):
    """*Better* (this profile), of two that have a text and an end."""
    if (one.how == "full") != (other.how == "full"):
        return one.how == "full"
    return errors_in(one.text) < errors_in(other.text)


def combined(copy, member):
    """*Combined copy* (this profile): the copy itself, or what the joined positions give."""
    itself = Shown(copy.text, copy.how)
    if not member.has_joined:
        return itself
    together = Shown(*read_positions(member.positions)[:2])
    return itself if is_better(itself, together) else together


def printed_combined(copies, its_members, shown):
    """*Printed and entered, combined* (this profile): for each copy, whether its combined copy is
    printed. One more is printed than by *Printed and entered*: where an entry is live, what is
    better than the last one printed of its family."""
    entries, last_printed, answers = [], {}, []
    for copy, member, its in zip(copies, its_members, shown):
        before = last_printed.get(member.family) if member.family else None
        is_new = is_urgent(copy.identity) or not is_live(entries, copy.identity, copy.moment)
        is_printed = copy.is_selected and (is_new or before is not None and is_better(its, before))
        if is_printed and member.family:
            last_printed[member.family] = its
        if is_printed and is_good(*its) and may_be_known(copy):
            entries.append((copy.identity, copy.moment))
        answers.append(is_printed)
    return answers


# ---- Both logs -----------------------------------------------------------------------------------

# What both runs give of an air file: their logs and their fault, or None; and of each channel its
# copies with what came of them, what each combined copy shows, and whether it is printed.
Channel = namedtuple("Channel", "copies members shown printed")
Run = namedtuple("Run", "listen combined fault channels")


def run_of(data):
    """The logs of an air file."""
    shares, fault = air_of(data)
    listened, together, channels = [], [], []
    for number, share in enumerate(shares):
        copies = copies_of(number, share, fault is None)
        alone = [it for it, is_printed in zip(copies, printed(copies)) if is_printed]
        listened += [(it, entry_of(it, it.text, it.how)) for it in alone]
        of_copies = members(copies)
        shown = [combined(*it) for it in zip(copies, of_copies)]
        answers = printed_combined(copies, of_copies, shown)
        together += [(it, entry_of(it, *its)) for it, its, is_printed in zip(copies, shown, answers) if is_printed]
        channels.append(Channel(copies, of_copies, shown, answers))
    return Run(log_of(listened), log_of(together), fault, channels)


def main():
    if sys.argv[1:] not in ([], ["--combine"]):
        sys.exit(__doc__)
    run = run_of(sys.stdin.buffer.read())
    sys.stdout.buffer.write(run.combined if sys.argv[1:] else run.listen)
    sys.stdout.flush()
    if run.fault:
        print(f"navtex: {run.fault}", file=sys.stderr)
    return 2 if run.fault else 0


if __name__ == "__main__":
    sys.exit(main())
