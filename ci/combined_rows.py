"""Rows for ci/combined that chance misses. Each is a name, an air file, and what the definitions say
of it, worked out by hand: the entries of `navtex listen` and of `navtex listen --combine`, without
their moments and texts."""

import re
import string

from combined_air import BETA_SENT, HEADER_LENGTH, LEAD, M0
from combined_air import damaged, emission, header, lines_of, message, replaced, sent_at, spelled, without, words_of
from combined_examples import BUOY, L24, L52, M1, M2, OTHER, P, X24, air, heard
from combined_reader import BLANK, CR, LETTERS, LF, LTRS, WORDS

LATE = M0 + 240_000
WRONG = "0000000"
BEHIND_DIGITS = LEAD + HEADER_LENGTH  # the first position behind a first message's second digit
TEST = heard("TEST")
TEST_N = 184  # the slot of its first N


def heads_of(log):
    """The entries of a log, without their moments and texts."""
    found = re.findall(rb"^\[(\S+) \S+ \S+ (\w+ \d+/\d+)\]$", log, re.M)
    return [f"{identity.decode()} {said.decode()}" for identity, said in found]


def slot(line, at):
    """The slot in which character `at` of a first message's line is sent first. Where a shift stands
    before it, that is two slots before."""
    return 2 * (BEHIND_DIGITS + 1 + len(spelled(line[: at + 1], True)[0]))


def letter(it):
    """The word of a letter."""
    return WORDS[LETTERS.index(it)]


def other_signal(words, at, it):
    """The words with both of a position replaced by those of a letter."""
    return replaced(replaced(words, at, letter(it)), at + 5, letter(it))


def identities(count):
    """So many other identities."""
    return [f"F{subject}{number:02}" for subject in string.ascii_uppercase for number in range(1, 100)][:count]


# ---- Markers that are none, and markers that are lost --------------------------------------------

ZEROS = "A +:+: BCD"
HARBOUR = "THE BUOY AT THE HARBOUR IS UNLIT ,,,, SINCE MONDAY"
W52 = string.ascii_uppercase * 2


def swallowing(identity, line):
    """EA01 without its last N, and behind it another message without the Z of its ZCZC."""
    first = emission(message("EA01", "TEST\n"))
    last_n = len(first) - 3 - 3 - 1
    its_z = len(first) - 3 + 36 + 1
    both = emission(message("EA01", "TEST\n"), message(identity, line + "\n"))
    return without(words_of(both), 2 * last_n, 2 * its_z)


def two_messages(line):
    """EA01 and EB02, as sent."""
    return words_of(emission(message("EA01", "TEST\n"), message("EB02", line + "\n")))


def cut_by(identity, line):
    """EA01 without its second N, and behind it another message."""
    both = emission(message("EA01", "TEST\n"), message(identity, line + "\n"), between=0)
    return without(words_of(both), TEST_N + 2)


def without_marker(identity, line):
    """EA01 of which no NNNN is sent, and behind it another message."""
    return words_of(emission(message("EA01", "TEST\n")[:-7] + message(identity, line + "\n")))


MARKERS = [
    (
        "`+:+:` behind a lost shift",
        air(
            (M0, without(heard(ZEROS), slot(ZEROS, 2) - 2)),
            (M1, without(heard(ZEROS), slot(ZEROS, 7))),
            (M2, without(heard(ZEROS), slot(ZEROS, 0))),
        ),
        ["EA01 cut 1/3", "EA01 full 1/11", "EA01 full 1/11"],
        ["EA01 cut 1/3", "EA01 full 1/11", "EA01 full 0/11"],
    ),
    (
        "`,,,,` behind a lost shift, in a copy that is good",
        air((M0, without(heard(HARBOUR), slot(HARBOUR, 33) - 2)), (M1, heard(HARBOUR)), (M2, heard(HARBOUR))),
        ["EA01 full 1/34"],
        ["EA01 full 1/34", "EA01 full 0/51"],
    ),
    (
        "a message that swallows the next one, and is good",
        air((M0, swallowing("EB02", W52)), (M1, two_messages(W52)), (M2, two_messages(W52))),
        ["EA01 full 2/74", "EB02 full 0/53"],
        ["EA01 full 2/74", "EA01 full 0/5", "EB02 full 0/53"],
    ),
    (
        "two that swallow others: they are of two texts",
        air((M0, swallowing("EB02", X24)), (M1, swallowing("EC05", BUOY)), (M2, TEST)),
        ["EA01 full 2/46", "EA01 full 2/51"],
        ["EA01 full 2/46", "EA01 full 2/51", "EA01 full 0/5"],
    ),
    (
        "two copies open in one lock",
        air((M0, cut_by("EB02", X24)), (M1, without(TEST, 174))),
        ["EA01 cut 1/11", "EB02 full 0/25", "EA01 full 1/5"],
        ["EA01 cut 1/11", "EB02 full 0/25", "EA01 full 0/5"],
    ),
    (
        "two copies of one message open in one lock",
        air((M0, without(cut_by("EA01", "TEST"), 174, 2 * 27 + 172))),
        ["EA01 cut 2/11", "EA01 full 1/5"],
        ["EA01 cut 2/11", "EA01 full 0/5"],
    ),
    (
        "a `ZCZC` where the other has `NNNN`: they are of two texts",
        air((M0, without_marker("EB02", X24)), (M1, without(TEST, 174))),
        ["EA01 cut 0/5", "EB02 full 0/25", "EA01 full 1/5"],
        ["EA01 cut 0/5", "EB02 full 0/25", "EA01 full 1/5"],
    ),
    (
        "together it is cut, since an N differs, and the copy itself is full",
        air((M0, other_signal(L24, 2 * (86 + 24 + 2 + 3), "M")), (M1, without(L24, 172)), (M2, L24)),
        ["EA01 cut 0/31", "EA01 full 1/25", "EA01 full 0/25"],
        ["EA01 cut 0/31", "EA01 full 1/25", "EA01 full 0/25"],
    ),
]


# ---- Locks that are lost -------------------------------------------------------------------------


def noise_of(*words, count):
    """So many words, these again and again."""
    return [words[at % len(words)] for at in range(count)]


def odd_damaged(words, first):
    """The words with each RX word from a slot on damaged."""
    return damaged(words, *range(first, len(words), 2))


ON_RELEASE = damaged(TEST, *range(107, 170, 2), *range(108, 124, 2))
SURE_DIGIT = odd_damaged(P, 173)[:200]

LOCKS = [
    (
        "a lost lock with noise behind it",
        air((M0, P[:200] + noise_of(WRONG, WRONG, letter("A"), count=70)), (M1, without(P, 174, 176))),
        ["EA01 cut 9/39", "EA01 full 2/30"],
        ["EA01 cut 9/39", "EA01 full 0/30"],
    ),
    (
        "a lost lock of which nothing is sure",
        air(
            (M0, P[92:96] + odd_damaged(P, 97)[96:200] + [WRONG] * 70),
            (M1, without(P, 174, 176)),
            (M2, without(P, 178)),
        ),
        ["EA01 cut 5/17", "EA01 full 2/30", "EA01 full 1/30"],
        ["EA01 cut 5/17", "EA01 full 2/30", "EA01 full 0/30"],
    ),
    (
        "a lost lock of which the last sure two are the second digit and what stands behind it",
        air((M0, SURE_DIGIT + [WRONG] * 70), (M1, without(P, 166))),
        ["EA01 cut 11/23", "EA01 full 1/32"],
        ["EA01 cut 11/23", "EA01 full 0/30"],
    ),
    (
        "a copy that the releasing word begins and ends",
        air((M0, ON_RELEASE), (M1, without(TEST, 172)), (M2, without(TEST, 174))),
        ["EA01 cut 0/0", "EA01 full 1/5", "EA01 full 1/5"],
        ["EA01 cut 0/0", "EA01 full 1/5", "EA01 full 0/5"],
    ),
    (
        "a copy that is open at the file's end",
        air((M0, without(L24, 172)), (M1, without(L24, 174)[:200])),
        ["EA01 full 1/25", "EA01 cut 1/12"],
        ["EA01 full 1/25", "EA01 full 0/25"],
    ),
    (
        "a copy that is open at a fault",
        air((M0, without(L24, 172)), (M1, without(L24, 174)[:200]), "X\n"),
        ["EA01 full 1/25"],
        ["EA01 full 1/25"],
    ),
]


# ---- What is counted -----------------------------------------------------------------------------

Y25 = string.ascii_uppercase[:25]
HOLE = heard(Y25)


def one_emission(*lines):
    """An emission of pairs of an identity and a line, with no phasing between; where a third is
    said, that letter of the line is lost, from 1."""
    messages, lost = [], []
    for identity, line, *at in lines:
        first = LEAD + sum(map(len, messages))
        messages.append(message(identity, line + "\n"))
        lost += [2 * (first + HEADER_LENGTH + len([CR, LF, LTRS]) - 1 + it) for it in at]
    return without(words_of(emission(*messages, between=0)), *lost)


def entered_twice(count):
    """Lines by which so many entries are made, two of each identity but of the last one perhaps."""
    found = []
    for identity in identities((count + 1) // 2):
        found += [(identity, Y25, 1), (identity, Y25)]
    return found[:count]


def said_twice(count):
    """The entries that those lines make, with --combine."""
    return [f"{identity} full {1 if at else 0}/26" for identity, _, *at in entered_twice(count)]


def said_once(count):
    """The entries of those lines without it."""
    return [f"{identity} full 1/26" for identity in identities((count + 1) // 2)]


def headers_alone(count):
    """EA01 without its A, and behind it so many headers, each cut by the next one."""
    positions = emission(message("EA01", X24 + "\n"), *map(header, identities(count)), between=0)
    return without(words_of(positions), 172)


def cut_empty(count):
    """The entries of those headers."""
    return [f"{it} cut 0/0" for it in identities(count)]


def of_positions(count):
    """The words of a message with so many positions behind its second digit."""
    filled = [CR, LF, LTRS, *spelled("AB")[0]] + [BLANK] * (count - 11) + [CR, LF, *spelled("NNNN")[0]]
    return words_of(emission(header("EA01") + filled + [CR, LF, LF]))


def sure_of_positions(count):
    """As many words of it as make so many positions sure, and behind them nothing good."""
    return of_positions(count + 100)[: 2 * (BEHIND_DIGITS + count - 1) + 6] + [WRONG] * 70


LONG_LINE = "A" * 69
FULL_SLOT = words_of(emission(message("EA01", (LONG_LINE + "\n") * 58 + "\n" * 36)))
FIRST_CR = slot(LONG_LINE, 68) + 2
SECOND_CR = FIRST_CR + 2 * 71


def of_one_text(count, *lost):
    """A line of so many letters, without these."""
    line = string.ascii_uppercase[:count]
    return without(heard(line), *(slot(line, it) for it in lost))


def counted():
    """The rows of what is counted."""
    for count in (199, 200):
        yield (
            f"{count} families begun behind one",
            air((M0, headers_alone(count)), (M1, without(L24, 174))),
            ["EA01 full 1/25"] + cut_empty(count) + ["EA01 full 1/25"],
            ["EA01 full 1/25"] + cut_empty(count) + [f"EA01 full {0 if count < 200 else 1}/25"],
        )
        yield (
            f"{count} entries made behind one",
            air((M0, one_emission(("EA01", Y25, 1), *entered_twice(count))), (M1, without(HOLE, 172))),
            ["EA01 full 1/26"] + said_once(count),
            ["EA01 full 1/26"] + said_twice(count) + ["EA01 full 1/26"] * (count == 200),
        )
        yield (
            f"an identity that is entered twice at one moment, and {count} entries behind the second",
            air(
                (M0, one_emission(("EA01", Y25, 1), ("EA01", Y25), *entered_twice(count))), (M1, without(HOLE, 172))
            ),
            ["EA01 full 1/26"] + said_once(count),
            ["EA01 full 1/26", "EA01 full 0/26"] + said_twice(count) + ["EA01 full 0/26"] * (count == 200),
        )
    for count, is_joined in ((8_192, True), (8_193, False)):
        filled = of_positions(count)
        yield (
            f"{count} positions",
            air((M0, without(filled, 172)), (M1, without(filled, 174)), (M2, filled), (M2, filled)),
            ["EA01 full 1/3", "EA01 full 1/3", "EA01 full 0/3"],
            ["EA01 full 1/3"] + (["EA01 full 0/3"] if is_joined else ["EA01 full 1/3"] + ["EA01 full 0/3"] * 2),
        )
        sure = sure_of_positions(count)
        yield (
            f"{count} positions but for what is left out",
            air((M0, without(sure, 172)), (M1, without(sure, 174))),
            ["EA01 cut 19/20"] * 2,
            ["EA01 cut 19/20", "EA01 cut 0/2" if is_joined else "EA01 cut 19/20"],
        )
    yield (
        "a text of 4,096 characters with a lost CR",
        air((M0, without(FULL_SLOT, FIRST_CR)), (M1, without(FULL_SLOT, SECOND_CR)), (M2, FULL_SLOT), (M2, FULL_SLOT)),
        ["EA01 long 1/4100", "EA01 long 1/4100", "EA01 full 0/4096"],
        ["EA01 long 1/4100", "EA01 cut 0/4099", "EA01 full 0/4096"],
    )
    for count, differs in ((20, True), (21, False)):
        of = f"{count + 1}"
        yield (
            f"{count + 5} positions that are the same and one that differs",
            air((M0, other_signal(of_one_text(count, 2), 172, "B")), (M1, of_one_text(count, 3, 4))),
            [f"EA01 full 1/{of}", f"EA01 full 2/{of}"],
            [f"EA01 full 1/{of}", f"EA01 full {2 if differs else 1}/{of}"],
        )
    for late, lost in ((237_599, 0), (237_600, 1)):
        yield (
            f"{late} seconds behind the first",
            air((M0, without(L24, 172)), (M0 + late, without(L24, 174))),
            ["EA01 full 1/25"] * 2,
            ["EA01 full 1/25", f"EA01 full {lost}/25"],
        )


# ---- All else ------------------------------------------------------------------------------------

FIGURES_FIRST = "51-24.3"

IDLE_SENT = message("EA01", "TEST\n")
IDLE_SENT = words_of(emission(IDLE_SENT[:16] + [BETA_SENT] + IDLE_SENT[16:]))  # TE, idle, ST

OTHERS = [
    (
        "idle in a text, which one copy has lost",
        air((M0, without(IDLE_SENT, 172)), (M1, without(IDLE_SENT, 174, 176)), (M2, IDLE_SENT)),
        ["EA01 full 1/5", "EA01 full 2/6", "EA01 full 0/5"],
        ["EA01 full 1/5", "EA01 full 1/6", "EA01 full 0/5"],
    ),
    (
        "two sendings at one moment",
        air((M0, one_emission(("EA01", X24, 1), ("EA01", X24, 2)))),
        ["EA01 full 1/25"] * 2,
        ["EA01 full 1/25", "EA01 full 0/25"],
    ),
    (
        "three channels, each with its own families",
        air(
            sent_at(M0, without(L24, 172)), sent_at(M0, without(L24, 174), "1"),
            sent_at(M1, without(L24, 172), "1"), sent_at(M1, without(L24, 176), "2"),
        ),
        ["EA01 full 1/25", "EA01/1 full 1/25", "EA01/1 full 1/25", "EA01/2 full 1/25"],
        ["EA01 full 1/25", "EA01/1 full 1/25", "EA01/1 full 0/25", "EA01/2 full 1/25"],
    ),
    (
        "copies open on two channels at the file's end",
        air(
            sent_at(M0, without(L24, 172), "2"), sent_at(M1, without(L24, 174)[:200], "2"),
            lines_of("".join(L24[:200])),
        ),
        ["EA01/2 full 1/25", "EA01 cut 0/12", "EA01/2 cut 1/12"],
        ["EA01/2 full 1/25", "EA01 cut 0/12", "EA01/2 full 0/25"],
    ),
    (
        "a copy that lost the line feed behind its digits",
        air((M0, without(TEST, 168, 172)), (M1, without(TEST, 174))),
        ["EA01 full 2/6", "EA01 full 1/5"],
        ["EA01 full 2/6", "EA01 full 0/5"],
    ),
    (
        "a copy that lost its first position",
        air((M0, without(TEST, 166, 172)), (M1, without(TEST, 174))),
        ["EA01 full 2/7", "EA01 full 1/5"],
        ["EA01 full 2/7", "EA01 full 0/5"],
    ),
    (
        "a text that begins with figures",
        air((M0, without(heard(FIGURES_FIRST), 170)), (M1, without(heard(FIGURES_FIRST), 172))),
        ["EA01 full 1/8"] * 2,
        ["EA01 full 1/8", "EA01 full 0/8"],
    ),
    (
        "what differs is filled by the third sending",
        air(
            (M0, without(other_signal(L24, 172, "B"), 176)), (M1, without(L24, 178)), (M2, without(L24, 180)),
        ),
        ["EA01 full 1/25"] * 3,
        ["EA01 full 1/25", "EA01 full 1/25", "EA01 full 0/25"],
    ),
    (
        "another text was printed, and keeps out a better one",
        air((M0, without(P, 174)), (M1, without(heard(OTHER), 190, 198)), (M2, heard(OTHER))),
        ["EA01 full 1/30"],
        ["EA01 full 1/30"],
    ),
    (
        "a text that comes again behind another one begins a family of its own",
        air((M0, without(P, 174, 176)), (M1, without(heard(OTHER), 190, 198)), (M2, without(P, 178))),
        ["EA01 full 2/30", "EA01 full 2/31", "EA01 full 1/30"],
        ["EA01 full 2/30", "EA01 full 2/31", "EA01 full 1/30"],
    ),
    (
        "what is better is remembered from then on",
        air((M0, without(L52, 172)), (M1, L52), (LATE, without(L52, 172))),
        ["EA01 full 1/53"] * 2,
        ["EA01 full 1/53", "EA01 full 0/53"],
    ),
    (
        "what is as good isn't printed again",
        air((M0, without(L52, 172)), (M1, without(L52, 172)), (M2, without(L52, 172, 174))),
        ["EA01 full 1/53"],
        ["EA01 full 1/53"],
    ),
    (
        "one that is refused between two",
        air((M0, without(L24, 172)), "RS E\n", (M1, without(L24, 174)), "AS E\n", (M2, without(L24, 172, 176))),
        ["EA01 full 1/25", "EA01 full 2/25"],
        ["EA01 full 1/25", "EA01 full 1/25"],
    ),
]

ROWS = MARKERS + LOCKS + list(counted()) + OTHERS
