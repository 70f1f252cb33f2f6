"""Worked examples for ci/combined: air files, with both logs as they are worked out by hand.

Each row is a name, the file, the log of `navtex listen`, and that of `navtex listen --combine`."""

import string

from combined_air import M0, damaged, emission, message, replaced, sent_at, without, words_of
from combined_reader import WORDS

M1, M2 = M0 + 14_400, M0 + 28_800
FIRST, SECOND, THIRD = "2025-01-01 00:40:00", "2025-01-01 04:40:00", "2025-01-01 08:40:00"
BROKEN_AT = 1_400  # elements of what broke off: 200 words


def heard(line, identity="EA01"):
    """The words of a message with this line, as sent."""
    return words_of(emission(message(identity, line + "\n")))


def log(*entries):
    """A log: pairs of what stands in brackets and the line of the text."""
    return "".join(f"[{head}]\n{line}\n\n" for head, line in entries).encode()


def air(*parts):
    """An air file of pairs of a moment and words, and of lines between."""
    return "".join(it if isinstance(it, str) else sent_at(*it) for it in parts).encode()


X24 = string.ascii_uppercase[:24]
L24 = heard(X24)
L52 = heard(string.ascii_uppercase * 2)
BUOY = "BUOY 51-24.3N 002-11.0E UNLIT"
P = heard(BUOY)
BROKEN_P = P[: BROKEN_AT // 7]
OTHER = "BUOY 53-17.8N 004-46.2E UNLIT"
NEARLY = "BUOY 53-27.3N 002-11.0E UNLIT"
COMMAS = heard("A ,,,, BCD")

HALVES = (f"EA01 {FIRST} full 1/25", "*" + X24[1:]), (f"EA01 {SECOND} full 1/25", "A*" + X24[2:])
HALVES_00 = [(head.replace("01 2", "00 2"), line) for head, line in HALVES]
WHOLE_X24 = f"EA01 {SECOND} full 0/25", X24
L52_HOLED = f"EA01 {FIRST} full 1/53", "*" + X24[1:] + "YZ" + string.ascii_uppercase
SHIFT_LOST = f"EA01 {FIRST} full 1/31", "BUOY *TQAWRMEN 002-11.0E UNLIT"
CUT = f"EA01 {FIRST} cut 2/13", "BUOY 51-24.**"
WHOLE_P = f"EA01 {SECOND} full 0/30", BUOY
REFUSED = (f"EA01 {SECOND} full 1/25", "A*" + X24[2:]), (f"EA01 {THIRD} full 0/25", X24)
TWO_TEXTS = (
    (f"EA01 {FIRST} full 2/30", "B**Y 51-24.3N 002-11.0E UNLIT"),
    (f"EA01 {SECOND} full 2/31", "BUOY 53-*7.8*, 004-46.2E UNLIT"),
)
DIFFERS = log((f"EA01 {FIRST} full 0/25", "BB" + X24[2:]))
FALSE_END = (f"EA01 {FIRST} full 2/12", "A *N*NN BCD"), (f"EA01 {SECOND} full 1/3", "A *")

EXAMPLES = [
    (
        "combine-two-halves",
        air((M0, without(L24, 172)), (M1, without(L24, 174))),
        log(*HALVES),
        log(HALVES[0], WHOLE_X24),
    ),
    (
        "combine-two-halves, and sent again",
        air((M0, without(L24, 172)), (M1, without(L24, 174)), (M2, L24)),
        log(*HALVES, (f"EA01 {THIRD} full 0/25", X24)),
        log(HALVES[0], WHOLE_X24),
    ),
    (
        "combine-good-with-a-hole",
        air((M0, without(L52, 172)), (M1, L52), (M2, L52)),
        log(L52_HOLED),
        log(L52_HOLED, (f"EA01 {SECOND} full 0/53", string.ascii_uppercase * 2)),
    ),
    (
        "combine-lost-shift",
        air((M0, without(P, 182)), (M1, P), (M2, P)),
        log(SHIFT_LOST),
        log(SHIFT_LOST, WHOLE_P),
    ),
    (
        "combine-lost-shift, and a digit lost in the second",
        air((M0, without(P, 182)), (M1, without(P, 190)), (M2, P)),
        log(SHIFT_LOST),
        log(SHIFT_LOST, WHOLE_P),
    ),
    (
        "combine-cut",
        air((M0, BROKEN_P), (M1, without(P, 174, 176))),
        log(CUT, (f"EA01 {SECOND} full 2/30", "B**Y 51-24.3N 002-11.0E UNLIT")),
        log(CUT, WHOLE_P),
    ),
    (
        "combine-another-text",
        air((M0, without(P, 174, 176)), (M1, without(heard(OTHER), 190, 198))),
        log(*TWO_TEXTS),
        log(*TWO_TEXTS),
    ),
    (
        "combine-urgent",
        air(
            (M0, without(heard(X24, "EA00"), 172)), (M1, without(heard(X24, "EA00"), 174)), (M2, heard(X24, "EA00"))
        ),
        log(*HALVES_00, (f"EA00 {THIRD} full 0/25", X24)),
        log(*HALVES_00, (f"EA00 {THIRD} full 0/25", X24)),
    ),
    (
        "combine-refused",
        air("RS E\n", (M0, without(L24, 172)), "AS E\n", (M1, without(L24, 174)), (M2, L24)),
        log(*REFUSED),
        log(*REFUSED),
    ),
    (
        "combine-differs",
        air((M0, replaced(damaged(L24, 172), 177, WORDS[2])), (M1, L24), (M2, L24)),
        DIFFERS,
        DIFFERS,
    ),
    (
        "combine-idle",
        air((M0, BROKEN_P), (M1, without(P, 206)), (M2, P)),
        log(CUT, (f"EA01 {SECOND} full 1/30", "BUOY 51-24.3N *02-11.0E UNLIT")),
        log(CUT, (f"EA01 {SECOND} full 1/30", "BUOY 51-24.3N *02-11.0E UNLIT"), (f"EA01 {THIRD} full 0/30", BUOY)),
    ),
    (
        "combine-mixture",
        air((M0, without(P, 186)), (M1, without(heard(NEARLY), 192)), (M2, heard(NEARLY))),
        log((f"EA01 {FIRST} full 1/30", "BUOY 5*-24.3N 002-11.0E UNLIT")),
        log(
            (f"EA01 {FIRST} full 1/30", "BUOY 5*-24.3N 002-11.0E UNLIT"),
            (f"EA01 {SECOND} full 0/30", "BUOY 53-24.3N 002-11.0E UNLIT"),
        ),
    ),
    (
        "combine-false-end",
        air((M0, without(COMMAS, 176, 180)), (M1, without(COMMAS, 176)), (M2, without(COMMAS, 190))),
        log(*FALSE_END, (f"EA01 {THIRD} full 1/11", "A ,,,, *CD")),
        log(*FALSE_END, (f"EA01 {THIRD} full 0/11", "A ,,,, BCD")),
    ),
    (
        "combine-66-hours",
        air((M0, without(L24, 172)), (M0 + 230_400, without(L24, 174)), (M0 + 244_800, without(L24, 176))),
        log(
            HALVES[0],
            ("EA01 2025-01-03 16:40:00 full 1/25", "A*" + X24[2:]),
            ("EA01 2025-01-03 20:40:00 full 1/25", "AB*" + X24[3:]),
        ),
        log(HALVES[0], ("EA01 2025-01-03 16:40:00 full 0/25", X24)),
    ),
]
