#!/usr/bin/env python3
"""Texts with their places beside them, for the trial of positions: web/trial/places.py > web/trial/places.jsonl

The first ones were written by hand, with what a person reads in them. The others are put together here:
sentences around positions that are known before they are written, so nothing is read. Each line is an
object: the text, and its places in order, as letter, degrees and minutes.
"""

import json
import random

BY_HAND = [
    # the two forms, and what may stand between
    ("54-10.5N 007-53.2E", ["N54 10.5 E7 53.2"]),
    ("5410.5N 00753.2E", ["N54 10.5 E7 53.2"]),
    ("54-10.5N\n007-53.2E", ["N54 10.5 E7 53.2"]),
    ("54-10.5N007-53.2E", ["N54 10.5 E7 53.2"]),
    ("5410.5N00753.2E", ["N54 10.5 E7 53.2"]),
    ("54-10.5 N 007-53.2 E", ["N54 10.5 E7 53.2"]),
    ("5410.5 N\n00753.2\nE", ["N54 10.5 E7 53.2"]),
    ("54-10.5\nN 007-53.2 E", ["N54 10.5 E7 53.2"]),
    ("54-10N 007-53E", ["N54 10 E7 53"]),
    ("5410N 00753E", ["N54 10 E7 53"]),
    ("54-10.50N 007-53.25W", ["N54 10.5 W7 53.25"]),
    ("54-10.125S 107-53.250W", ["S54 10.125 W107 53.25"]),
    ("00-00N 000-00E", ["N0 0 E0 0"]),
    ("90-00N 180-00E", ["N90 0 E180 0"]),
    ("90-00.0S 180-00.0W", ["S90 0 W180 0"]),
    ("89-59.9S 179-59.9W", ["S89 59.9 W179 59.9"]),
    # out of range
    ("90-00.1N 010-00E", []),
    ("91-00N 010-00E", []),
    ("10-00N 180-00.1E", []),
    ("10-00N 181-00E", []),
    ("54-60N 007-53E", []),
    ("54-10N 007-60.0E", []),
    ("54-99.9N 007-53E", []),
    # other forms are none of these
    ("54N 007E", []),
    ("54-10-30N 007-53-12E", []),
    ("541030N 0075312E", []),
    ("54.175N 007.887E", []),
    ("N54-10.5 E007-53.2", []),
    ("54 10.5N 007 53.2E", []),
    ("54-10,5N 007-53,2E", []),
    ("54-10.5N 07-53.2E", []),
    ("54-10.5N 7-53.2E", []),
    ("54-10.5N 0007-53.2E", []),
    ("4-10.5N 007-53.2E", []),
    ("154-10.5N 007-53.2E", []),
    ("54-1.5N 007-53.2E", []),
    ("54-10.5N 007-3.2E", []),
    ("54-10.N 007-53.E", []),
    ("54-10.1234N 007-53.2E", []),
    ("54-10.5N  007-53.2E", []),
    ("54-10.5N\n\n007-53.2E", []),
    ("54-10.5N, 007-53.2E", []),
    ("54-10.5N/007-53.2E", []),
    ("54-10.5N AND 007-53.2E", []),
    ("54-10.5N 00753.2E", []),
    ("5410.5N 007-53.2E", []),
    ("54-10.5N 007-53.2N", []),
    ("54-10.5E 007-53.2N", []),
    ("007-53.2E 54-10.5N", []),
    ("54-10.5N", []),
    ("007-53.2E", []),
    ("", []),
    # lost letters
    ("5*-10.5N 007-53.2E", []),
    ("54*10.5N 007-53.2E", []),
    ("54-10.*N 007-53.2E", []),
    ("54-10*5N 007-53.2E", []),
    ("54-10.5* 007-53.2E", []),
    ("54-10.5N*007-53.2E", []),
    ("54-10.5N 0*7-53.2E", []),
    ("54-10.5N 007-53.2*", []),
    ("*54-10.5N 007-53.2E", []),
    ("54-10.5N 007-53.2E*", []),
    ("54-10.5N 007-53.*E", []),
    ("POSITION* 54-10.5N 007-53.2E", ["N54 10.5 E7 53.2"]),
    ("54-10.5N 007-53.2E *", ["N54 10.5 E7 53.2"]),
    ("54-10.5N 007-53.2E 54-1*.0N 007-55.0E 54-12.0N 007-57.0E", ["N54 10.5 E7 53.2", "N54 12 E7 57"]),
    ("54-10.5N 007-*3.2E 54-11.0N 007-55.0E", ["N54 11 E7 55"]),
    # what stands before and behind
    ("POSN54-10.5N 007-53.2E", []),
    ("A-54-10.5N 007-53.2E", []),
    ("1.54-10.5N 007-53.2E", []),
    ("(54-10.5N 007-53.2E)", ["N54 10.5 E7 53.2"]),
    ("POSN:54-10.5N 007-53.2E.", ["N54 10.5 E7 53.2"]),
    ("1,54-10.5N 007-53.2E", []),
    ("AREA A,54-10.5N 007-53.2E", ["N54 10.5 E7 53.2"]),
    ("1. 54-10.5N 007-53.2E", ["N54 10.5 E7 53.2"]),
    ("54-10.5N 007-53.2EAST", []),
    ("54-10.5N 007-53.2E5", []),
    ("54-10.5NORTH 007-53.2EAST", []),
    ("54-10.5N 007-53.2E-54-12.0N 007-55.0E", ["N54 10.5 E7 53.2"]),
    ("54-10.5N 007-53.2E,54-12.0N 007-55.0E", ["N54 10.5 E7 53.2", "N54 12 E7 55"]),
    ("54-10.5N 007-53.2E AND 54-12.0N 007-55.0E", ["N54 10.5 E7 53.2", "N54 12 E7 55"]),
    ("54-10.5N 007-53.2E TO 54-12.0N 007-55.0E", ["N54 10.5 E7 53.2", "N54 12 E7 55"]),
    # areas between latitudes and longitudes have no position in them
    ("BETWEEN 54-10N 54-20N 007-10E 007-20E", []),
    ("BETWEEN 54-10N AND 54-20N 007-10E AND 007-20E", []),
    ("54-10N TO 54-20N 007-10E TO 007-20E", []),
    ("BETWEEN 54-10N AND 54-20N AND BETWEEN 007-10E AND 007-20E", []),
    ("54-10N-54-20N 007-10E-007-20E", []),
    ("007-10E 54-10N 007-20E 54-20N", []),
    ("ALONG 54-10N 007-10E TO 007-20E", []),
    ("ALONG 54-10N 007-10E 007-20E. WRECK 54-12N 007-12E", ["N54 12 E7 12"]),
    ("ALONG 54-10N 54-20N 007-20E", []),
    # messages
    ("NAVAREA ONE 171/25\nNORTH SEA. GERMAN BIGHT.\nBUOY TG 5 ADRIFT IN 54-00.3N 007-22.8E AT 010640 UTC JAN.",
     ["N54 0.3 E7 22.8"]),
    ("GALE WARNING\nGERMAN BIGHT SOUTHWEST 8 INCREASING 9 LATER. NO POSITION.", []),
    ("SAR. YACHT MISSING BETWEEN LERWICK 60-09N 001-09W AND BERGEN 60-24N 005-19E. LAST CONTACT 020400 UTC.",
     ["N60 9 W1 9", "N60 24 E5 19"]),
    ("PLATFORM LIST AT 010800 UTC:\n57-11.7N 001-54.8E ENSCO 122\n56-43.6N 002-12.7E NOBLE\n53-28.3N 002-24*6E VALARIS",
     ["N57 11.7 E1 54.8", "N56 43.6 E2 12.7"]),
    ("FIRING AREA BOUNDED BY 4312.0N 00512.5E 4305.0N 00530.0E\n4255.0N 00520.0E 4312.0N 00512.5E FROM 0600 TO 1800 UTC",
     ["N43 12 E5 12.5", "N43 5 E5 30", "N42 55 E5 20", "N43 12 E5 12.5"]),
    ("WRECK 33-52.4S 151-16.9E MARKED. DEPTH 12.5 METRES. CANCEL 45/25.", ["S33 52.4 E151 16.9"]),
    ("DERELICT VESSEL 12 METRES LONG IN 41-15S 174-\n52E", []),
    ("CABLE WORKS ALONG LINE 50-01.2N 001-05.0W - 50-03.9N\n000-58.1W. WIDE BERTH.",
     ["N50 1.2 W1 5", "N50 3.9 W0 58.1"]),
    ("ICE EDGE 46-30N 048-15W, 46-30N 049-00W, 47-10N 051-40W AND COAST.",
     ["N46 30 W48 15", "N46 30 W49 0", "N47 10 W51 40"]),
    ("TEL 0049-421-5360 FREQ 518 KHZ 0410 UTC 1012 HPA 5410 7N", []),
    ("TROPICAL STORM CENTRE 18.5N 064.2W MOVING WNW 12 KT", []),
    ("TROPICAL STORM CENTRE 18-30N 064-12W MOVING WNW 12 KT", ["N18 30 W64 12"]),
    ("LIGHT UNLIT. 55-41.2N 012-**.8E", []),
    ("RACON INOPERATIVE 1200N 01500E.", ["N12 0 E15 0"]),
    ("DRIFTING MINE 44-\n10.5N 028-39.0E", []),
    ("54-10.5N 007-53.2E\n54-10.5N 007-53.2E", ["N54 10.5 E7 53.2", "N54 10.5 E7 53.2"]),
]

BEGINNINGS = ["BUOY ADRIFT IN", "WRECK IN", "VESSEL AGROUND IN POSITION", "LIGHT UNLIT", "1.", "A.", "SURVEY WORK AROUND",
              "NAVAREA THREE 12/25\nDANGEROUS OBSTRUCTION", "LAST SEEN 031200 UTC", "DEPTH 12.5 M", "WIDE BERTH 2 MILES"]
ENDS = ["", ".", " REQUESTED BERTH 1 MILE.", "\nMARINERS ADVISED", " UNTIL 051800 UTC", ",", ")", " 12 METRES HIGH"]
DECOYS = ["CHART 50-12N", "BETWEEN 5 AND 6", "TEL 02-4712-33", "54N 007E", "POSN 5*-10.5N 007-53.2E", "100800 UTC", "12-5N 8-7E"]
BETWEEN = ["", " ", "\n"]


def place(chance):
    """A place, as letter, degrees and minutes of each part, with so many digits behind the point."""
    digits = chance.choice([0, 0, 1, 1, 1, 2, 3])
    parts = []
    for letters, most in (("NS", 89), ("EW", 179)):
        minutes = chance.randrange(60 * 10**digits)
        parts.append((chance.choice(letters), chance.randint(0, most), minutes, digits))
    return parts


def written(parts, chance):
    """The place in one of the forms."""
    dash, between, before = chance.choice(["", "-"]), chance.choice(BETWEEN), chance.choice(["", "", "", " ", "\n"])
    said = []
    for width, (letter, degrees, minutes, digits) in zip((2, 3), parts):
        whole, fraction = divmod(minutes, 10**digits)
        point = f".{fraction:0{digits}}" if digits else ""
        said.append(f"{degrees:0{width}}{dash}{whole:02}{point}{before}{letter}")
    return between.join(said)


def beside(parts):
    """The place as it stands beside the text."""
    return " ".join(f"{letter}{degrees} {minutes / 10**digits:g}" for letter, degrees, minutes, digits in parts)


def composed(chance):
    """A text of sentences around places, and these."""
    text, places = "", []
    for _ in range(chance.choice([0, 1, 1, 1, 2, 3])):
        if chance.random() < 0.4:
            text += chance.choice(DECOYS) + chance.choice([".\n", ". "])
        text += chance.choice(BEGINNINGS) + chance.choice([" ", "\n", " ("])
        for at in range(chance.choice([1, 1, 1, 2, 4])):
            parts = place(chance)
            text += chance.choice([" ", "\n", ", ", " AND ", " TO "] if at else [""]) + written(parts, chance)
            if chance.random() < 0.15:
                lost = chance.choice([it for it in range(len(text) - 8, len(text)) if text[it] not in " \n"])
                text = text[:lost] + "*" + text[lost + 1 :]
                text += " NOT READ"
            else:
                places.append(beside(parts))
        text += chance.choice(ENDS) + ".\n"
    return text, places


def main():
    chance = random.Random(20250101)
    texts = BY_HAND + [composed(chance) for _ in range(220 - len(BY_HAND))]
    for text, places in texts:
        print(json.dumps({"text": text, "places": places}))


if __name__ == "__main__":
    main()
