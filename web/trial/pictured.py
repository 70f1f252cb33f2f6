#!/usr/bin/env python3
"""Writes what is heard in the picture of the page.

usage: web/trial/pictured.py MOMENT

On standard output is an air file: messages that end at that moment, one of them sent twice, each time without
another letter. Its last line, behind '# ', has the elements that the microphone hears then."""
import os
import sys

sys.path.insert(0, os.path.join(os.path.dirname(os.path.abspath(__file__)), "..", "..", "ci"))
from combined_air import LEAD, emission, message, sent_at, without, words_of

BUOY = "BUOY 7 UNLIT\n51-24.3N 002-41.0E\n"
EARLIER = 14_400  # seconds between two sendings
HEADER = 12       # positions before those of a text


def slot(place):
    """The slot in which the letter at a place of the text is sent first, behind one more for each shift."""
    return 2 * (LEAD + HEADER + 2 + place)


def main(moment):
    gale = message("EB34", "GALE WARNING DOVER\nSOUTHWEST 8 EXPECTED SOON\n")
    yacht = message("ED56", "YACHT OVERDUE\nWHITE HULL 11 M LAST SEEN 51-24.3N 002-11.0E\n")
    buoy = message("EA12", BUOY)
    wreck = message("EA13", "WRECK MARKED BY LIGHT BUOYS\n52-02.5N 002-58.0E\n")
    vessel = message("EA14", "SANDETTIE BANK\nSURVEY VESSEL AT WORK IN 51-12.0N 001-56.5E\nALL SHIPS ARE ASKED\n"
                     "TO KEEP A DISTANCE OF ONE MILE\n")
    first = without(words_of(emission(buoy)), *(slot(place) for place in (2, 9, 14)))
    second = without(words_of(emission(buoy)), slot(24))
    print(sent_at(moment - EARLIER, first), end="")
    for sent in (words_of(emission(gale)), words_of(emission(yacht)), second, words_of(emission(wreck))):
        print(sent_at(moment, sent), end="")
    print("# " + "".join(words_of(emission(vessel))))


if __name__ == "__main__":
    if len(sys.argv) != 2:
        sys.exit(__doc__)
    main(int(sys.argv[1]))
