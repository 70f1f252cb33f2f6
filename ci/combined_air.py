"""Air files for ci/combined: emissions that are spelled, sent and damaged without the program, and
random files of several sendings."""

import re

from combined_reader import COUNTS_AS, CR, FIGS, FIGURES, LETTERS, LF, LTRS, P1, P2, WORDS, elements_of

PHASING, END, BETA_SENT = -1, -2, -3  # positions of an emission beside the combinations
DX_RX = {PHASING: (P2, P1), END: (P1, P1), BETA_SENT: (elements_of(0x33),) * 2}
LEAD, BETWEEN, ENDS = 72, 36, 3
M0 = 1_735_692_000  # a slot of station E: 2025-01-01 00:40:00
DAY = 86_400
CAPITALS = "ABCDEFGHIJKLMNOPQRSTUVWXYZ"
LETTER_OF = {it: number for number, it in enumerate(LETTERS) if it}
FIGURE_OF = {it: number for number, it in enumerate(FIGURES) if it}


# ---- What is sent --------------------------------------------------------------------------------


def spelled(text, figures=False):
    """*Spelling* (M.476): the combinations of a text, and whether figures are then in force."""
    found = []
    for it in text:
        if it == "\n":
            found += [CR, LF]
            continue
        if (it in LETTER_OF) != (it in FIGURE_OF):
            if figures != (it in FIGURE_OF):
                figures = not figures
                found.append(FIGS if figures else LTRS)
        found.append(FIGURE_OF[it] if figures else LETTER_OF[it])
    return found, figures


def header(identity):
    """The positions of a message up to its second digit (M.540)."""
    return [LTRS] + [LETTER_OF[it] for it in "ZCZC " + identity[:2]] + [FIGS] + [FIGURE_OF[it] for it in identity[2:]]


HEADER_LENGTH = len(header("EA01"))


def behind_header(text):
    """The positions of a message up to the last N of its NNNN, behind the second digit."""
    found, figures = spelled(text, True)
    return [CR, LF] + found + [LTRS] * figures + [LETTER_OF["N"]] * 4


def message(identity, text):
    """The positions of a message (M.540)."""
    return header(identity) + behind_header(text) + [CR, LF, LF]


def emission(*messages, lead=LEAD, between=BETWEEN, ends=ENDS):
    """The positions of an emission; its counts of phasing and end positions are this profile's."""
    found = [PHASING] * lead
    for number, it in enumerate(messages):
        found += [PHASING] * (between if number else 0) + it
    return found + [END] * ends


def words_of(positions):
    """*Emission* (M.625, mode B): the words of its slots."""
    pairs = [DX_RX.get(it) or (WORDS[it], WORDS[it]) for it in positions]
    words = [P1] * (2 * len(pairs) - 1)
    words[0::2] = [dx for dx, _ in pairs]
    words[5::2] = [rx for _, rx in pairs[: max(0, len(pairs) - 3)]]
    return words


# ---- What happens on the way ---------------------------------------------------------------------


def damaged(words, *slots):
    """The words with element 1 inverted in these slots, as `navtex damage all` does."""
    return [("10"[int(it[0])] + it[1:] if slot in slots else it) for slot, it in enumerate(words)]


def without(words, *slots):
    """The words with both sendings damaged of the positions that are sent first in these slots."""
    return damaged(words, *slots, *(it + 5 for it in slots))


def replaced(words, slot, word):
    """The words with another one in that slot."""
    return words[:slot] + [word] + words[slot + 1 :]


def lines_of(elements, mark="", length=490):
    """The elements as lines of an air file."""
    return "".join(f"B{mark} {elements[at : at + length]}\n" for at in range(0, len(elements), length))


def sent_at(moment, words, mark=""):
    """A moment, and words that are heard from then on."""
    return f"T {moment}\n" + lines_of("".join(words), mark)


def wrong_word(chance):
    """A word of the wrong weight."""
    while True:
        word = elements_of(chance.randrange(128))
        if word not in COUNTS_AS:
            return word


def noise(chance, count):
    """So many elements by chance."""
    return f"{chance.getrandbits(count):0{count}b}" if count else ""


def inverted(chance, elements, rate):
    """The elements, some of them inverted."""
    return "".join("10"[int(it)] if chance.random() < rate else it for it in elements)


# ---- Random air files ----------------------------------------------------------------------------

STEPS = (0, 1, 600, 14_400, 14_400, 14_400, 28_800)
LONG_STEPS = (0, 14_400, DAY, 118_800, 200_000, 237_599, 237_600, 250_000)
FALSE_MARKERS = (",,,,", "+:+:", ",,,,,", ":+:+:+:", "A,,,,B", "NNN", "ZCZ", "9,,,,9")


def random_text(chance, most):
    """Lines of words and numbers, with what is a marker where a shift is lost, and nearly one."""
    words = []
    while sum(map(len, words)) + len(words) < most:
        kind = chance.randrange(12)
        if kind < 6:
            word = "".join(chance.choice(CAPITALS) for _ in range(chance.randint(1, 8)))
        elif kind < 10:
            word = "".join(chance.choice("0123456789-.?:(),'=/+") for _ in range(chance.randint(1, 6)))
        else:
            word = chance.choice(FALSE_MARKERS)
        words.append(word)
    text = "".join(it + chance.choice("    \n") for it in words)
    return without_markers(text).rstrip(" ") + chance.choice(("", "\n", "\n", "\n"))


def without_markers(text):
    """A text with no marker in it."""
    return re.sub("NNNN+", "NNN", text.replace("ZCZC", "ZCZ"))


def another_text(chance, text):
    """A text like this one, or quite another one."""
    if chance.randrange(3) == 0 or not text.strip():
        return random_text(chance, chance.choice((0, 10, 40)))
    found = list(text)
    for _ in range(chance.choice((1, 1, 2, 3, 8))):
        at = chance.randrange(len(found))
        if found[at] not in "\n ":
            found[at] = chance.choice("0123456789" if found[at].isdigit() else CAPITALS)
    return without_markers("".join(found))


def with_idle(chance, positions):
    """The positions with some more among them, that print nothing."""
    for _ in range(chance.choice((1, 1, 3))):
        at = chance.randrange(len(positions) + 1)
        positions = positions[:at] + [chance.choice((BETA_SENT, PHASING, 32, 27))] + positions[at:]
    return positions


def behind_headers(positions):
    """The indexes of the positions that stand behind a message's header; where idle cuts each
    message too early, those behind the first phasing."""
    found, first = [], None
    for at, it in enumerate(positions):
        first = None if it == PHASING else at if first is None else first
        if first is not None and at >= first + HEADER_LENGTH:
            found.append(at)
    return found or list(range(LEAD, len(positions)))


def on_the_way(chance, positions):
    """The words of an emission as they may arrive: lost positions, damaged words and words that are
    another signal, behind the headers or anywhere."""
    words, places = words_of(positions), behind_headers(positions)
    shifts = [at for at in places if positions[at] in (LTRS, FIGS)]
    for _ in range(chance.choice((0, 0, 1, 1, 2, 3, 6))):
        at = chance.choice(shifts if shifts and chance.randrange(3) == 0 else places)
        for slot in (2 * at, 2 * at + 5):
            if slot < len(words):
                words[slot] = wrong_word(chance)
    first = 0 if chance.randrange(5) == 0 else 2 * places[0]
    spoilt, other = chance.choice((0, 0, 0.02, 0.1, 0.25, 0.4)), chance.choice((0, 0, 0, 0.01, 0.05))
    for slot in range(first, len(words)):
        way = chance.random()
        if way < spoilt:
            words[slot] = wrong_word(chance)
        elif way < spoilt + other:
            words[slot] = chance.choice(list(COUNTS_AS))
    return words


def broken(chance, elements):
    """The elements as far as they were heard, and what is heard behind them."""
    kind = chance.randrange(12)
    if kind == 0:
        at = chance.randrange(len(elements))
        elements = elements[:at] + noise(chance, chance.randrange(9)) + elements[at + chance.randrange(9) :]
    elif kind == 1:
        elements = inverted(chance, elements, chance.choice((0.005, 0.02, 0.05)))
    elif kind < 5:
        elements = elements[: chance.randrange(1_000, max(1_001, len(elements)))]
    if chance.randrange(3) == 0:
        elements += noise(chance, chance.choice((3, 50, 300, 700, 1_500)))
    if chance.randrange(8) == 0:
        elements = noise(chance, chance.randrange(1, 400)) + elements[chance.randrange(700) :]
    return elements


def random_commands(chance, identities):
    """Now and then a line by which the crew chooses."""
    if chance.randrange(4):
        return ""
    identity = chance.choice(identities)
    act, of = chance.choice("RRAA"), chance.choice("SJ")
    letter = identity["SJ".index(of)]
    if act + of == "RJ" and letter in "ABDL" and chance.randrange(6):
        return ""
    return f"{act}{of}{chance.choice(('', '', '0', '1', '2'))} {letter}\n"


def cut_lines(chance, elements, mark):
    """The elements as lines, of one length or of many."""
    if chance.randrange(3):
        return lines_of(elements, mark).splitlines(True)
    found, at = [], 0
    while at < len(elements):
        length = chance.choice((1, 7, 100, 490, 511))
        found.append(f"B{mark} {elements[at : at + length]}\n")
        at += length
    return found


def merged(chance, one, other):
    """Both lists of lines, each in its own order."""
    found = []
    while one and other:
        found.append((one if chance.randrange(2) else other).pop(0))
    return found + one + other


def spoilt_file(chance, data):
    """Now and then a file with a fault, or one that ends too early."""
    kind = chance.randrange(40)
    lines = data.splitlines(True)
    if kind == 0:
        bad = ("\n", "T 05\n", "B 012\n", "B3 1\n", "T 1\n", "RJ L\n", "T 32503680000\n", "B " + "1" * 513 + "\n", "X\n")
        lines.insert(chance.randrange(len(lines) + 1), chance.choice(bad))
    if kind == 1:
        return data[: chance.randrange(len(data) + 1)]
    return "".join(lines)


def random_air(chance):
    """An air file of two to six sendings, most of them of one message."""
    identities = ["EA01", chance.choice(("EA01", "EA01", "EA01", "EA00", "EA02", "EC05", "FB99", "EZ00"))]
    steps = chance.choice((STEPS, STEPS, LONG_STEPS))
    texts = {it: random_text(chance, chance.choice((0, 6, 25, 40, 60))) for it in identities}
    left, moment, data = chance.randint(2, 6), M0 + chance.randrange(100_000), ""
    channels = chance.choice((("",), ("",), ("",), ("2",), ("0", "1"), ("1", "2", "")))
    while left:
        moment += chance.choice(steps)
        heard = []
        for _ in range(min(left, chance.choice((1, 1, 1, 2, 3)))):
            identity = chance.choice(identities)
            if chance.randrange(12) == 0:
                texts[identity] = another_text(chance, texts[identity])
            heard.append(message(identity, texts[identity]))
            if chance.randrange(10) == 0:
                heard[-1] = with_idle(chance, heard[-1])
        left -= len(heard)
        positions = emission(*heard, between=chance.choice((BETWEEN, 2, 0)))
        elements = broken(chance, "".join(on_the_way(chance, positions)))
        data += random_commands(chance, identities) + f"T {moment}\n" + random_commands(chance, identities)
        lines = cut_lines(chance, elements, chance.choice(channels))
        if len(channels) > 1 and chance.randrange(3) == 0:
            again = "".join(on_the_way(chance, positions))
            lines = merged(chance, lines, cut_lines(chance, again, chance.choice(channels)))
        data += "".join(lines)
    return spoilt_file(chance, data).encode()
