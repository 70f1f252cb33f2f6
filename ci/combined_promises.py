"""Trials of what several sendings promise, over the plain reader: that nothing is invented, that
nothing becomes worse, and that a message of which each character came through is printed whole."""

from collections import Counter, namedtuple
from itertools import accumulate, zip_longest

from combined_air import (
    HEADER_LENGTH,
    LEAD,
    M0,
    another_text,
    behind_header,
    emission,
    message,
    noise,
    random_text,
    sent_at,
    words_of,
    wrong_word,
)
from combined_reader import (
    COUNTS_AS,
    IDLE,
    LOST,
    LOOKED_AT,
    MOST_POSITIONS,
    REMEMBERED,
    SIXTY_SIX_HOURS,
    TOO_MANY_WRONG,
    errors_in,
    is_better,
    is_good,
    is_live,
    is_urgent,
    printed,
    read_positions,
    run_of,
)

FROM, BOUND_FROM = 96, 144  # slots: what is as sent begins, and what may be damaged


# ---- Nothing invented, never worse ---------------------------------------------------------------

# Idle among the characters of a text prints nothing. Where another copy has it lost, the joined
# position is lost, and prints `*`: so a full text without errors may change there, though no two
# copies took different things. Such texts are counted, and aren't wrong.


def broken_promises(channel):
    """What isn't as promised of the combined copies of a channel, and how often it was tried."""
    wrong, tried, families = [(it, None) for it in unlike_listen(channel)], Counter(), {}
    for copy, member, shown in zip(channel.copies, channel.members, channel.shown):
        if is_better(copy, shown):
            wrong.append(("a combined copy is worse than its copy", copy))
        if not member.family:
            continue
        before, had = families.get(member.family, ([], []))
        had = had + [set() for _ in copy.positions[len(had) :]]
        for its, it in zip(had, copy.positions):
            its.add(it)
        families[member.family] = member.positions, had
        tried["copies that joined"] += member.has_joined
        if not all(it <= IDLE or it in its for it, its in zip(member.positions, had)):
            wrong.append(("a combination is invented", copy))
        if member.has_joined and not any(len(its - {LOST}) > 1 for its in had):
            tried["where no two differ"] += 1
            if any(was > IDLE and was != it for was, it in zip(before, member.positions)):
                wrong.append(("a combination is gone", copy))
            text, how, end = read_positions(before)
            if how == "full" and not errors_in(text) and read_positions(member.positions)[:2] != (text, how):
                if any(IDLE in its for its in had[:end]):
                    tried["full texts that changed where idle was lost"] += 1
                else:
                    wrong.append(("a full text without errors changed", copy))
    return wrong, tried


def unlike_listen(channel):
    """What isn't as promised of both logs: where no identity is found twice they are one, and what
    `listen` prints first of an identity is printed, as it is."""
    alone, firsts = printed(channel.copies), {}
    for at, it in enumerate(channel.copies):
        if alone[at]:
            firsts.setdefault(it.identity, at)
    shown = [tuple(its) == (it.text, it.how) for its, it in zip(channel.shown, channel.copies)]
    as_itself = [is_printed and its for is_printed, its in zip(channel.printed, shown)]
    if not all(as_itself[at] for at in firsts.values()):
        yield "what listen prints first isn't printed as it is"
    if len({it.identity for it in channel.copies}) == len(channel.copies) and as_itself != alone:
        yield "no identity is found twice, and the log is another one"


# ---- Together ------------------------------------------------------------------------------------

# One sending of a message: what was sent, where the last element of the second digit's RX word
# stands, and whether each position of its header has a word as sent.
Sending = namedtuple("Sending", "identity text place has_header")
IDENTITY = "EA01"
PREMISES, CAME = "meet the premises", "of which each character came through"
A_FULL_SLOT = ("A" * 69 + "\n") * 58 + "\n" * 36


def on_a_visible_path(chance, words):
    """The words of an emission, some of them of the wrong weight, from slot 144 on."""
    rate = chance.choice((0, 0.03, 0.1, 0.2, 0.3, 0.45))
    words = [wrong_word(chance) if at >= BOUND_FROM and chance.random() < rate else it for at, it in enumerate(words)]
    for _ in range(chance.choice((0, 1, 2, 4))):
        at = chance.randrange(BOUND_FROM // 2, len(words) // 2)
        for slot in (2 * at, 2 * at + 5):
            if slot < len(words):
                words[slot] = wrong_word(chance)
    return words


def is_visible_path(sent, heard):
    """*A visible path*, of the words of an emission."""
    if sent[FROM:BOUND_FROM] != heard[FROM:BOUND_FROM] or len(sent) != len(heard):
        return False
    if any(it != was and it in COUNTS_AS for was, it in zip(sent[BOUND_FROM:], heard[BOUND_FROM:])):
        return False
    wrong = [0, *accumulate(it != was for was, it in zip(sent[BOUND_FROM:], heard[BOUND_FROM:]))]
    return all(it - wrong[max(0, at - LOOKED_AT)] < TOO_MANY_WRONG for at, it in enumerate(wrong))


def mended(chance, sent, words, first):
    """The words, with one as sent of each position of a header that begins at this position."""
    words = list(words)
    for at in range(first, first + HEADER_LENGTH):
        slot = 2 * at + 5 * chance.randrange(2)
        words[slot] = sent[slot]
    return words


def starts_of(messages, between):
    """The position at which each message of an emission begins."""
    found, at = [], LEAD
    for it in messages:
        found.append(at)
        at += len(it) + between
    return found


def lines_in(text):
    """The text as that of a message: lines, each followed by a newline (M.540)."""
    return text if text.endswith("\n") or not text else text + "\n"


def random_sendings(chance):
    """An air file of a message that is sent again and again, with others beside it, and its
    sendings; or None, where an emission isn't heard as a visible path gives it."""
    length = chance.choice((0, 6, 25, 40, 60))
    text = lines_in(random_text(chance, length)) if chance.randrange(200) else A_FULL_SLOT
    other = lines_in(random_text(chance, 30))
    data, sendings, moment, count = "", [], M0, 0
    for _ in range(chance.randint(2, 6)):
        moment += chance.choice((0, 600, 14_400, 14_400, 28_800, 60_000))
        said = [(IDENTITY, text)]
        for _ in range(chance.choice((0, 0, 1, 2))):
            another = (chance.choice(("EA02", "EB02", "EA00")), other)
            said.insert(chance.randrange(len(said) + 1), chance.choice((another, another, (IDENTITY, text))))
        if chance.randrange(30) == 0:
            text = lines_in(another_text(chance, text))
        between = chance.choice((36, 36, 0))
        parts = [message(*it) for it in said]
        sent = words_of(emission(*parts, between=between))
        starts = starts_of(parts, between)
        words = on_a_visible_path(chance, sent)
        for first in starts:
            words = mended(chance, sent, words, first) if chance.randrange(4) else words
        if not is_visible_path(sent, words):
            return None
        gap = noise(chance, chance.choice((0, 0, 0, 5, 100, 700)))
        first = chance.choice((0, 0, FROM, chance.randrange(FROM)))
        before = [it if chance.randrange(5) else wrong_word(chance) for it in words[first:FROM]]
        elements = gap + "".join(before + words[FROM:])
        for (identity, its), start in zip(said, starts):
            header = range(start, start + HEADER_LENGTH)
            has_header = all(words[2 * at] == sent[2 * at] or words[2 * at + 5] == sent[2 * at + 5] for at in header)
            place = count + len(gap) + 7 * (2 * header[-1] + 5 - first) + 6
            sendings.append(Sending(identity, its, place, has_header))
        data += sent_at(moment, [elements])
        count += len(elements)
    tail = noise(chance, chance.choice((0, 100, 1_000)))
    return (data + sent_at(moment, [tail])).encode(), sendings


def met(channel, sendings):
    """Whether the premises of *Together* are met, but for the one that each character came through:
    the copies of the identity, in order, as places in the channel's lists, or None."""
    mine = [at for at, it in enumerate(channel.copies) if it.identity == IDENTITY]
    copies = [channel.copies[at] for at in mine]
    texts = {it.place: it.text for it in sendings if it.identity == IDENTITY}
    if not copies or not all(it.begin in texts and it.is_selected for it in copies):
        return None
    if len(set(texts.values())) > 1 or copies[-1].moment - copies[0].moment >= SIXTY_SIX_HOURS:
        return None
    end = len(behind_header(sendings_text(sendings)))
    behind = [it.positions[end:] for it in copies]
    runs_on = any(len({it for it in its if it and it > IDLE}) > 1 for its in zip_longest(*behind))
    if runs_on or any(len(it.positions) > MOST_POSITIONS for it in copies):
        return None
    between = range(mine[0], mine[-1])
    begun = sum(bool(it.family) and not it.has_joined for it in channel.members[mine[0] : mine[-1]])
    entries = [at for at, it in enumerate(entered(channel)) if it]
    made = sum(at in between for at in entries)
    before = [(channel.copies[at].identity, channel.copies[at].moment) for at in entries if at < mine[0]]
    if begun >= REMEMBERED or made >= REMEMBERED or is_live(before, IDENTITY, copies[0].moment):
        return None
    return mine


def entered(channel):
    """Of each copy whether it is entered."""
    for copy, member, shown, is_printed in zip(*channel):
        yield is_printed and is_good(*shown) and not is_urgent(copy.identity) and member.family is not None


def sendings_text(sendings):
    """The text that the message of the trial has."""
    return next(it.text for it in sendings if it.identity == IDENTITY)


def came_through(channel, mine, sent):
    """The first of these copies with which each position came, or None; and of a copy that took
    what wasn't sent, True."""
    missing, is_wrong = set(range(len(sent))), False
    for at in mine:
        took = channel.copies[at].positions
        is_wrong = is_wrong or any(it > IDLE and it != was for it, was in zip(took, sent))
        missing -= {index for index in missing if index < len(took) and took[index] == sent[index]}
        if not missing:
            return at, is_wrong
    return None, is_wrong


def together(data, sendings):
    """What is wrong of *Together* in a file, or None; and what of it was tried."""
    channel = run_of(data).channels[0]
    found = {it.begin for it in channel.copies}
    if not all(it.place in found for it in sendings if it.has_header):
        return "a sending with its header isn't found", ()
    mine = met(channel, sendings)
    if mine is None:
        return None, ()
    text = sendings_text(sendings)
    at, is_wrong = came_through(channel, mine, behind_header(text))
    if is_wrong:
        return "what was taken wasn't sent", (PREMISES,)
    if at is None:
        return None, (PREMISES,)
    shown, is_printed = channel.shown[at], channel.printed[at]
    if not is_printed or tuple(shown) != (text, "full"):
        return "the message isn't printed whole", (PREMISES, CAME)
    if any(channel.printed[it] for it in mine if it > at):
        return "something is printed of it afterwards", (PREMISES, CAME)
    itself = channel.copies[at]
    is_new = (itself.text, itself.how) != (text, "full")
    kept_out = any(is_good(*channel.shown[it]) and channel.printed[it] for it in mine if it < at)
    return None, (PREMISES, CAME) + ("whole in no copy before",) * is_new + ("behind a good one with a hole",) * kept_out
