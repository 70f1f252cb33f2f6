"""The header of a message, decided together, since its form is known: ZCZC, a space, two letters,
the figure shift, two digits, a carriage return and a line feed (ITU-R M.540).

Where one letter of a header is damaged the receiver prints nothing of the message. So what is fixed
is written as it is known, where all of it together is sure. The identity isn't guessed: it is
written where its four characters together are surer than a word has to be, since a wrong one names
another message. A header begins only behind phasing, or behind an end of a message; so no text is
taken for one.
"""
import numpy as np

from likelihood import log_sum, part

LETTERS = [*range(26)]                                                # by their number in TRAFFIC
DIGITS = [ord(letter) - ord("A") for letter in "PQWERTYUIO"]          # 0 to 9, in figures
RETURN, FEED, LETTER_SHIFT, FIGURE_SHIFT, SPACE = range(26, 31)
Z, C, N = (ord(letter) - ord("A") for letter in "ZCN")
FORM = [[Z], [C], [Z], [C], [SPACE], LETTERS, LETTERS, [FIGURE_SHIFT], DIGITS, DIGITS, [RETURN], [FEED]]
IDENTITY = [place for place, those in enumerate(FORM) if len(those) > 1]
NAMED = 0.995         # the identity is written where it is so probable
OFTEN = 0.02          # how often a header begins at a position where it may
WAITED = 14           # positions that aren't sure at most, from phasing or an end to a header
END = 4               # N of an end


class Place:
    """Whether a header may begin, by the words that were sure."""

    def __init__(self):
        self.is_behind = False    # whether phasing or an end was heard, and no other word since
        self.unsure = 0           # positions since the latest sure one
        self.ends = 0             # N in a row

    def hear(self, number, is_phasing):
        """Takes a position: the number of its words, or None where they aren't sure."""
        if number is None:
            self.unsure += 1
            return
        self.unsure = 0
        self.ends = self.ends + 1 if number == N else 0
        passed = number in (RETURN, FEED, LETTER_SHIFT) and self.is_behind
        self.is_behind = is_phasing or passed or self.ends >= END

    @property
    def is_open(self):
        return self.is_behind and self.unsure <= WAITED


def header(models, combination, sure):
    """The numbers in TRAFFIC of the words of a header, None for those that aren't sure; None where
    it isn't sure that there is one. Given are the likelihoods of the pairs at each of its positions,
    of which the first ones are those of TRAFFIC, with the prior of a `combination`."""
    whole = log_sum(models)
    odds = np.log(OFTEN / (1 - OFTEN))
    words, shares = [], np.ones(len(FORM))
    for place, those in enumerate(FORM):
        here = np.exp(models[place, those] - whole[place])
        odds += np.log(here.mean() + 1e-300) - np.log(combination)
        words.append(those[here.argmax()])
        shares[place] = here.max() / (here.sum() + 1e-300)
    share = part(odds)
    if share < sure:
        return None
    for place in sorted(IDENTITY, key=lambda place: -shares[place]):
        share *= shares[place]
        words[place] = words[place] if share >= NAMED else None
    return words
