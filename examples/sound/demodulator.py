"""The demodulator: samples in, elements out, some 3.6 s behind; and what it tells of itself."""
import numpy as np

import receive
import sendings

NEAR = 100.0                  # Hz on each side of a named centre in which the middle may be
ASIDE = 400.0                 # Hz on each side in which two tones are seen, so that it can be told
BAND = 300.0, 3500.0          # Hz in which the middle is looked for where none is named
THERE = 2.0                   # the score at which two tones are there
RATES = 48000, 44100, 8000, 16000, 22050, 11025, 12000, 24000, 32000, 96000
FAR, CLEAR = 25.0, 1.3        # the middle moves where another is so far away, and so much clearer
OTHER = 10.0                  # two tones that are so much clearer make words far beside them


class Demodulator:
    def __init__(self, rate, centre, exchanged=False, search=False):
        self.reach = BAND if search else (centre - NEAR, centre + NEAR)
        self.rate, self.middle = rate, float(centre)
        self.spectrum = receive.Middle(rate, *(BAND if search else (centre - ASIDE, centre + ASIDE)))
        self.mixer = receive.Mixer(rate)
        self.clock = receive.Clock()
        self.sendings = sendings.Sendings(exchanged)
        self.begins = sendings.Store()
        self.samples = np.zeros(0)
        self.piece = int(rate * receive.PIECE / receive.BAUD)
        self.heard = self.told = self.locks = 0
        self.outside = 0              # pieces of a sender whose clock is too fast or slow to follow
        self.tone = 0.0               # the greatest score of two tones so far
        self.aside = 0.0, 0.0         # how clear two tones out of reach were at most, and where
        self.was = False
        self.place = self.middle      # the middle in the last lock

    locked = property(lambda self: self.sendings.lock is not None)
    phasing = property(lambda self: self.sendings.phasing)
    exchanged = property(lambda self: self.sendings.exchanged)
    sure = property(lambda self: self.sendings.sure)
    unsure = property(lambda self: self.sendings.unsure)
    jumps = property(lambda self: self.sendings.jumps)
    single = property(lambda self: self.sendings.single)

    def hear(self, samples):
        """(moment, digits): when the first of the new elements was heard, in seconds of sound, and
        the elements."""
        self.samples = np.concatenate((self.samples, samples))
        self.heard += len(samples)
        moment, digits = 0.0, ""
        while len(self.samples) >= self.piece:
            here = self.sendings.here
            told = self.hear_piece(self.samples[:self.piece])
            self.samples = self.samples[self.piece:]
            if len(told) and not digits:
                moment = self.begins[here] / receive.RATE
            digits += "".join(map(str, told))
            self.told += len(told)
        return moment, digits

    def hear_piece(self, samples):
        self.spectrum.hear(samples)
        self.follow()
        begins, upper, lower, energies = self.clock.hear(self.mixer.hear(samples, self.middle))
        if self.clock.is_moved:
            self.sendings.moved = self.begins.end
        if self.clock.is_other:       # elements before it weren't counted rightly
            self.sendings.forget(self.begins.end)
        self.outside += self.clock.is_outside
        self.begins.add(begins.real)
        told = self.sendings.hear(upper, lower, energies.real, np.full(len(upper), self.middle))
        self.locks += self.locked and not self.was
        self.was = self.locked
        self.place = self.middle if self.locked else self.place
        return told

    def follow(self):
        """The middle: in a lock by the phase of its words, else by the spectrum."""
        place, score = self.spectrum.best(*self.reach)
        clearest, most = self.spectrum.best()
        here = self.spectrum.scores([self.middle])[0]
        self.tone = max(self.tone, score)
        # Two tones out of reach that are clearer make words here too: on one tone where they are
        # some 170 Hz beside it, and by their keying where they are much clearer.
        is_aside = (most > max(THERE, CLEAR * here)
                    and abs(clearest - np.clip(clearest, *self.reach)) > FAR)
        is_beside = abs(clearest - self.middle) <= NEAR + receive.SHIFT or most >= OTHER * here
        self.sendings.is_tuned = not (is_aside and is_beside or self.clock.is_outside)
        if is_aside:
            self.aside = max(self.aside, (float(most), float(clearest)))
        if self.locked:
            told = self.sendings.middle
            if told is not None and abs(told - self.middle) > 3:
                self.middle += np.clip(told - self.middle, -20, 20)
        elif abs(place - self.middle) > FAR and score > CLEAR * here:
            if abs(place - self.middle) > NEAR:
                self.sendings.forget(self.begins.end + (receive.AHEAD + 1) * receive.PIECE)
            self.middle = place

    def end(self):
        """The elements that were still held back."""
        heard, told, here = self.heard, self.told, self.sendings.here
        moment, digits = self.hear(np.zeros(int(4.6 * self.rate)))
        whole = np.searchsorted(self.begins[here:self.begins.end], heard / self.rate * receive.RATE)
        self.told = told + min(whole, len(digits))
        return moment, digits[:whole]


def other_rate(samples, rate):
    """Another usual rate at which these samples have phasing of NAVTEX, if there is one."""
    for other in RATES:
        if other != rate and any(one[0] for one in find(samples, other, 1, 30, THERE)):
            return other
    return None


def find(samples, rate, places=6, seconds=120, least=0):
    """Where words of NAVTEX are: a list of (phasing met, locks, middle, exchanged, second), best
    first.

    Tried are the clearest places of the spectrum, at least 60 Hz apart, with more than the least
    score, each for so many seconds from where it is first clear; of what is found within 200 Hz of
    something better nothing is told.
    """
    spectrum = receive.Middle(rate, *BAND)
    piece = int(rate * receive.PIECE / receive.BAUD)
    scores = []
    for first in range(0, len(samples) - piece + 1, piece):
        spectrum.hear(samples[first:first + piece])
        if first // piece % 5 == 4:
            scores.append(spectrum.scores())
    if not scores:
        return []
    scores = np.array(scores)
    best, found = scores.max(0), []
    while best.max() > least and len(found) < places:
        place = best.argmax()
        centre = spectrum.places[place]
        second = np.flatnonzero(scores[:, place] >= 0.6 * best[place])[0]
        part = samples[int(max(0, second - 8) * rate):int((second + seconds - 8) * rate)]
        one = Demodulator(rate, centre)
        one.hear(part)
        one.end()
        found.append((one.phasing, one.locks, one.place, one.exchanged, max(0, second - 8)))
        best = np.where(np.abs(spectrum.places - centre) < 60, 0, best)
    clear = []
    for one in sorted(found, key=lambda one: one[:2], reverse=True):
        if one[1] and all(abs(one[2] - other[2]) > 200 for other in clear):
            clear.append(one)
    return clear
