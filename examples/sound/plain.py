"""The demodulator of --plain: each element is decided by itself, by the energy at the two tones.

Where neither tone is as loud as of late, in a fade, an element is written 0: of a word's four B
some are then missing, so the word shows that it is damaged. Where elements begin is followed
slowly, over some seconds and in proportion to what is heard, so that the count of elements goes on
through a fade.
"""
import numpy as np

BAUD = 100
REMEMBERED = 2.0  # seconds over which the beginnings of elements, and how loud they are, are averaged
STEP = 0.02       # how far a beginning may move, as a part of an element
FADED = 0.2       # an element with less than this part of the energy of late isn't heard


class Tones:
    """Energy of the upper and of the lower tone, over the element that ends at each sample."""

    def __init__(self, rate, tones):
        self.width = round(rate / BAUD)
        self.turns = [-2j * np.pi * tone / rate for tone in tones]
        self.heard = 0
        self.before = np.zeros(self.width)

    def of(self, samples):
        joined = np.concatenate((self.before, samples))
        places = np.arange(self.heard - self.width, self.heard + len(samples))
        energies = []
        for turn in self.turns:
            sums = np.concatenate(([0], np.cumsum(joined * np.exp(turn * places))))
            energies.append(np.abs(sums[self.width + 1:] - sums[1:-self.width]) ** 2)
        self.heard += len(samples)
        self.before = joined[len(samples):]
        return energies


class Elements:
    """Takes the energies of the tones sample by sample, and tells the elements."""

    def __init__(self, rate):
        self.length = rate / BAUD
        self.forget = np.exp(-1 / (REMEMBERED * rate))
        self.swing = 0j   # what the ends of elements show, as a point on a circle of one element
        self.loud = 0.0   # the energy of the louder tone, of late
        self.heard = 0    # samples so far
        self.next = self.length

    def of(self, upper, lower):
        places = np.arange(self.heard, self.heard + len(upper))
        shown = np.sum(np.abs(upper - lower) * np.exp(-2j * np.pi * places / self.length))
        self.swing = self.swing * self.forget ** len(upper) + shown
        end = -np.angle(self.swing) / (2 * np.pi) * self.length
        told = []
        while round(self.next) < self.heard + len(upper):
            here = round(self.next) - self.heard
            told.append("1" if upper[here] > max(lower[here], FADED * self.loud) else "0")
            self.loud += (max(upper[here], lower[here]) - self.loud) / (REMEMBERED * BAUD)
            late = (end - self.next + self.length / 2) % self.length - self.length / 2
            self.next += self.length + np.clip(late / 8, -STEP * self.length, STEP * self.length)
        self.heard += len(upper)
        return "".join(told)


class Plain:
    """Takes samples, and tells elements at once. It knows no words: `phasing` and `locked` stay 0."""

    def __init__(self, rate, centre, shift, exchanged):
        pair = [centre + shift / 2, centre - shift / 2]
        self.tones = Tones(rate, pair[::-1] if exchanged else pair)
        self.elements = Elements(rate)
        self.rate, self.middle, self.exchanged = rate, centre, exchanged
        self.told = self.phasing = self.locked = self.locks = self.sure = self.unsure = 0
        self.tone = 0.0

    def hear(self, samples):
        """(moment, digits): when the first of the new elements was heard, in seconds, and the elements."""
        moment = self.tones.heard / self.rate
        digits = self.elements.of(*self.tones.of(samples))
        self.told += len(digits)
        return moment, digits

    def end(self):
        return self.tones.heard / self.rate, ""
