"""What an element tells beside statics: they pump the gain of the radio, which goes down at once and
comes back slowly.

A hidden Markov model (Rabiner 1989) goes over the level of all that is heard and over bursts of
noise. Where an element has a tone, all else in it is noise. So its whole energy E, the mean of |x|^2,
tells of the noise too: ln p = ln I0(2 A |r| / N) - A^2 / N - E / N - D ln N, where the noise in E is D
times N. A and N are those of the last seconds, at the level of the element; a burst adds to N.
"""
import numpy as np

from likelihood import log_i0

LATELY = 300              # elements of which A and N are taken
LOUDER = 0.95             # so many of them have a weaker tone than A at the highest level
FREEDOM = 6.4             # D: the band of the filter over the rate of elements
LEVELS = 10.0 ** (-0.2 * np.arange(17))   # A^2 over that of the highest level, in steps of 2 dB
BURSTS = 0, 10 ** -1.5, 10 ** -2.1, 10 ** -2.7, 10 ** -3.3   # what a burst adds to N, over that A^2
RISES = 0.2               # how often the level goes up by a step at an element
BEGINS, ENDS = 0.03, 0.3  # how often a burst begins, and ends
FALLS = 0.6               # how often the level falls then, by any number of steps
SAME = 0.5                # how often a burst that goes on is as loud as before
LOUD = np.repeat(LEVELS, len(BURSTS))     # A^2 of each state, over that of the highest level
NOISY = np.tile(BURSTS, len(LEVELS))      # what its burst adds


def moves():
    """How often each state is followed by each."""
    steps, bursts = np.eye(len(LEVELS)), len(BURSTS) - 1
    up = np.eye(len(LEVELS), k=-1)
    slowly = (1 - RISES) * steps + RISES * up
    slowly[0] = steps[0]
    falling = np.triu(np.ones_like(steps))
    begun = (FALLS * falling / falling.sum(1, keepdims=True) + (1 - FALLS) * slowly) / bursts
    table = np.zeros((len(LEVELS), len(BURSTS), len(LEVELS), len(BURSTS)))   # from level and burst to both
    table[:, 0, :, 0] = (1 - BEGINS) * slowly
    table[:, 0, :, 1:] = BEGINS * begun[:, :, None]
    table[:, 1:, :, 0] = ENDS * slowly[:, None]
    for burst in range(1, len(BURSTS)):
        table[:, burst, :, 1:] = (1 - ENDS) * (1 - SAME) * begun[:, :, None]
        table[:, burst, :, burst] += (1 - ENDS) * SAME * steps
    table = table.reshape(len(LOUD), len(LOUD))
    return table / table.sum(1, keepdims=True)


MOVES = moves()


def lately(power, energy):
    """A^2 and N of each state, by what was heard lately; A^2 of the highest level is the first."""
    larger = power.max(1)
    loud = np.sort(larger)[int(LOUDER * (len(larger) - 1))]
    noise = loud * np.median(np.maximum(energy - larger, 0.001 * energy) / (FREEDOM - 1) / larger)
    return loud * LOUD, noise * LOUD + loud * NOISY + 1e-15


def explained(power, energy, loud, noise):
    """The likelihood of each tone in each state: element, tone, state."""
    power, energy = power[:, :, None], energy[:, None, None]
    likes = log_i0(2 * np.sqrt(loud * power) / noise) - (loud + energy) / noise - FREEDOM * np.log(noise)
    return np.exp(likes - likes.max((1, 2), keepdims=True))


class Levels:
    """Takes elements in their order, and those behind them once more with the next ones."""

    def __init__(self):
        self.before = np.full(len(LOUD), 1 / len(LOUD))   # how probable each state is at the next element

    def hear(self, power, energy, first, end):
        """A^2, A / N, A^2 / N and the likelihood of both tones, in a row for each element from
        `first` on and before `end`. Given are |r|^2 of both tones, and E, of some elements."""
        count, (loud, noise) = end - first, lately(power, energy)
        likes = explained(power[first:], energy[first:], loud, noise)
        either = likes.sum(1) + 1e-30
        shares, likes = self.shares(either, count), likes[:count]
        likes = np.log((likes * shares[:, None]).sum(2) + 1e-300)         # the state is told by the others
        shares *= either[:count]                                          # the element tells of it too
        shares /= shares.sum(1, keepdims=True)
        sizes, ratios = shares @ (np.sqrt(loud) / noise), shares @ (loud / noise)
        rows = [np.repeat(one[:, None], 2, 1) for one in (np.full(count, loud[0]), sizes, ratios)]
        return np.stack((*rows, likes), 2)

    def shares(self, either, count):
        """How probable each state is at the first `count` elements, by all others."""
        before, behind = np.empty_like(either), np.empty_like(either)
        before[0], behind[-1] = self.before, 1
        for place in range(1, len(either)):
            before[place] = (before[place - 1] * either[place - 1]) @ MOVES
            before[place] /= before[place].sum()
            behind[-1 - place] = MOVES @ (behind[-place] * either[-place])
            behind[-1 - place] /= behind[-1 - place].sum()
        self.before = before[count]
        return (before * behind)[:count]
