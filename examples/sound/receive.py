"""From samples to the two tones of each element: middle, limiter, filter, clock.

All works on pieces of 0.2 s. A piece is mixed down so that the middle of the two tones lies at 0
Hz, and brought to 16 samples an element; then the clock finds where elements begin.
"""
import numpy as np

BAUD = 100            # elements a second (ITU-R M.540)
SHIFT = 170.0         # Hz from the lower tone to the upper one (ITU-R M.540)
PER = 16              # samples an element behind the filter
RATE = BAUD * PER     # samples a second there
PIECE = 20            # elements a piece
AHEAD = 5             # pieces that the clock looks ahead
MEMORY = 15.0         # pieces that the clock remembers
PAST = 45             # pieces before which it has forgotten all
STEP = 100.0          # what a step of the clock has to explain: noise gives 80, half an element 450
SHOWN = 150.0         # a sum of swings so long isn't that of noise
RATES = np.arange(-48, 49) / 100   # how far swings may turn from piece to piece, in turns
BACK = np.exp(-2j * np.pi * RATES[:, None] * np.arange(-PAST, AHEAD + 1))   # by rate, and by piece
FOLLOWED = 0.24       # turns that are followed: a clock that is 1.2 per cent too fast or too slow
NEAR = 0.05           # rates so near each other have a sum of much the same length
MOVED = 3             # a change of place by so many samples shows a jump
BAND = 320.0          # Hz on each side of the middle that pass the filter
LOUDEST = 3.5         # what is so many times as loud as the median of its piece is made softer


class Middle:
    """Finds the middle of two tones SHIFT apart, by the power of the sound at each frequency.

    Power: the squared FFT of 0.2 s (Hann window) over its own mean, so that each piece counts
    alike; averaged over some 2.5 s; smoothed by the width of a keyed tone. The score of f is the
    lesser of the powers at f - SHIFT/2 and f + SHIFT/2: a carrier alone has one of them.
    """

    def __init__(self, rate, first, last):
        self.size = int(rate * 0.2)
        self.window = np.hanning(self.size)
        self.bin = rate / self.size
        self.places = np.arange(max(first, SHIFT), min(last, rate / 2 - SHIFT) + 1, 2.0)
        self.power = np.ones(self.size // 2 + 1)
        self.smooth = self.power
        self.before = np.zeros(0)
        wide = np.arange(-12, 13) * self.bin
        self.line = np.exp(-(wide / 22.0) ** 2)
        self.line /= self.line.sum()

    def hear(self, samples):
        joined = np.concatenate((self.before, samples))[-self.size:]
        self.before = joined
        if len(joined) == self.size and joined.any():
            power = np.abs(np.fft.rfft(joined * self.window)) ** 2
            lowest, highest = int(200 / self.bin), int(min(4000 / self.bin, len(power)))
            power /= np.mean(power[lowest:highest])
            self.power += (np.minimum(power, 50 * np.median(power) + 20) - self.power) / 12
        self.smooth = np.convolve(self.power, self.line, "same")

    def scores(self, places=None):
        places = self.places if places is None else np.asarray(places)
        at = lambda f: np.interp(f / self.bin, np.arange(len(self.smooth)), self.smooth)
        return np.minimum(at(places - SHIFT / 2), at(places + SHIFT / 2))

    def best(self, first=0, last=np.inf):
        """The clearest place from `first` to `last`, and its score."""
        within = self.places[(self.places >= first) & (self.places <= last)]
        scores = self.scores(within)
        return within[scores.argmax()], scores.max()


class Mixer:
    """Samples at any rate, mixed down by a frequency that may change, at RATE samples a second."""

    def __init__(self, rate):
        self.fold = max(1, int(rate / 6000))       # so many samples are averaged to one, first
        self.rate = rate / self.fold
        self.turn = 0.0                            # where the mixing oscillator stands, in turns
        self.whole = rate
        self.rest = np.zeros(0, complex)           # samples that don't fill a fold yet
        self.half = int(1.5 * self.rate / BAND)    # half the length of the filter
        self.held = np.zeros(self.half, complex)   # samples that the filter still needs
        self.begin = -float(self.half)             # number of the first of them
        self.made = 0                              # samples made so far

    def hear(self, samples, middle):
        """The new samples at RATE."""
        steps = self.turn + middle / self.whole * np.arange(1, len(samples) + 1)
        self.turn = steps[-1] % 1 if len(steps) else self.turn
        mixed = np.concatenate((self.rest, samples * np.exp(-2j * np.pi * steps)))
        count = len(mixed) // self.fold
        self.rest = mixed[count * self.fold:]
        return self.filtered(limited(mixed[:count * self.fold].reshape(count, self.fold).mean(1)))

    def filtered(self, piece):
        """Low pass by a sinc of BAND Hz in a Hann window, at each moment of RATE that it reaches."""
        self.held = np.concatenate((self.held, piece))
        step = self.rate / RATE
        last = int((self.begin + len(self.held) - 1 - self.half) / step)
        moments = np.arange(self.made, max(self.made, last)) * step - self.begin
        if not len(moments):
            return np.zeros(0, complex)
        nearest = np.round(moments).astype(int)
        reach = np.arange(-self.half, self.half + 1)
        late, which = np.unique(np.round(nearest - moments, 9), return_inverse=True)
        away = late[:, None] + reach
        weights = np.sinc(2 * BAND / self.rate * away) * (0.5 + 0.5 * np.cos(np.pi * away / (self.half + 1)))
        near = np.lib.stride_tricks.sliding_window_view(self.held, len(reach))[nearest - self.half]
        made = np.einsum("ij,ij->i", near, weights[which]) * (2 * BAND / self.rate)
        self.made += len(made)
        drop = max(0, int(self.made * step - self.begin) - self.half - 2)
        self.held, self.begin = self.held[drop:], self.begin + drop
        return made


def limited(piece):
    """The piece without its clicks: a sample that is louder than LOUDEST times the median comes out
    as many times softer than that. What lasts, as a voice, is left for the filter."""
    sizes = np.abs(piece)
    limit = LOUDEST * np.median(sizes)
    return piece * (limit / np.maximum(sizes, limit)) ** 2 if limit > 0 else piece


class Clock:
    """Where elements begin, and what each of the tones is in them.

    E(t) is the energy of a tone over the 16 samples up to t. |E_B - E_Y| is largest where an
    element ends, so the angle of the sum of |E_B - E_Y| e^(-2 pi i t / 16) tells the place (after
    Oerder and Meyr 1988). Each piece has such a sum, its swing; they are added up over 3 s before
    and 1 s after. Where the clock of the sender goes too fast or too slow the swing turns from
    piece to piece. So swings are turned back by each of RATES, and the rate is followed for which
    their sum is longest. Each element moves by what the rate tells, and by an eighth of what it is
    late, at most 2 per cent of its length, so that the count of elements goes on where nothing is
    heard. Where sound was lost or doubled the place changes at once: two sums, before a piece and
    from it on, are then together much longer than that of all at any rate.
    """

    def __init__(self):
        self.heard = np.zeros(0, complex)   # samples at RATE that are still needed
        self.begin = 0                      # number of the first of them
        self.seen = 0                       # pieces whose swing is known
        self.swings = []                    # those of the pieces that no element was taken of
        self.past = []                      # those before, since the place changed at once
        self.rate = 0.0                     # how far swings turn from piece to piece, in turns
        self.is_outside = False             # whether it is farther than FOLLOWED
        self.loud = 0.0
        self.next = 0.0                     # where the next element begins
        self.is_moved = False               # whether the place changed at once in the latest elements
        self.is_other = False               # whether the rate did so

    def hear(self, samples):
        """(begins, upper, lower, energies): where the new elements begin, in samples, r of both
        tones, and the mean of |x|^2."""
        self.heard = np.concatenate((self.heard, samples))
        size = PER * PIECE
        told, self.is_moved, self.is_other = [], False, False
        while (self.seen + 1) * size + PER <= self.begin + len(self.heard):
            self.swings.append(self.swing(self.seen * size))
            self.seen += 1
            if len(self.swings) > AHEAD:
                told.append(self.piece())
        if not told:
            return np.zeros((4, 0))
        return np.concatenate(told, 1)

    def swing(self, first):
        """The sum over one piece, from the end of its first element on."""
        part = self.heard[first - self.begin:first - self.begin + PER * (PIECE + 1)]
        turns = np.exp(-1j * np.pi * SHIFT / RATE * np.arange(len(part)))
        energies = []
        for mixed in (part * turns, part * turns.conj()):
            sums = np.concatenate(([0], np.cumsum(mixed)))
            energies.append(np.abs(sums[PER:-1] - sums[:-PER - 1]) ** 2)
        loud = np.mean(energies[0] + energies[1])
        self.loud += (loud - self.loud) / 5
        ends = np.exp(-2j * np.pi * np.arange(len(energies[0])) / PER)
        return np.sum(np.abs(energies[0] - energies[1]) * ends) / (max(loud, self.loud) + 1e-30)

    def piece(self):
        """The elements of the oldest piece."""
        limit = (self.seen - AHEAD) * PER * PIECE
        place, is_step = self.place()
        middle, slip = limit - PER * PIECE / 2, -self.rate * PER / PIECE
        late = lambda: (place + slip * (self.next - middle) / PER - self.next + PER / 2) % PER - PER / 2
        if is_step:
            self.is_moved |= abs(late()) >= MOVED
            self.next += late()
        begins = []
        while self.next < limit:
            begins.append(self.next)
            self.next += PER + slip + min(max(late() / 8, -0.02 * PER), 0.02 * PER)
        begins = np.array(begins)
        pair = [self.tone(begins, sign) for sign in (1, -1)]
        energies = self.energies(begins)
        drop = max(0, int(self.next) - self.begin - 2 * PER)
        self.heard, self.begin = self.heard[drop:], self.begin + drop
        return np.array([begins, *pair, energies])

    def place(self):
        """Where elements begin in the middle of the oldest piece, and whether the place changed at
        once before it; then the swings before it are forgotten."""
        pieces = np.arange(-len(self.past), len(self.swings))
        swings = np.array(self.past + self.swings) * np.exp(np.minimum(pieces, 0) / MEMORY)
        turned = lambda: swings * np.exp(-2j * np.pi * self.rate * pieces)
        lengths = np.abs(BACK[:, -len(pieces):] @ swings)
        sums = np.cumsum(np.append(0, turned()))
        sums, shown = sums[len(self.past):-1], sums[-1]
        pairs = np.abs(sums) + np.abs(shown - sums)
        first = pairs.argmax()
        is_step = pairs[first] - max(lengths.max(), abs(shown)) > STEP
        if is_step:
            shown = sums[first] if first else shown - sums[0]
        else:
            self.follow(lengths, abs(shown))
            shown = turned().sum()
        self.past = (self.past * bool(first > 0 or not is_step) + [self.swings.pop(0)])[-PAST:]
        return float(-np.angle(shown) / (2 * np.pi) * PER), is_step and first == 0

    def follow(self, lengths, here):
        """Follows the rate for which the sum of the swings is longest: at once where that explains
        much more than the sum at the present rate, which is `here` long; else slowly."""
        best = min(max(lengths.argmax(), 1), len(RATES) - 2)
        before, longest, behind = lengths[best - 1:best + 2]
        peak = (behind - before) / (2 * abs(2 * longest - before - behind) + 1e-9)
        rate = RATES[best] + min(max(peak, -1), 1) * (RATES[1] - RATES[0])
        is_far = longest > max(SHOWN, here + STEP)
        self.is_outside = is_far and abs(rate) > FOLLOWED
        if is_far and not self.is_outside:
            self.rate, self.is_other = rate, True
        elif longest > SHOWN and abs(rate - self.rate) < NEAR:
            self.rate += (rate - self.rate) / 8

    def tone(self, begins, sign):
        """r of the upper tone (sign 1) or the lower: the mean of x e^(-2 pi i f t) over each
        element, t from its beginning, between samples by straight lines."""
        turns = sign * np.pi * SHIFT / RATE
        heard = self.heard[:int(self.next) + PER + 2 - self.begin]
        places = self.begin + np.arange(len(heard))
        sums = np.concatenate(([0], np.cumsum(heard * np.exp(-1j * turns * places))))
        at = lambda t: np.interp(t - self.begin, np.arange(len(sums)), sums)
        return (at(begins + PER) - at(begins)) * np.exp(1j * turns * begins) / PER

    def energies(self, begins):
        """The mean of |x|^2 over each element."""
        sums = np.concatenate(([0], np.cumsum(np.abs(self.heard) ** 2)))
        at = lambda t: np.interp(t - self.begin, np.arange(len(sums)), sums)
        return (at(begins + PER) - at(begins)) / PER
