"""From the tones of elements to elements: words are decided from both sendings of a position.

A position is sent twice: as DX in one slot, and as RX five slots later, 35 elements behind. A word
is named by its number, element 1 in the least place, B as 1; with the tones exchanged it is 127
less its number. Likelihoods are natural logarithms, over that of noise alone. r is the mean of a
tone over an element, A its size where the tone is sent, N the power of noise in it.
"""
import numpy as np

import headers
import levels
from likelihood import log_i0, log_sum, part

TRAFFIC = [int(n, 16) for n in (            # the 32 traffic combinations (ITU-R M.476, M.625)
    "47 72 1D 53 56 1B 35 69 4D 17 1E 65 39 59 71 2D "
    "2E 55 4B 74 4E 3C 27 3A 2B 63 78 6C 5A 36 5C 6A").split()]
P1, P2 = 0x0F, 0x66                         # the phasing signals
WORD, TURN, GAP = 7, 14, 35                 # elements of a word, of two slots, between both sendings
T = 0.01                                    # seconds of an element
BEFORE, BEHIND = 50, 20                     # elements on each side that tell loudness and noise
BACK, ON = 14, 10                           # positions before and behind that tell a lock
LOCK, LOSE, BETTER = 14.0, 5.0, 8.0         # evidence for a lock, against it, and for another one
SURE = 0.98                                 # a word is written where it is so probable
FARTHEST = 30                               # elements that words jump at most
JUMP, MOVED = 14.0, 7.0                     # evidence for it; and where the clock jumped too
RARE = 0.001                                # places of a jump that are less likely cut no words
BLIND = 20                                  # elements that tell nothing at most, where the clock jumped
WAYS = 6                                    # ways to see a word: `seen`
WANDER = 0.2                                # how fast the phase is forgotten, for each word in between
EVER = 1 << 60                              # the last element of a stretch without an end
PAIR = 0.06                                 # for a lock one tone has this part of the other's A^2
SPOILT = 0.002                              # how often one sending of a word is spoilt in any way
CHANGE = 0.03                               # how often another case begins at an element
CASES = np.array([      # how often; A^2 of the upper and the lower tone, N of both, as parts of those near
    (0.80, 1, 1, 1, 1),                                                       # as near it
    (0.02, 2.5, 2.5, 1, 1),                                                   # louder
    (0.04, 1/4, 1/4, 1, 1), (0.03, 1/16, 1/16, 1, 1), (0.04, 0, 0, 1, 1),     # in a fade
    (0.01, 1/4, 1, 1, 1), (0.01, 1, 1/4, 1, 1),                               # one tone of them
    (0.005, 1/16, 1, 1, 1), (0.005, 1, 1/16, 1, 1),
    (0.02, 1, 1, 4, 4), (0.01, 1, 1, 16, 16), (0.005, 1, 1, 64, 64),          # in a burst of noise
    (0.01, 1, 1, 8, 1), (0.01, 1, 1, 1, 8),                                   # at one tone
    (0.005, 1, 1, 64, 1), (0.005, 1, 1, 1, 64),
    (0.01, 1/4, 1/4, 1/4, 1/4), (0.01, 1/16, 1/16, 1/16, 1/16),               # with the gain down
    (0.01, 1/64, 1/64, 1/64, 1/64), (0.02, 0, 0, 1/64, 1/64)])                # or in silence
OFTEN, PARTS = CASES[:, 0] / CASES[:, 0].sum(), CASES[:, 1:].T
MOVES = (1 - CHANGE) * np.eye(len(CASES)) + CHANGE * OFTEN                    # from case to case

PATTERNS = (np.arange(128)[:, None] >> np.arange(WORD)) & 1          # the elements of each word
PICK = np.concatenate((PATTERNS, 1 - PATTERNS), 1).T.astype(float)   # the same, by tone
STEPS = 0.85 * (2 * PATTERNS - 1)           # turns that an element adds: 85 Hz for 10 ms
TURNED = np.exp(-2j * np.pi * (np.cumsum(STEPS, 1) - STEPS))
ADDED = 0.85                                # turns that a word adds, which has one B more than Y
DX = np.array(TRAFFIC + [P2, P1])           # what may be sent: a combination twice, phasing, P1 twice
RX = np.array(TRAFFIC + [P1, P1])
PHASING = len(TRAFFIC)                      # the number of phasing among them
COMBINATION = 0.75 / 32                     # how often each combination is sent
PRIOR = np.log([COMBINATION] * 32 + [0.20, 0.02])
LAST = np.log(0.001)                        # an end position: P1, and no second sending


def likely(power, loud, noise):
    """ln I0(2 A |r| / N) - A^2 / N: Rice over Rayleigh, for |r|^2, A^2 and N; |r| is cut, for clicks."""
    size = np.minimum(np.sqrt(power), 1.5 * np.sqrt(loud) + 2 * np.sqrt(noise))
    return log_i0(2 * np.sqrt(loud) * size / noise) - loud / noise


def weighed(power, loud, noise):
    """What each of CASES explains, by the passes of a hidden Markov model (Rabiner 1989): the
    likelihood of each tone at each element, where its case is told by the others, and the
    probability of each case, of which the element tells too."""
    power, loud, noise = power[..., None], loud[..., None] * PARTS[:2], noise[..., None] * PARTS[2:]
    still = -power / noise - np.log(noise)                               # element, tone, case
    sent = still + log_i0(2 * np.sqrt(loud * power) / noise) - loud / noise
    likes = np.stack((sent[:, 0] + still[:, 1], still[:, 0] + sent[:, 1]))
    likes = np.exp(likes - likes.max((0, 2), keepdims=True))             # tone, element, case
    either = likes.sum(0) + 1e-30
    told = either / (either @ OFTEN)[:, None]                            # so the products stay in range
    before, behind = np.empty_like(told), np.empty_like(told)
    before[0], behind[-1] = OFTEN, 1
    for place in range(1, len(told)):
        before[place] = (before[place - 1] * told[place - 1]) @ MOVES
        behind[-1 - place] = MOVES @ (behind[-place] * told[-place])
    shares = before / before.sum(1, keepdims=True) * (behind / behind.sum(1, keepdims=True))
    likes = np.log((likes * shares).sum(2).T + 1e-300)
    shares = shares * either
    return likes, shares / shares.sum(1, keepdims=True)


def spoilt(models):
    """The likelihoods of 128 words where a sending may also be spoilt to any; behind them their
    mean."""
    top = models.max(-1, keepdims=True)
    parts = np.exp(models - top)
    mean = parts.mean(-1, keepdims=True)
    return np.concatenate((np.log((1 - SPOILT) * parts + SPOILT * mean), np.log(mean)), -1) + top


def pairs(dx, rx, exchanged):
    """The likelihood of each pair of DX and RX and, last, of an end, over that of any two words.
    Given are rows of `spoilt`."""
    turn = 127 if exchanged else 0
    both = dx[..., DX ^ turn] + rx[..., RX ^ turn] + PRIOR
    end = dx[..., P1 ^ turn] + rx[..., 128] + LAST
    return np.concatenate((both, end[..., None]), -1) - (dx[..., 128:] + rx[..., 128:])


def slope(turned):
    """The sum of c(i + m) c(i)*, m from 1 to 3, of which the angle is 4 pi T times the frequency
    that is left in c, the tones of a word turned back (Luise and Reggiannini 1995)."""
    return sum(np.sum(turned[..., m:] * turned[..., :WORD - m].conj(), -1) for m in (1, 2, 3))


class Store:
    """Rows by number, of which at least the last 1,200 are kept."""

    def __init__(self, *shape, dtype=float):
        self.rows = np.zeros((4096,) + shape, dtype)
        self.first, self.end = 0, 0

    def add(self, rows):
        if self.end - self.first + len(rows) > len(self.rows):
            drop = self.end - self.first - 1200
            self.rows[:1200] = self.rows[drop:drop + 1200]
            self.first += drop
        self.rows[self.end - self.first:self.end - self.first + len(rows)] = rows
        self.end += len(rows)

    def __getitem__(self, part):
        if isinstance(part, slice):
            return self.rows[max(0, part.start - self.first):part.stop - self.first:part.step]
        return self.rows[part - self.first]


class Sendings:
    """Takes the tones of elements and tells elements, 2.3 s behind. All is numbered by elements.

    Where sound is lost or doubled on its way, words jump: they are heard some elements earlier or
    later than those before. They are told in the slots of the words before all the same, so
    elements are put in or left out. A stretch of sound without a jump is (first, last, shift): what
    is told as element i is heard as element i + shift, from the first on and before the last.
    """

    def __init__(self, exchanged=False):
        self.exchanged = exchanged               # whether the lower tone is B
        self.lock = None                         # the place of DX words as told, from 0 to 13
        self.slot = None                         # that of the latest lock
        self.stretches = [(0, EVER, 0)]          # the one that is told, and the next one if known
        self.sure = self.unsure = 0              # words that were sure, and those not between them
        self.doubts = -np.inf                    # words not sure since the latest sure one of a lock
        self.jumps = 0                           # jumps met
        self.joined = {}                         # what speaks for each pair, where a jump may cut a word
        self.moved = -EVER                       # the latest element before which the clock jumped
        self.is_tuned = True                     # whether words that are found now count
        self.single = 0                          # how often a lock was refused for one tone alone
        self.middle = None                       # the middle by the phase of words, in a lock
        self.phasing = self.phases = 0           # pairs of phasing positions met; those in a row now
        self.tones = Store(2, dtype=complex)     # r of the upper and of the lower tone
        self.mixed_by = Store()                  # the frequency that they were mixed down by
        self.state = Store(2, 4)                 # of each tone A^2, A / N, A^2 / N, and its likelihood
        self.energies = Store()                  # the whole energy of the element
        self.levels = levels.Levels()
        self.leveled = Store(2, 4)               # as `state`, where levels and bursts are told
        self.words = Store(129)                  # the likelihood of each word that begins here: `spoilt`
        self.proof = Store(2)                    # that of a position that begins here; exchanged
        self.slopes = Store(2, dtype=complex)    # how the phase of its words grows; exchanged
        self.phasors = Store(2, 2, dtype=complex)  # the phase of DX, and of RX; exchanged
        self.out = Store(dtype=int)
        self.told = 0
        self.ways = np.zeros(WAYS)                  # what spoke of late for each way to see the phase
        self.header_place = headers.Place()      # whether a header may begin
        self.header = {}                         # the numbers of its words, by where they are told

    def hear(self, upper, lower, energies, middle):
        self.tones.add(np.array([upper, lower]).T)
        self.energies.add(energies)
        self.mixed_by.add(middle)
        self.hear_tones()
        self.hear_words()
        self.hear_positions()
        first = self.told
        while self.here + TURN * (ON + 1) + WORD + GAP < self.words.end:
            self.decide()
            self.told += 1
            if self.here + WORD > self.stretches[0][1]:
                self.stretches.pop(0)
        return self.out[first:self.told]

    @property
    def here(self):
        """The element of those heard that is told next."""
        return self.told + self.stretches[0][2]

    def hear_tones(self):
        """A^2 and N of each tone, by two rounds of expectation and maximisation over the elements
        near it (Dempster, Laird and Rubin 1977); then what each of the cases makes of them. Beside
        it what the levels make of it."""
        first, end = self.state.end, self.tones.end - BEHIND
        if end <= first:
            return
        begin = max(0, first - BEFORE)
        power = np.abs(self.tones[begin:end + BEHIND]) ** 2 + 1e-15
        rows = np.arange(first, end) - begin
        since, upto = np.maximum(rows - BEFORE, 0), rows + BEHIND + 1
        wide = np.clip(np.arange(len(power)) - rows[0], 0, len(rows) - 1)
        sent = np.clip(2 * power / power.sum(1, keepdims=True) - 0.5, 0.02, 0.98)
        for _ in range(2):
            sums = np.stack(((1 - sent) * power, 1 - sent, sent * power, sent))
            sums = np.cumsum(np.concatenate((np.zeros((4, 1, 2)), sums), 1), 1)
            still, silent, heard, often = sums[:, upto] - sums[:, since]
            noise = still / silent
            loud = np.maximum(heard / often - noise, 0.05 * noise)
            likes = likely(power, loud[wide], noise[wide])
            sent = part(likes - likes[:, ::-1])
        likes, shares = weighed(power, loud[wide], noise[wide])
        likes, shares = likes[rows], shares[rows]
        sizes = np.sqrt(loud) / noise * (shares @ (np.sqrt(PARTS[:2]) / PARTS[2:]).T)
        ratios = loud / noise * (shares @ (PARTS[:2] / PARTS[2:]).T)
        self.state.add(np.stack((loud, sizes, ratios, likes), 2))
        since = max(0, end - levels.LATELY)
        power = np.abs(self.tones[since:end + BEHIND]) ** 2 + 1e-15
        energy = np.maximum(self.energies[since:end + BEHIND], 0) + 1e-15
        self.leveled.add(self.levels.hear(power, energy, first - since, end - since))

    def hear_words(self):
        """The likelihood of each word: the sum of those of its elements, without their phase."""
        first, end = self.words.end, self.state.end - WORD + 1
        if end > first:
            likes = self.state[first:end + WORD - 1][:, :, 3]
            rows = np.lib.stride_tricks.sliding_window_view(likes, WORD, 0)   # place, tone, element
            self.words.add(spoilt(rows.reshape(len(rows), 2 * WORD) @ PICK))

    def hear_positions(self):
        """What speaks for a position at each place, and the phase of its likeliest words, and how
        it grows in them."""
        first, end = self.proof.end, self.words.end - GAP
        if end <= first:
            return
        proofs, slopes, phasors = [], [], []
        for turn in (0, 127):
            models = pairs(self.words[first:end], self.words[first + GAP:end + GAP], turn)
            proof, best = log_sum(models), models[:, :-1].argmax(1)
            share = np.exp(models.max(1) - proof)
            turned = self.turned(np.arange(first, end) + [[0], [GAP]], np.array([DX[best], RX[best]]) ^ turn)
            proofs.append(np.clip(proof, -4, 6))
            slopes.append(share * slope(turned).sum(0))
            phasors.append(share * 2 * turned.sum(-1))
        self.proof.add(np.array(proofs).T)
        self.slopes.add(np.array(slopes).T)
        self.phasors.add(np.array(phasors).transpose(2, 0, 1))

    def turned(self, places, words):
        """A / N times the tones of these words, turned back to the phase of their beginning."""
        places, tone = places[..., None] + np.arange(WORD), 1 - PATTERNS[words]
        sizes = self.state.rows[places - self.state.first, tone, 1]
        return sizes * self.tones.rows[places - self.tones.first, tone] * TURNED[words]

    def decide(self):
        """The element that is told next, and the words of a position that begins there."""
        if self.out.end <= self.told:
            upper, lower = np.abs(self.tones[self.here])
            self.out.add([int(self.is_tuned and (upper > lower) != self.exchanged)])
        if self.told % TURN == 0:
            self.seek(self.here)
        if self.lock is not None and self.told % TURN == self.lock:
            if len(self.stretches) == 1:
                self.find_jump(self.here)
            self.write(self.here)

    def seek(self, place):
        """The lock: the place in a turn, and the sideband, for which the positions near here speak.
        It is told in the slot of the lock before."""
        first, last, shift = self.stretches[0]
        back, on = min(BACK - 1, (place - first) // TURN), min(ON + 1, (last - place) // TURN)
        if back + on < ON // 2:
            return
        near = self.proof[place - TURN * back:place + TURN * on]
        scores = near.reshape(-1, TURN, 2).sum(0)
        best = np.unravel_index(scores.argmax(), scores.shape)
        here = -np.inf if self.lock is None else scores[self.lock, int(self.exchanged)]
        if scores[best] > max(LOCK, here + BETTER):
            loud = self.state[place - TURN * back:place + TURN * on][:, :, 0].mean(0)
            if not self.is_tuned or loud.min() < PAIR * loud.max():
                self.single += self.is_tuned
                return
            self.slot = int(best[0]) if self.slot is None else self.slot
            self.lock, self.exchanged, self.ways = self.slot, bool(best[1]), np.zeros(WAYS)
            self.doubts = -np.inf
            step = (int(best[0]) - self.slot + TURN // 2) % TURN - TURN // 2
            if step:
                self.go_on((first, EVER, shift + step))
        elif here < LOSE:
            self.lock, self.middle = None, None

    def forget(self, first):
        """What was heard before element `first` tells nothing of a lock."""
        self.lock, self.middle = None, None
        self.go_on((first, EVER, self.stretches[0][2]))

    def go_on(self, *stretches):
        """Goes on in these stretches. What was decided of a header ahead doesn't hold in them."""
        self.stretches, self.header = list(stretches), {}

    def find_jump(self, place):
        """Looks for a jump ahead: the last of the next positions speak for another place in a turn.
        It is taken shortly before a word of the position at `place` may be behind it: no sooner, so
        that more is heard of it, and no later, since `seek` would move the lock."""
        near = self.proof[place:place + TURN * ON][:, int(self.exchanged)].reshape(ON, TURN)
        gains = np.cumsum((near - near[:, :1])[::-1], 0).max(0)
        is_near = place - TURN <= self.moved <= place + TURN * ON
        if gains.max() < (MOVED if is_near else JUMP) or place < 2 * TURN + FARTHEST:
            return
        jumps = np.arange(place, place + TURN * ON)
        moved = np.where(np.abs(jumps - self.moved) <= BLIND, self.moved, jumps)
        ends, begins = np.minimum(jumps, moved), np.maximum(jumps + 1, moved)
        clear = gains > max(0, gains.max() - BETTER)
        tried = [self.jump(place, ends, begins, step)
                 for step in range(-FARTHEST, FARTHEST + 1) if clear[step % TURN]]
        total, models, step = max(tried, key=lambda one: log_sum(one[0]))
        if total.argmax() <= GAP + WORD + 2 * TURN:
            self.jumps += 1
            self.take(ends, begins, step, total - log_sum(total), models)

    def jump(self, place, ends, begins, step):
        """What speaks for each jump by `step` elements, and what speaks then for each pair of words
        of the positions from two before `place` on. Elements before its end are told as they are
        heard, those from its begin on `step` elements sooner. So each of them counts, and sound
        that is given twice counts twice. What is heard between counts for nothing."""
        first, slots = place - 2 * TURN, np.arange(2 * ON + 20)
        likes = self.state[first - FARTHEST:place + TURN * (ON + 1) + GAP][:, :, 3]
        likes = np.pad(likes - log_sum(likes)[:, None] + np.log(2), ((0, WORD * len(slots)), (0, 0)))
        rows = np.lib.stride_tricks.sliding_window_view(likes, WORD, 0)[FARTHEST + WORD * slots + [[0], [step]]]
        # The elements of a word before `upto` are heard before the jump, from `since` on behind it.
        upto, since = (np.clip(at[:, None] - first - WORD * slots, 0, WORD) for at in (ends, begins - step))
        cuts, which = np.unique(slots * 64 + upto * 8 + since, return_inverse=True)   # each is reckoned once
        slot, upto, since = cuts // 64, cuts // 8 % 8, cuts % 8
        is_told = np.array([np.arange(WORD) < upto[:, None], np.arange(WORD) >= since[:, None]])
        told = (rows[:, slot] * is_told[:, :, None]).sum(0)
        words = spoilt(told.reshape(-1, 2 * WORD) @ PICK)[which.reshape(len(ends), -1)]
        models = pairs(words[:, :-5:2], words[:, 5::2], self.exchanged)
        return log_sum(models).sum(1) + words[:, :, 128].sum(1), models, step

    def take(self, ends, begins, step, shares, models):
        """Goes on behind a jump, of which `shares` tells the probability of each place. Of positions
        of which a likely place cuts a word, `joined` has what all places together tell."""
        likely = np.flatnonzero(shares > np.log(RARE))
        first, _, shift = self.stretches[0]
        self.go_on((first, ends[likely[0]], shift), (begins[likely[-1]], EVER, shift + step))
        models = log_sum((models - log_sum(models)[..., None] + shares[:, None, None]).T).T
        self.joined = {told: model for told, model in zip(range(self.told - 2 * TURN, EVER, TURN), models)
                       if None in (self.heard(told), self.heard(told + GAP))}

    def heard(self, place):
        """Where the word that is told at `place` was heard in one piece, if it was."""
        for first, last, shift in self.stretches:
            if first <= place + shift and place + shift + WORD <= last:
                return place + shift
        return None

    def write(self, place):
        """The words of the position that begins here, in both places; where none is sure, 0."""
        off = self.off(place)
        ways = self.seen(self.told, off)
        shown = 0.95 * self.ways + log_sum(ways)
        self.ways = np.maximum(shown - shown.max(), -6)
        models = self.mixed(self.told, ways)
        best = models.argmax()
        is_sure = models[best] - log_sum(models) >= np.log(SURE)
        if best != PHASING or not is_sure:
            self.find_header(place)
        if self.told in self.header:
            best = self.header.pop(self.told)
            is_sure = best is not None
        dx, rx = ((P1, 0) if best == len(DX) else (DX[best], RX[best])) if is_sure else (0, 0)
        self.count(dx)
        self.header_place.hear(best if is_sure else None, best == PHASING)
        for begin, word in ((self.told, dx), (self.told + GAP, rx)):
            self.out.add(np.zeros(max(0, begin + WORD - self.out.end), int))
            self.out[begin:begin + WORD][:] = PATTERNS[word]

    def seen(self, told, off):
        """What speaks for each pair of words of the position that is told there, in six ways:
        without phase, with a phase that goes on through a word, and with one that goes on from the
        words beside it too; each by the cases near an element, and by the levels."""
        rows = np.zeros((WAYS, 2, 129))
        for is_rx, begin in enumerate((self.heard(told), self.heard(told + GAP))):
            if begin is not None:
                begun = np.array([0, self.carried(begin, is_rx, off)])
                rows[0, is_rx] = self.words[begin]
                rows[1:3, is_rx] = spoilt(self.with_phase(self.state, begin, off, begun))
                rows[3, is_rx] = spoilt(self.leveled[begin:begin + WORD][:, :, 3].T.reshape(-1) @ PICK)
                rows[4:, is_rx] = spoilt(self.with_phase(self.leveled, begin, off, begun))
        return pairs(rows[:, 0], rows[:, 1], self.exchanged)

    def mixed(self, told, ways):
        """These ways together, by what spoke for each of late. What a word tells that a jump may
        cut is added, as `joined` has it without phase."""
        models = log_sum((ways + self.ways[:, None]).T) - log_sum(self.ways)
        return models + self.joined[told] - ways[0] if told in self.joined else models

    def find_header(self, place):
        """Looks for a header that begins here, where one may."""
        if self.header or not self.header_place.is_open or len(self.stretches) > 1:
            return
        told = self.told + TURN * np.arange(len(headers.FORM))
        offs = [self.off_at(place + one - self.told) for one in told]
        models = np.array([self.mixed(one, self.seen(one, off)) for one, off in zip(told, offs)])
        words = headers.header(models, COMBINATION, SURE)
        if words is not None:
            self.header = dict(zip(told, words))

    def count(self, dx):
        """Counts a position: words that aren't sure count only between sure ones of a lock."""
        if not dx:
            self.doubts += 1
            return
        self.sure, self.unsure, self.doubts = self.sure + 1, self.unsure + max(0, self.doubts), 0
        self.phases = self.phases + 1 if dx == P2 else 0
        self.phasing += dx == P2 and self.phases % 2 == 0

    def off(self, place):
        """How far the middle is from where element `place` was mixed down, Hz."""
        first, last, _ = self.stretches[0]
        back = min(12, (place - max(first, self.slopes.first)) // TURN)
        begin, end = place - back * TURN, min(place + ON * TURN + 1, last)
        if begin >= end:
            return 0.0
        total = self.slopes[begin:end:TURN][:, int(self.exchanged)].sum()
        self.middle = self.mixed_by[begin:end:TURN].mean() + np.angle(total) / (4 * np.pi * T)
        return self.off_at(place)

    def off_at(self, place):
        return 0.0 if self.middle is None else self.middle - self.mixed_by[place]

    def carried(self, place, is_rx, off):
        """The phase in which a word begins at `place`, as the two words on each side tell it: by
        their likeliest words, and the less, the more words are in between."""
        first, last, _ = self.stretches[0]
        total = 0
        for words in (-2, -1, 1, 2):
            begin, of = place + words * WORD, (is_rx + words) % 2
            if first <= begin - of * GAP < self.phasors.end and begin + WORD <= last:
                phasor = self.phasors[begin - of * GAP][int(self.exchanged), of]
                turns = off * T * (WORD * words + 3) + (-ADDED if self.exchanged else ADDED) * words
                total += phasor * np.exp(-2j * np.pi * turns) / (1 + WANDER * abs(words) * np.abs(phasor))
        return total

    def with_phase(self, state, place, off, begun):
        """The likelihood of each word whose tones follow each other without a jump of phase:
        ln I0(|b + sum of 2 A r e^(-i phi) / N|) - ln I0(|b|) - sum of A^2 / N; phi grows by 0.85
        turns an element, and b is what is known of the phase in which the word begins: a row for
        each."""
        state = state[place:place + WORD]
        rows = 2 * state[:, :, 1] * self.tones[place:place + WORD]
        rows = rows * np.exp(-2j * np.pi * off * T * np.arange(WORD))[:, None]
        total = np.sum(np.where(PATTERNS, rows[:, 0], rows[:, 1]) * TURNED, 1)
        shown = log_i0(np.abs(total + begun[:, None])) - log_i0(np.abs(begun))[:, None]
        return shown - state[:, :, 2].T.reshape(-1) @ PICK
