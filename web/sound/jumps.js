// Where sound was lost or doubled on its way: words go on some elements earlier or later.

import { logSum } from './likelihood.js';
import { inState, SENT } from './loudness.js';
import { clip, listOf, modulo, placeOfGreatest, sum } from './numbers.js';
import { GAP, pairs, PAIRS, WORD, wordsByElements } from './words.js';

export const TURN = 14;                      // elements of two slots
export const ON = 10;                        // positions behind one that are looked at
const FARTHEST = 30;                         // elements that words jump at most
const JUMP = 14;                             // evidence for a jump
const MOVED = 7;                             // evidence where the clock jumped too
const BETTER = 8;                            // a place in a turn with so much less evidence isn't tried
const BLIND = 20;                            // elements that tell nothing at most, where the clock jumped
const RARE = 0.001;                          // places of a jump that are less likely cut no words
const BEFORE = 2;                            // positions before one that are weighed too
const APART = GAP / WORD;                    // slots from a word to its second sending
const SLOTS = 2 * ON + 20;                   // slots that are weighed
const POSITIONS = (SLOTS - APART + 1) / 2;   // positions in them

/**
 * The jump behind `place`, where the last of the next positions speak for another place in a turn;
 * else null. It is found shortly before a word of the position at `place` may be behind it: no
 * sooner, so that more is heard of it, and no later, since the lock would move.
 *
 * - `state`: the elements.
 * - `proof(at)`: what speaks for a position at a place.
 * - `moved`: the latest element before which the clock jumped.
 *
 * Told are `step`, how many elements later words go on; `end`, before which they are heard whole;
 * `begin`, from which on they are again; and `models`: how likely each pair of words of the
 * positions from `place` on is.
 */
export function findJump(state, proof, { place, moved, isExchanged }) {
    const gains = gainsOfTurns(proof, place);
    const most = Math.max(...gains);
    const hasMoved = place - TURN <= moved && moved <= place + TURN * ON;
    if (most < (hasMoved ? MOVED : JUMP) || place < BEFORE * TURN + FARTHEST) {
        return null;
    }
    const heard = new Heard(state, place);
    const cuts = cutsBehind(place, moved);
    let best = { likelihood: -Infinity };
    for (let step = -FARTHEST; step <= FARTHEST; step++) {
        if (gains[modulo(step, TURN)] > Math.max(0, most - BETTER)) {
            const one = new Jump(heard, cuts, step, isExchanged);
            best = one.likelihood > best.likelihood ? one : best;
        }
    }
    return best.isNear() ? best.found() : null;
}

/** By how much more the last positions speak for each place in a turn than for this one. */
function gainsOfTurns(proof, place) {
    const sums = new Float64Array(TURN);
    const gains = new Float64Array(TURN).fill(-Infinity);
    for (let position = ON - 1; position >= 0; position--) {
        const first = place + position * TURN;
        for (let turn = 0; turn < TURN; turn++) {
            sums[turn] += proof(first + turn) - proof(first);
            gains[turn] = Math.max(gains[turn], sums[turn]);
        }
    }
    return gains;
}

/**
 * The places at which a jump may be: elements are heard before its end, and from its begin on.
 * Where the clock jumped near it, what is heard between both tells nothing.
 */
function cutsBehind(place, moved) {
    return Array.from({ length: TURN * ON }, (_, element) => {
        const jump = place + element;
        const other = Math.abs(jump - moved) <= BLIND ? moved : jump;
        return { end: Math.min(jump, other), begin: Math.max(jump + 1, other) };
    });
}

/** What is heard near a place. */
class Heard {
    constructor(state, place) {
        this.state = state;
        this.first = place - BEFORE * TURN;         // where the first slot begins
        this.end = place + TURN * (ON + 1) + GAP;   // behind it nothing was heard yet
    }

    /** How probable a tone is in an element. */
    sent(element, tone) {
        return element < this.end ? this.state.get(element, inState(tone, SENT)) : 0.5;
    }

    /** How probable a tone is in both of two elements. */
    sentTwice(one, other, tone) {
        return this.sent(one, tone) * this.sent(other, tone);
    }

    /** How probable it is that two elements are the same. */
    areSame(one, other) {
        return this.sentTwice(one, other, 0) + this.sentTwice(one, other, 1);
    }
}

/**
 * A jump by `step` elements, at each of the places that are given.
 *
 * Elements before its end are told as they are heard, those from its begin on `step` elements
 * sooner. So each of them counts, and sound that is given twice counts twice. What is heard between
 * counts for nothing.
 */
class Jump {
    constructor(heard, cuts, step, isExchanged) {
        this.heard = heard;
        this.cuts = cuts;
        this.step = step;
        this.isExchanged = isExchanged;
        const words = Array.from({ length: SLOTS }, (_, slot) => this.words(heard.first + WORD * slot));
        this.positions = Array.from({ length: POSITIONS }, (_, position) =>
            this.position(words[2 * position], words[2 * position + APART]));
        this.same = this.sameElements();
        this.totals = listOf(cuts.length, (place) => this.total(place));
        this.likelihood = logSum(this.totals);
    }

    /** How likely each word is in the slot from `first` on, for each place of the jump. */
    words(first) {
        const words = [];
        let [lastUpto, lastSince] = [];
        for (let place = 0; place < this.cuts.length; place++) {
            const upto = clip(this.cuts[place].end - first, 0, WORD);
            const since = clip(this.cuts[place].begin - this.step - first, 0, WORD);
            const isAsBefore = upto === lastUpto && since === lastSince;
            words.push(isAsBefore ? words[place - 1] : this.cutWords(first, upto, since));
            [lastUpto, lastSince] = [upto, since];
        }
        return words;
    }

    /** The same, where elements are heard before the jump up to one, behind it since another. */
    cutWords(first, upto, since) {
        const { heard, step } = this;
        return wordsByElements((element, tone) => {
            const told = first + element;
            if (element >= upto) {
                return element >= since ? heard.sent(told + step, tone) : 0.5;
            }
            return element >= since
                ? heard.sentTwice(told, told + step, tone) / heard.areSame(told, told + step)
                : heard.sent(told, tone);
        });
    }

    /** How likely each pair of words of a position is, and what speaks for all, for each place. */
    position(sent, again) {
        const position = [];
        for (let place = 0; place < this.cuts.length; place++) {
            if (place > 0 && sent[place] === sent[place - 1] && again[place] === again[place - 1]) {
                position.push(position[place - 1]);
            } else {
                const models = pairs(sent[place], again[place], this.isExchanged);
                const all = sum(models);
                position.push({ models, all, proof: Math.log(all) });
            }
        }
        return position;
    }

    /** What speaks for the first 0, 1, 2, .. elements being the same as `step` elements later. */
    sameElements() {
        const same = [0];
        for (let place = 0; place < TURN * (BEFORE + ON); place++) {
            const told = this.heard.first + place;
            same.push(same[place] + Math.log(2 * this.heard.areSame(told, told + this.step)));
        }
        return same;
    }

    /** What speaks for the jump at a place. */
    total(place) {
        const { end, begin } = this.cuts[place];
        const upto = end - this.heard.first;
        const since = clip(begin - this.step - this.heard.first, 0, upto);
        return this.positions.reduce((total, position) => total + position[place].proof,
            this.same[upto] - this.same[since]);
    }

    /** Whether a word of the position at the place, or of the next two, may be behind it. */
    isNear() {
        return placeOfGreatest(this.totals) <= GAP + WORD + 2 * TURN;
    }

    found() {
        const shares = this.totals.map((total) => Math.exp(total - this.likelihood));
        const likely = this.cuts.filter((_, place) => shares[place] > RARE);
        return {
            step: this.step,
            end: likely[0].end,
            begin: likely[likely.length - 1].begin,
            models: this.positions.slice(BEFORE).map((position) => joined(position, shares)),
        };
    }
}

/** What all places of a jump together tell of a position, each as far as it is probable. */
function joined(position, shares) {
    return listOf(PAIRS, (pair) =>
        position.reduce((total, { models, all }, place) => total + models[pair] / all * shares[place], 0));
}
