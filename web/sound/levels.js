// What an element tells beside statics: they pump the gain of the radio, which goes down at once and
// comes back slowly.

import { logBessel } from './likelihood.js';
import { inState, LOUD, RATIO, SENT, SIZE, STATE } from './loudness.js';
import { listOf, median, sum } from './numbers.js';

export const LATELY = 300;   // elements of which A and N are taken
const LOUDER = 0.95;         // so many of them have a weaker tone than A at the highest level
const FREEDOM = 6.4;         // D: the band of the filter over the rate of elements
const STEPS = 17;            // levels, in steps of 2 dB
const BURSTS = [0, 10 ** -1.5, 10 ** -2.1, 10 ** -2.7, 10 ** -3.3];   // what a burst adds to N, over A² of the highest
const RISES = 0.2;           // how often the level goes up by a step at an element
const BEGINS = 0.03;         // how often a burst begins
const ENDS = 0.3;            // and ends
const FALLS = 0.6;           // how often the level falls then, by any number of steps
const SAME = 0.5;            // how often a burst that goes on is as loud as before
const STATES = STEPS * BURSTS.length;   // level by level, and for each the bursts
const LOUD_PARTS = listOf(STATES, (state) => 10 ** (-0.2 * levelOf(state)));
const NOISE_PARTS = listOf(STATES, (state) => BURSTS[burstOf(state)]);
const MOVES = Array.from({ length: STATES }, (_, from) => movesFrom(from));

function levelOf(state) {
    return Math.floor(state / BURSTS.length);
}

function burstOf(state) {
    return state % BURSTS.length;
}

/** How often a state is followed by each. */
function movesFrom(from) {
    const [level, burst] = [levelOf(from), burstOf(from)];
    const row = listOf(STATES, (to) => {
        const slowly = slowMove(level, levelOf(to));
        const fall = levelOf(to) >= level ? 1 / (STEPS - level) : 0;
        const begun = (FALLS * fall + (1 - FALLS) * slowly) / (BURSTS.length - 1);
        if (burst === 0) {
            return burstOf(to) === 0 ? (1 - BEGINS) * slowly : BEGINS * begun;
        }
        const isSame = levelOf(to) === level && burstOf(to) === burst;
        return burstOf(to) === 0 ? ENDS * slowly : (1 - ENDS) * ((1 - SAME) * begun + (isSame ? SAME : 0));
    });
    const all = sum(row);
    return row.map((one) => one / all);
}

/** How often a level follows another one where it doesn't fall. */
function slowMove(level, to) {
    const rises = level > 0 ? RISES : 0;
    if (to === level) {
        return 1 - rises;
    }
    return to === level - 1 ? rises : 0;
}

/**
 * The states of elements by a hidden Markov model (Rabiner 1989) over the level of all that is
 * heard and over bursts of noise.
 *
 * Where an element has a tone, all else in it is noise. So its whole energy E, the mean of |x|²,
 * tells of the noise too: ln p = ln I0(2 A |r| / N) - A² / N - E / N - D ln N, where the noise in E
 * is D times N. A and N are those of the last seconds, at the level of the element; a burst adds to
 * N. Elements come in their order, and those behind them once more with the next ones.
 */
export class Levels {
    constructor() {
        this.before = new Float64Array(STATES).fill(1 / STATES);   // how probable each state is at the next element
    }

    /**
     * The states of the elements from `first` on and before `end`. Given are the power of both
     * tones, one behind the other, and E, of some elements.
     */
    hear(power, energy, first, end) {
        const parts = partsOf(power, energy);
        const elements = listOf(energy.length - first, (place) => first + place);
        const likes = Array.from(elements, (element) => likesOf(power, energy[element], element, parts));
        const either = likes.map(([upper, lower]) => upper.map((one, state) => one + lower[state] + 1e-30));
        const before = this.pass(either);
        const behind = passBack(either);
        const count = end - first;
        this.before = before[count];
        const states = new Float64Array(count * STATE);
        for (let place = 0; place < count; place++) {
            const shares = before[place].map((one, state) => one * behind[place][state]);
            states.set(stateOf(likes[place], either[place], shares, parts), STATE * place);
        }
        return states;
    }

    /** How probable each state is at each element, by those before it. */
    pass(either) {
        const before = [this.before];
        for (let place = 1; place < either.length; place++) {
            const row = new Float64Array(STATES);
            for (let from = 0; from < STATES; from++) {
                const part = before[place - 1][from] * either[place - 1][from];
                for (let to = 0; to < STATES; to++) {
                    row[to] += part * MOVES[from][to];
                }
            }
            before.push(normed(row));
        }
        return before;
    }
}

/** The same by those behind it, up to a factor. */
function passBack(either) {
    const behind = either.map(() => new Float64Array(STATES).fill(1));
    for (let place = either.length - 1; place > 0; place--) {
        const told = behind[place].map((one, state) => one * either[place][state]);
        behind[place - 1] = normed(listOf(STATES, (from) => {
            let all = 0;
            for (let to = 0; to < STATES; to++) {
                all += MOVES[from][to] * told[to];
            }
            return all;
        }));
    }
    return behind;
}

function normed(row) {
    const all = sum(row);
    return row.map((one) => one / all);
}

/** A² of the highest level, and A² and N of each state. */
function partsOf(power, energy) {
    const larger = listOf(energy.length, (element) => Math.max(power[2 * element], power[2 * element + 1]));
    const loud = larger.slice().sort()[Math.trunc(LOUDER * (larger.length - 1))];
    const rests = larger.map((one, element) =>
        Math.max(energy[element] - one, 0.001 * energy[element]) / (FREEDOM - 1) / one);
    const noise = loud * median(rests);
    return {
        loud,
        level: LOUD_PARTS.map((part) => loud * part),
        noise: listOf(STATES, (state) => noise * LOUD_PARTS[state] + loud * NOISE_PARTS[state] + 1e-15),
    };
}

/** How likely each tone is in each state at an element, over the likeliest. */
function likesOf(power, energy, element, { level, noise }) {
    const likes = [0, 1].map((tone) => listOf(STATES, (state) =>
        logBessel(2 * Math.sqrt(level[state] * power[2 * element + tone]) / noise[state])
        - (level[state] + energy) / noise[state] - FREEDOM * Math.log(noise[state])));
    const top = Math.max(...likes[0], ...likes[1]);
    return likes.map((row) => row.map((one) => Math.exp(one - top)));
}

/** The state of an element, by how probable each of the states is by the others. */
function stateOf(likes, either, shares, { loud, level, noise }) {
    const told = likes.map((row) => row.reduce((all, one, at) => all + one * shares[at], 1e-300));
    let [all, size, ratio] = [0, 0, 0];
    for (let state = 0; state < STATES; state++) {
        const share = shares[state] * either[state];
        all += share;
        size += share * Math.sqrt(level[state]) / noise[state];
        ratio += share * level[state] / noise[state];
    }
    const row = new Float64Array(STATE);
    for (const tone of [0, 1]) {
        row[inState(tone, LOUD)] = loud;
        row[inState(tone, SIZE)] = size / all;
        row[inState(tone, RATIO)] = ratio / all;
        row[inState(tone, SENT)] = told[tone] / (told[0] + told[1]);
    }
    return row;
}
