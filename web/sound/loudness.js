// The loudness of both tones and the noise near each element, and what an element tells by them.

import { Cases } from './cases.js';
import { logBessel, probability } from './likelihood.js';
import { clip, listOf } from './numbers.js';

export const BEFORE = 50;      // elements before one that tell its loudness and noise
export const BEHIND = 20;      // elements behind it that do
export const STATE = 8;        // numbers that an element has: of each tone those that follow
export const LOUD = 0;         // A²
export const SIZE = 1;         // A / N
export const RATIO = 2;        // A² / N
export const SENT = 3;         // how probable it is by this element alone, before which both are alike
const ROUNDS = 2;              // rounds of expectation and maximisation
const LEAST_NOISE = 1e-16;     // behind sound that is far too loud, sums lose what silence adds to them

/** Where one of the numbers of a tone stands in the state of an element. */
export function inState(tone, number) {
    return 4 * tone + number;
}

/**
 * The states of the elements from `first` on, but the last BEHIND of `power`. That is the power of
 * both tones in elements, one behind the other.
 *
 * A² and N come by two rounds of expectation and maximisation over the elements near each one
 * (Dempster, Laird and Rubin 1977); then the cases are weighed.
 */
export function statesOf(power, first) {
    const near = new Near(power.length / 2, first);
    let sent = power.map((one, place) => clip(2 * one / (one + power[place ^ 1]) - 0.5, 0.02, 0.98));
    let [loud, noise] = [];
    for (let round = 0; round < ROUNDS; round++) {
        ({ loud, noise } = near.estimate(power, sent));
        sent = sentTones(power, near.wide(loud), near.wide(noise));
    }
    const cases = new Cases(power, near.wide(loud), near.wide(noise));
    const states = new Float64Array(near.count * STATE);
    for (let element = 0; element < near.count; element++) {
        const likelihoods = [0, 1].map((tone) => cases.likelihood(first + element, tone));
        for (const tone of [0, 1]) {
            const place = 2 * element + tone;
            const parts = cases.parts(first + element, tone);
            states.set([loud[place], Math.sqrt(loud[place]) / noise[place] * parts.size,
                loud[place] / noise[place] * parts.ratio, likelihoods[tone] / (likelihoods[0] + likelihoods[1])],
            STATE * element + inState(tone, 0));
        }
    }
    return states;
}

/** The probability of each tone at each element, by A² and N. */
function sentTones(power, loud, noise) {
    const likes = power.map((one, place) => likely(one, loud[place], noise[place]));
    return likes.map((one, place) => probability(one - likes[place ^ 1]));
}

/** ln I0(2 A |r| / N) - A² / N: Rice over Rayleigh. |r| is cut, for clicks; `power` is |r|². */
function likely(power, loud, noise) {
    const size = Math.min(Math.sqrt(power), 1.5 * Math.sqrt(loud) + 2 * Math.sqrt(noise));
    return logBessel(2 * Math.sqrt(loud) * size / noise) - loud / noise;
}

/** The elements near each of those from `first` on, but the last BEHIND of `all`. */
class Near {
    constructor(all, first) {
        this.all = all;
        this.first = first;
        this.count = all - BEHIND - first;
    }

    /** A² and N near each element, where `sent` is the probability of each tone. */
    estimate(power, sent) {
        const stillPower = this.sums(power.map((one, place) => (1 - sent[place]) * one));
        const still = this.sums(sent.map((one) => 1 - one));
        const sentPower = this.sums(power.map((one, place) => sent[place] * one));
        const times = this.sums(sent);
        const noise = stillPower.map((one, place) => Math.max(one / still[place], LEAST_NOISE));
        const loud = sentPower.map((one, place) => Math.max(one / times[place] - noise[place], 0.05 * noise[place]));
        return { loud, noise };
    }

    /** The sums of both columns over the elements near each one. */
    sums(values) {
        const sums = new Float64Array(values.length + 2);
        for (let place = 0; place < values.length; place++) {
            sums[place + 2] = sums[place] + values[place];
        }
        return listOf(2 * this.count, (place) => {
            const element = this.first + (place >> 1);
            const since = Math.max(element - BEFORE, 0);
            const upto = element + BEHIND + 1;
            return sums[2 * upto + place % 2] - sums[2 * since + place % 2];
        });
    }

    /** Values of the elements from `first` on, for all: those of the nearest one. */
    wide(values) {
        return listOf(2 * this.all, (place) => {
            const element = clip((place >> 1) - this.first, 0, this.count - 1);
            return values[2 * element + place % 2];
        });
    }
}
