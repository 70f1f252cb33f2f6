// What may happen near an element, and what each of the cases explains.

import { logBessel } from './likelihood.js';

const CHANGE = 0.03;       // how often another case begins at an element
const CASES = [            // how often; A² of the upper and the lower tone, N of both, as parts of those near
    [0.80, 1, 1, 1, 1],                                                               // as near it
    [0.02, 2.5, 2.5, 1, 1],                                                           // louder
    [0.04, 1 / 4, 1 / 4, 1, 1], [0.03, 1 / 16, 1 / 16, 1, 1], [0.04, 0, 0, 1, 1],     // in a fade
    [0.01, 1 / 4, 1, 1, 1], [0.01, 1, 1 / 4, 1, 1],                                   // one tone of them
    [0.005, 1 / 16, 1, 1, 1], [0.005, 1, 1 / 16, 1, 1],
    [0.02, 1, 1, 4, 4], [0.01, 1, 1, 16, 16], [0.005, 1, 1, 64, 64],                  // in a burst of noise
    [0.01, 1, 1, 8, 1], [0.01, 1, 1, 1, 8],                                           // at one tone
    [0.005, 1, 1, 64, 1], [0.005, 1, 1, 1, 64],
    [0.01, 1 / 4, 1 / 4, 1 / 4, 1 / 4], [0.01, 1 / 16, 1 / 16, 1 / 16, 1 / 16],       // with the gain down
    [0.01, 1 / 64, 1 / 64, 1 / 64, 1 / 64], [0.02, 0, 0, 1 / 64, 1 / 64],             // or in silence
];
const OFTEN_SUM = CASES.reduce((sum, [often]) => sum + often, 0);
const OFTEN = Float64Array.from(CASES, ([often]) => often / OFTEN_SUM);
const LOUD_PARTS = [1, 2].map((column) => Float64Array.from(CASES, (row) => row[column]));     // by tone
const NOISE_PARTS = [3, 4].map((column) => Float64Array.from(CASES, (row) => row[column]));
const SIZE_PARTS = [0, 1].map((tone) => Float64Array.from(CASES, (_, one) =>
    Math.sqrt(LOUD_PARTS[tone][one]) / NOISE_PARTS[tone][one]));
const RATIO_PARTS = [0, 1].map((tone) => Float64Array.from(CASES, (_, one) =>
    LOUD_PARTS[tone][one] / NOISE_PARTS[tone][one]));

/**
 * What each of CASES explains, by the passes of a hidden Markov model (Rabiner 1989). Each element
 * has `power`, the power of both tones in it, and A² and N as they are near it.
 */
export class Cases {
    constructor(power, loud, noise) {
        this.count = power.length / 2;
        this.likes = [new Float64Array(this.count * CASES.length), new Float64Array(this.count * CASES.length)];
        for (let element = 0; element < this.count; element++) {
            const pair = (values) => values.subarray(2 * element, 2 * element + 2);
            this.explain(element, pair(power), pair(loud), pair(noise));
        }
        this.either = this.likes[0].map((one, place) => one + this.likes[1][place] + 1e-30);
        this.shares = this.weigh();
    }

    /** The likelihood of each tone in each case, over that of the likeliest. */
    explain(element, power, loud, noise) {
        const first = element * CASES.length;
        const [upperLikes, lowerLikes] = this.likes;
        let top = -Infinity;
        for (let one = 0; one < CASES.length; one++) {
            const upperNoise = noise[0] * NOISE_PARTS[0][one];
            const lowerNoise = noise[1] * NOISE_PARTS[1][one];
            const still = stillness(power[0], upperNoise) + stillness(power[1], lowerNoise);
            const upper = still + evidence(power[0], loud[0] * LOUD_PARTS[0][one], upperNoise);
            const lower = still + evidence(power[1], loud[1] * LOUD_PARTS[1][one], lowerNoise);
            upperLikes[first + one] = upper;
            lowerLikes[first + one] = lower;
            top = Math.max(top, upper, lower);
        }
        for (let one = first; one < first + CASES.length; one++) {
            upperLikes[one] = Math.exp(upperLikes[one] - top);
            lowerLikes[one] = Math.exp(lowerLikes[one] - top);
        }
    }

    /** The probability of each case at each element, by what the other elements tell. */
    weigh() {
        const shares = new Float64Array(this.either.length);
        const before = OFTEN.slice();
        for (let first = 0; first < shares.length; first += CASES.length) {
            shares.set(before, first);
            this.pass(before, first);
        }
        const behind = new Float64Array(CASES.length).fill(1);
        for (let first = shares.length - CASES.length; first >= 0; first -= CASES.length) {
            for (let one = 0; one < CASES.length; one++) {
                shares[first + one] *= behind[one];
            }
            this.passBack(behind, first);
        }
        return shares;
    }

    /** The step on from an element to the next one. */
    pass(before, first) {
        let sum = 0;
        for (let one = 0; one < CASES.length; one++) {
            before[one] *= this.either[first + one];
            sum += before[one];
        }
        const kept = (1 - CHANGE) / sum;
        for (let one = 0; one < CASES.length; one++) {
            before[one] = before[one] * kept + CHANGE * OFTEN[one];
        }
    }

    /** The step back from an element to the one before. */
    passBack(behind, first) {
        let sum = 0;
        for (let one = 0; one < CASES.length; one++) {
            behind[one] *= this.either[first + one];
            sum += behind[one] * OFTEN[one];
        }
        const kept = (1 - CHANGE) / sum;
        for (let one = 0; one < CASES.length; one++) {
            behind[one] = behind[one] * kept + CHANGE;
        }
    }

    /** The likelihood of a tone at an element, up to a factor. Its case is told by the others. */
    likelihood(element, tone) {
        const first = element * CASES.length;
        let sum = 0;
        for (let one = first; one < first + CASES.length; one++) {
            sum += this.likes[tone][one] * this.shares[one];
        }
        return sum + 1e-300;
    }

    /** The mean parts of A / N and A² / N at an element, by the cases, of which it tells too. */
    parts(element, tone) {
        const first = element * CASES.length;
        let [all, size, ratio] = [0, 0, 0];
        for (let one = 0; one < CASES.length; one++) {
            const share = this.shares[first + one] * this.either[first + one];
            all += share;
            size += share * SIZE_PARTS[tone][one];
            ratio += share * RATIO_PARTS[tone][one];
        }
        return { size: size / all, ratio: ratio / all };
    }
}

/** The likelihood of a power where there is noise alone: Rayleigh. */
function stillness(power, noise) {
    return -power / noise - Math.log(noise);
}

/** How much likelier it is where the tone is sent: Rice over Rayleigh. */
function evidence(power, loud, noise) {
    return logBessel(2 * Math.sqrt(loud * power) / noise) - loud / noise;
}
