// The place at which elements begin, and the rate of the sender's clock, by the swings of pieces.

import { clip, listOf, placeOfGreatest } from './numbers.js';
import { AHEAD, PER } from './rates.js';

const CLOCK_MEMORY = 15;   // pieces that the clock remembers
const PAST = 45;           // pieces before which it has forgotten all
const CLOCK_STEP = 100;    // what a step of the clock has to explain: noise gives 80, half an element 450
const SHOWN = 150;         // a sum of swings so long isn't that of noise
const RATE_STEP = 0.01;    // turns from one rate that is tried to the next
const RATE_REACH = 48;     // rates on each side of none
const RATES = listOf(2 * RATE_REACH + 1, (place) => (place - RATE_REACH) * RATE_STEP);
const FOLLOWED = 0.24;     // turns that are followed: a clock that is 1.2 per cent too fast or too slow
const NEAR_RATE = 0.05;    // rates so near each other have a sum of much the same length
const SLOWLY = 8;          // of what a near rate is off, this part is followed with each piece

/**
 * The swings of the last pieces, and what their sum shows.
 *
 * Where the clock of the sender goes too fast or too slow the swing turns from piece to piece. So
 * swings are turned back by each of RATES, and the rate is followed for which their sum is longest.
 */
export class Swings {
    constructor() {
        this.coming = [];          // swings of the pieces that no element was taken of
        this.past = [];            // those before, since the place changed at once
        this.rate = 0;             // how far swings turn from piece to piece, in turns
        this.isOutside = false;    // whether it is farther than FOLLOWED
        this.isOther = false;      // whether it changed at once with the latest piece
    }

    add(swing) {
        this.coming.push(swing);
    }

    /** Whether a piece has as many behind it as the clock looks ahead. */
    get isEnough() {
        return this.coming.length > AHEAD;
    }

    /**
     * Where elements begin in the middle of the oldest piece, and whether the place changed at once
     * before it; then the swings before it are forgotten.
     */
    place() {
        this.isOther = false;
        const swings = this.weighed();
        const sums = sumsOf(this.turned(swings)).slice(this.past.length);
        const all = sums[sums.length - 1];
        const pairs = sums.slice(0, -1).map((sum) => sizeOf(sum) + sizeOf(minus(all, sum)));
        const lengths = listOf(RATES.length, (one) => lengthAt(swings, RATES[one]));
        const first = placeOfGreatest(pairs);
        const isStep = pairs[first] - Math.max(...lengths, sizeOf(all)) > CLOCK_STEP;
        let shown = all;
        if (isStep) {
            shown = first > 0 ? sums[first] : minus(all, sums[0]);
        } else {
            this.follow(lengths, sizeOf(all));
            shown = sumsOf(this.turned(swings)).pop();
        }
        this.past = isStep && first === 0 ? [] : this.past;
        this.past = [...this.past, this.coming.shift()].slice(-PAST);
        return { place: shownBy(shown), isStep: isStep && first === 0 };
    }

    /** The swings by their pieces, the oldest untold one being piece 0; those before it fade. */
    weighed() {
        return [...this.past, ...this.coming].map(({ real, imaginary }, at) => {
            const piece = at - this.past.length;
            const part = Math.exp(Math.min(piece, 0) / CLOCK_MEMORY);
            return { piece, real: real * part, imaginary: imaginary * part };
        });
    }

    /** These swings, turned back by the present rate. */
    turned(swings) {
        return swings.map((swing) => turnedBack(swing, this.rate));
    }

    /**
     * Follows the rate for which the sum of the swings is longest: at once where that explains much
     * more than the sum at the present rate, which is `here` long; else slowly.
     */
    follow(lengths, here) {
        const best = clip(placeOfGreatest(lengths), 1, RATES.length - 2);
        const [before, longest, behind] = lengths.subarray(best - 1, best + 2);
        const peak = (behind - before) / (2 * Math.abs(2 * longest - before - behind) + 1e-9);
        const rate = RATES[best] + clip(peak, -1, 1) * RATE_STEP;
        const isFar = longest > Math.max(SHOWN, here + CLOCK_STEP);
        this.isOutside = isFar && Math.abs(rate) > FOLLOWED;
        if (isFar && !this.isOutside) {
            this.rate = rate;
            this.isOther = true;
        } else if (longest > SHOWN && Math.abs(rate - this.rate) < NEAR_RATE) {
            this.rate += (rate - this.rate) / SLOWLY;
        }
    }
}

/** How long the sum of the swings is, turned back by a rate. */
function lengthAt(swings, rate) {
    const sum = { real: 0, imaginary: 0 };
    for (const swing of swings) {
        const { real, imaginary } = turnedBack(swing, rate);
        sum.real += real;
        sum.imaginary += imaginary;
    }
    return sizeOf(sum);
}

function turnedBack({ piece, real, imaginary }, rate) {
    const angle = -2 * Math.PI * rate * piece;
    const [cosine, sine] = [Math.cos(angle), Math.sin(angle)];
    return { real: real * cosine - imaginary * sine, imaginary: real * sine + imaginary * cosine };
}

/** The sums of the first 0, 1, 2, .. of these. */
function sumsOf(swings) {
    const sums = [{ real: 0, imaginary: 0 }];
    for (const { real, imaginary } of swings) {
        const last = sums[sums.length - 1];
        sums.push({ real: last.real + real, imaginary: last.imaginary + imaginary });
    }
    return sums;
}

function minus(one, other) {
    return { real: one.real - other.real, imaginary: one.imaginary - other.imaginary };
}

function sizeOf({ real, imaginary }) {
    return Math.hypot(real, imaginary);
}

/** Where elements begin, by a sum of swings. */
function shownBy({ real, imaginary }) {
    return -Math.atan2(imaginary, real) / (2 * Math.PI) * PER;
}
