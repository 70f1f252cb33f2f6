// Where elements begin, and what each of the tones is in them.

import { between, clip, listOf, modulo } from './numbers.js';
import { AHEAD, INNER_RATE, PER, PIECE, SHIFT } from './rates.js';
import { Signal } from './signal.js';
import { Swings } from './swings.js';

const MOVED = 3;           // a change of place by so many samples shows a jump
const ROUND = 320;         // samples in which both tones, half a SHIFT off, make whole turns (17 of them)
const TONE_ANGLE = -Math.PI * SHIFT / INNER_RATE;
const TONE_COSINES = listOf(ROUND, (place) => Math.cos(TONE_ANGLE * place));
const TONE_SINES = listOf(ROUND, (place) => Math.sin(TONE_ANGLE * place));

/**
 * The clock of elements.
 *
 * E(t) is the energy of a tone over the 16 samples up to t. |E_B - E_Y| is largest where an element
 * ends, so the angle of the sum of |E_B - E_Y| e^(-2 pi i t / 16) tells the place (after Oerder and
 * Meyr 1988). Each piece has such a sum, its swing; they are added up over 3 s before and 1 s after,
 * at the rate of the sender's clock. Each element moves by what the rate tells, and by an eighth of
 * what it is late, at most 2 per cent of its length, so that the count of elements goes on where
 * nothing is heard. Where sound was lost or doubled the place changes at once: two sums, before a
 * piece and from it on, are then together much longer than that of all at any rate.
 */
export class Clock {
    constructor() {
        this.heard = Signal.still(0);   // samples at INNER_RATE that are still needed
        this.begin = 0;                 // number of the first of them
        this.seen = 0;                  // pieces whose swing is known
        this.swings = new Swings();
        this.loud = 0;
        this.next = 0;                  // where the next element begins
        this.isMoved = false;           // whether the place changed at once in the latest elements
        this.isOther = false;           // whether the rate did so
    }

    /** Whether the clock of the sender is too fast or too slow to be followed. */
    get isOutside() {
        return this.swings.isOutside;
    }

    /** The new elements of each piece: where they begin, in samples, both tones in them, and their energy. */
    hear(samples) {
        this.heard = this.heard.and(samples);
        const size = PER * PIECE;
        const told = [];
        this.isMoved = false;
        this.isOther = false;
        while ((this.seen + 1) * size + PER <= this.begin + this.heard.length) {
            this.swings.add(this.swing(this.seen * size));
            this.seen += 1;
            if (this.swings.isEnough) {
                told.push(...this.piece());
            }
        }
        return told;
    }

    /** The sum over one piece, from the end of its first element on. */
    swing(first) {
        const part = this.heard.part(first - this.begin, first - this.begin + PER * (PIECE + 1));
        const upper = energies(turnedSums(part, 0, 1));
        const lower = energies(turnedSums(part, 0, -1));
        let loud = 0;
        let real = 0;
        let imaginary = 0;
        for (let place = 0; place < upper.length; place++) {
            const shown = Math.abs(upper[place] - lower[place]);
            loud += (upper[place] + lower[place]) / upper.length;
            real += shown * Math.cos(2 * Math.PI * place / PER);
            imaginary -= shown * Math.sin(2 * Math.PI * place / PER);
        }
        this.loud += (loud - this.loud) / 5;
        const scale = Math.max(loud, this.loud) + 1e-30;
        return point(real / scale, imaginary / scale);
    }

    /** The elements of the oldest piece. */
    piece() {
        const begins = this.begins();
        const upper = this.tones(begins, 1);
        const lower = this.tones(begins, -1);
        const energy = this.energies(begins);
        const drop = Math.max(0, Math.trunc(this.next) - this.begin - 2 * PER);
        this.heard = this.heard.part(drop);
        this.begin += drop;
        return begins.map((begin, one) => ({ begin, upper: upper[one], lower: lower[one], energy: energy[one] }));
    }

    /** Where the elements of the oldest piece begin. */
    begins() {
        const limit = (this.seen - AHEAD) * PER * PIECE;
        const middle = limit - PER * PIECE / 2;
        const { place, isStep } = this.swings.place();
        const slip = -this.swings.rate * PER / PIECE;
        const late = () => modulo(place + slip * (this.next - middle) / PER - this.next + PER / 2, PER) - PER / 2;
        if (isStep) {
            const step = late();
            this.isMoved ||= Math.abs(step) >= MOVED;
            this.next += step;
        }
        this.isOther ||= this.swings.isOther;
        const begins = [];
        while (this.next < limit) {
            begins.push(this.next);
            this.next += PER + slip + clip(late() / 8, -0.02 * PER, 0.02 * PER);
        }
        return begins;
    }

    /**
     * The upper tone (sign 1) or the lower in each element: the mean of x e^(-2 pi i f t), t from
     * its beginning, between samples by straight lines.
     */
    tones(begins, sign) {
        const heard = this.heard.part(0, Math.trunc(this.next) + PER + 2 - this.begin);
        const sums = turnedSums(heard, this.begin, sign);
        return begins.map((begin) => {
            const first = begin - this.begin;
            const real = (between(sums.real, first + PER) - between(sums.real, first)) / PER;
            const imaginary = (between(sums.imaginary, first + PER) - between(sums.imaginary, first)) / PER;
            const cosine = Math.cos(TONE_ANGLE * begin);
            const sine = -sign * Math.sin(TONE_ANGLE * begin);
            return point(real * cosine - imaginary * sine, real * sine + imaginary * cosine);
        });
    }

    /** The mean of |x|^2 over each element. */
    energies(begins) {
        const { real, imaginary } = this.heard;
        const sums = new Float64Array(this.heard.length + 1);
        for (let place = 0; place < this.heard.length; place++) {
            sums[place + 1] = sums[place] + real[place] ** 2 + imaginary[place] ** 2;
        }
        return begins.map((begin) =>
            (between(sums, begin - this.begin + PER) - between(sums, begin - this.begin)) / PER);
    }
}

/** The sums of the first 0, 1, 2, .. samples, turned back by a tone. `begin` numbers the first. */
function turnedSums(signal, begin, sign) {
    const sums = Signal.still(signal.length + 1);
    for (let place = 0; place < signal.length; place++) {
        const cosine = TONE_COSINES[(begin + place) % ROUND];
        const sine = sign * TONE_SINES[(begin + place) % ROUND];
        const real = signal.real[place];
        const imaginary = signal.imaginary[place];
        sums.real[place + 1] = sums.real[place] + real * cosine - imaginary * sine;
        sums.imaginary[place + 1] = sums.imaginary[place] + real * sine + imaginary * cosine;
    }
    return sums;
}

/** The energy over each 16 samples. */
function energies(sums) {
    const count = sums.length - 1 - PER;
    return listOf(count, (place) =>
        (sums.real[place + PER] - sums.real[place]) ** 2 + (sums.imaginary[place + PER] - sums.imaginary[place]) ** 2);
}

function point(real, imaginary) {
    return { real, imaginary };
}
