// The demodulator of the page: samples in, elements out. It is that of examples/sound, whose README
// says how it decides, and gives the same elements. Nothing of it is proved or promised.
//
//     const demodulator = new Demodulator({ rate: 48000 });
//     for (const { moment, bits } of demodulator.push(samples)) { .. }
//     for (const { moment, bits } of demodulator.finish()) { .. }
//     demodulator.heard();   // "heard NAVTEX"
//
// What stands in examples/sound is here:
// - elements: this file, and sound/said.js
// - demodulator.py: sound/whole.js, sound/find.js
// - receive.py: sound/rates.js, sound/middle.js, sound/mixer.js, sound/clock.js,
//   sound/swings.js
// - sendings.py: sound/sendings.js, and what it needs: sound/loudness.js, sound/cases.js,
//   sound/words.js, sound/phase.js, sound/carried.js, sound/ways.js, sound/jumps.js, sound/store.js
// - headers.py, levels.py, likelihood.py: sound/headers.js, sound/levels.js, sound/likelihood.js
// - plain.py: sound/plain.js

import { otherRate } from './sound/find.js';
import { mean } from './sound/numbers.js';
import { Plain } from './sound/plain.js';
import { pieceLength } from './sound/rates.js';
import { judged, QUIET, statusLine } from './sound/said.js';
import { Whole } from './sound/whole.js';

const LEAST_SAMPLES = 6000;      // samples a second
const MOST_SAMPLES = 192000;
const EDGE = 185;                // Hz that the middle is away from 0 and from half the rate, at least
const USUAL_CENTRE = 1000;       // Hz
const KEPT_SAMPLES = 2000000;    // samples that are kept until words are heard, so that another rate can be tried
const LEVEL_PIECES = 50;         // pieces over which the level is averaged

/**
 * Takes samples, piece by piece as they come, and tells the elements that are decided.
 *
 * - `rate`: samples a second.
 * - `centre`: the middle of the tones, which is looked for within 100 Hz of it. Where none is named
 *   it is looked for from 300 to 3500 Hz.
 * - `search`: it is looked for everywhere, from `centre` on.
 * - `exchanged`: the lower tone is B, until the first lock, which finds it.
 * - `plain`: each element is decided by itself, at the pitch and sideband that are named, without
 *   delay.
 */
export class Demodulator {
    constructor({ rate, centre, search = centre === undefined, exchanged = false, plain = false }) {
        const named = centre ?? USUAL_CENTRE;
        refuseOutOfRange(rate, named);
        this.rate = rate;
        this.isPlain = plain;
        this.receiver = plain
            ? new Plain({ rate, centre: named, exchanged })
            : new Whole({ rate, centre: named, search, exchanged });
        this.piece = new Float64Array(pieceLength(rate));
        this.filled = 0;                      // samples of the piece so far
        this.level = new Level();
        this.kept = [];                       // pieces, until phasing is met
    }

    /**
     * Takes samples from -1 to 1, as many as there are. Tells the new elements: when the first of
     * them was heard, in seconds of sound, and their bits.
     */
    push(samples) {
        const told = [];
        for (let from = 0; from < samples.length;) {
            const count = Math.min(samples.length - from, this.piece.length - this.filled);
            this.piece.set(samples.subarray(from, from + count).map(numberOrStill), this.filled);
            this.filled += count;
            from += count;
            if (this.filled === this.piece.length) {
                told.push(this.hear(this.piece));
                this.filled = 0;
            }
        }
        return told.filter(({ bits }) => bits);
    }

    /** The sound is at its end: tells the elements that were still held back. */
    finish() {
        const told = this.filled ? [this.hear(this.piece.subarray(0, this.filled))] : [];
        this.filled = 0;
        return [...told, this.receiver.end()].filter(({ bits }) => bits);
    }

    hear(samples) {
        this.level.hear(samples);
        const told = this.receiver.hear(samples);
        this.keep(samples);
        return told;
    }

    /** Keeps the last samples until phasing is met. */
    keep(samples) {
        if (this.isPlain || this.receiver.phasing) {
            this.kept = [];
            return;
        }
        this.kept.push(Float32Array.from(samples));
        if (this.kept.length > Math.ceil(KEPT_SAMPLES / this.piece.length)) {
            this.kept.shift();
        }
    }

    /** How loud, where, and what was found. */
    status() {
        const { middle, exchanged, locked = false, told } = this.receiver;
        const { phasing = 0, locks = 0, sure = 0, unsure = 0, jumps = 0, single = 0 } = this.receiver;
        return {
            seconds: this.level.samples / this.rate,
            level: this.level.decibels(),
            middle, sideband: exchanged ? 'lower' : 'upper', locked, told, phasing, locks, sure, unsure, jumps, single,
        };
    }

    /** The status as a line of text. */
    line() {
        return statusLine(this.status());
    }

    /**
     * What was heard so far, in words. Where no phasing was met other rates are tried, which takes
     * some seconds; not so where `isRateSure`.
     */
    heard({ isRateSure = false } = {}) {
        if (this.isPlain) {
            return '';
        }
        const isTried = !isRateSure && this.kept.length > 0 && this.level.loudest >= QUIET ** 2;
        const other = isTried ? otherRate(this.keptSamples(), this.rate) : null;
        return judged(this.receiver, this.level.loudest, other);
    }

    keptSamples() {
        const samples = new Float32Array(this.kept.reduce((sum, piece) => sum + piece.length, 0));
        let place = 0;
        for (const piece of this.kept) {
            samples.set(piece, place);
            place += piece.length;
        }
        return samples;
    }
}

/** How loud the sound is, of late and at most. */
class Level {
    constructor() {
        this.samples = 0;
        this.power = 0;
        this.loudest = 0;
    }

    hear(samples) {
        const power = mean(samples.map((sample) => sample * sample));
        this.samples += samples.length;
        this.power += (power - this.power) / Math.min(this.samples / samples.length, LEVEL_PIECES);
        this.loudest = Math.max(this.loudest, power);
    }

    /** Of a tone as loud as the full scale. */
    decibels() {
        return 10 * Math.log10(2 * this.power + 1e-12);
    }
}

/** A sample; what is no number, as a damaged recording may have it, is silence. */
function numberOrStill(sample) {
    return Number.isFinite(sample) ? sample : 0;
}

function refuseOutOfRange(rate, centre) {
    if (!(rate >= LEAST_SAMPLES && rate <= MOST_SAMPLES)) {
        throw new RangeError(`the rate must be from ${LEAST_SAMPLES} to ${MOST_SAMPLES} samples a second`);
    }
    const highest = rate / 2 - EDGE;
    if (!(centre >= EDGE && centre <= highest)) {
        throw new RangeError(`the centre must be from ${EDGE} to ${highest.toFixed(0)} Hz at this rate`);
    }
}
