// Finds the middle of the two tones.

import { Fourier } from './fourier.js';
import { between, joined, listOf, mean, median } from './numbers.js';
import { SHIFT } from './rates.js';

const SPECTRUM_SECONDS = 0.2;   // seconds of sound that one spectrum is made of
const SPECTRA = 12;             // so many spectra are averaged
const APART = 2;                // Hz from one place that is looked at to the next
const LINE_WIDTH = 22;          // Hz, how wide a keyed tone is
const LINE_REACH = 12;          // frequencies on each side that it is smoothed by
const LOUDNESS_BAND = [200, 4000];   // Hz of which the mean power is 1

/**
 * The middle of two tones SHIFT apart, by the power of the sound at each frequency.
 *
 * Power is that of 0.2 s over its own mean, so that each piece counts alike; averaged over some
 * 2.5 s; smoothed by the width of a keyed tone. The score of a place is the lesser of the powers
 * half a SHIFT below and above it: a carrier alone has one of them.
 */
export class Middle {
    constructor(rate, first, last) {
        this.size = Math.trunc(rate * SPECTRUM_SECONDS);
        this.fourier = new Fourier(this.size);
        this.window = hannWindow(this.size);
        this.bin = rate / this.size;
        this.places = placesWithin(Math.max(first, SHIFT), Math.min(last, rate / 2 - SHIFT) + 1);
        this.line = lineOfTone(this.bin);
        this.power = new Float64Array((this.size >> 1) + 1).fill(1);
        this.smooth = smoothed(this.power, this.line);
        this.before = new Float64Array(0);
    }

    hear(samples) {
        this.before = joined(this.before, samples).slice(-this.size);
        if (this.before.length === this.size && this.before.some((sample) => sample !== 0)) {
            this.average(this.fourier.power(this.before.map((sample, place) => sample * this.window[place])));
            this.smooth = smoothed(this.power, this.line);
        }
    }

    /** Takes the power of a piece into the average; what is far above its median counts less. */
    average(power) {
        const lowest = Math.trunc(LOUDNESS_BAND[0] / this.bin);
        const highest = Math.trunc(Math.min(LOUDNESS_BAND[1] / this.bin, power.length));
        const loudness = mean(power, lowest, highest);
        const limit = 50 * (median(power) / loudness) + 20;
        for (let place = 0; place < power.length; place++) {
            this.power[place] += (Math.min(power[place] / loudness, limit) - this.power[place]) / SPECTRA;
        }
    }

    score(place) {
        const below = between(this.smooth, (place - SHIFT / 2) / this.bin);
        const above = between(this.smooth, (place + SHIFT / 2) / this.bin);
        return Math.min(below, above);
    }

    /** The score of each place. */
    scores() {
        return Float64Array.from(this.places, (place) => this.score(place));
    }

    /** The clearest place from `first` to `last`, and its score. */
    best(first = 0, last = Infinity) {
        let best = { place: first, score: -Infinity };
        for (const place of this.places) {
            if (place < first || place > last) {
                continue;
            }
            const score = this.score(place);
            if (score > best.score) {
                best = { place, score };
            }
        }
        return best;
    }
}

function hannWindow(size) {
    return listOf(size, (place) =>
        0.5 + 0.5 * Math.cos(Math.PI * (2 * place - size + 1) / (size - 1)));
}

function placesWithin(first, end) {
    const count = Math.max(0, Math.ceil((end - first) / APART));
    return listOf(count, (place) => first + place * APART);
}

/** How the power of a keyed tone lies around its frequency. */
function lineOfTone(bin) {
    const line = listOf(2 * LINE_REACH + 1, (place) =>
        Math.exp(-(((place - LINE_REACH) * bin / LINE_WIDTH) ** 2)));
    const sum = line.reduce((one, other) => one + other);
    return line.map((part) => part / sum);
}

function smoothed(power, line) {
    const smooth = new Float64Array(power.length);
    line.forEach((part, at) => {
        const off = at - LINE_REACH;
        const last = Math.min(power.length, power.length - off);
        for (let place = Math.max(0, -off); place < last; place++) {
            smooth[place] += power[place + off] * part;
        }
    });
    return smooth;
}
