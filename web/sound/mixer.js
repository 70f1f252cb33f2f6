// Samples at any rate, mixed down by a frequency that may change, at 16 samples an element.

import { listOf, median, roundEven } from './numbers.js';
import { INNER_RATE } from './rates.js';
import { Signal } from './signal.js';

const LEAST_RATE = 6000;        // samples a second that are left where samples are averaged first
const FILTER_BAND = 320;        // Hz on each side of the middle that pass the filter
const LOUDEST = 3.5;            // what is so many times as loud as the median of its piece is made softer
const KEPT_WEIGHTS = 4096;      // filters that are kept, one for each place between two samples

export class Mixer {
    constructor(rate) {
        this.whole = rate;
        this.fold = Math.max(1, Math.trunc(rate / LEAST_RATE));   // so many samples are averaged to one
        this.rate = rate / this.fold;
        this.turn = 0;                                            // where the oscillator stands, in turns
        this.rest = Signal.still(0);                              // samples that don't fill a fold yet
        this.half = Math.trunc(1.5 * this.rate / FILTER_BAND);    // half the length of the filter
        this.held = Signal.still(this.half);                      // samples that the filter still needs
        this.begin = -this.half;                                  // number of the first of them
        this.made = 0;                                            // samples made so far
        this.weights = new Map();                                 // the filters, by their place
    }

    /** The new samples at INNER_RATE. */
    hear(samples, middle) {
        const mixed = this.rest.and(this.mixed(samples, middle));
        const count = Math.floor(mixed.length / this.fold);
        this.rest = mixed.part(count * this.fold);
        return this.filtered(limited(folded(mixed, count, this.fold)));
    }

    /** The samples turned back by the middle. */
    mixed(samples, middle) {
        const mixed = Signal.still(samples.length);
        const step = middle / this.whole;
        for (let place = 0; place < samples.length; place++) {
            const angle = -2 * Math.PI * (this.turn + step * (place + 1));
            mixed.real[place] = samples[place] * Math.cos(angle);
            mixed.imaginary[place] = samples[place] * Math.sin(angle);
        }
        this.turn = (this.turn + step * samples.length) % 1;
        return mixed;
    }

    /** Low pass by a sinc of FILTER_BAND Hz in a Hann window, at each moment that it reaches. */
    filtered(piece) {
        this.held = this.held.and(piece);
        const step = this.rate / INNER_RATE;
        const last = Math.trunc((this.begin + this.held.length - 1 - this.half) / step);
        const made = Signal.still(Math.max(0, last - this.made));
        for (let place = 0; place < made.length; place++) {
            this.filter((this.made + place) * step - this.begin, made, place);
        }
        if (made.length) {
            this.made += made.length;
            const drop = Math.max(0, Math.trunc(this.made * step - this.begin) - this.half - 2);
            this.held = this.held.part(drop);
            this.begin += drop;
        }
        return made;
    }

    /** One sample behind the filter: what the held samples are at this moment. */
    filter(moment, made, place) {
        const nearest = roundEven(moment);
        const weights = this.weightsFor(roundEven((nearest - moment) * 1e9) / 1e9);
        const first = nearest - this.half;
        let real = 0;
        let imaginary = 0;
        for (let at = 0; at < weights.length; at++) {
            real += weights[at] * this.held.real[first + at];
            imaginary += weights[at] * this.held.imaginary[first + at];
        }
        made.real[place] = real;
        made.imaginary[place] = imaginary;
    }

    /** The filter where the nearest sample is so far behind the moment, in samples. */
    weightsFor(late) {
        let weights = this.weights.get(late);
        if (!weights) {
            weights = filterWeights(late, this.half, 2 * FILTER_BAND / this.rate);
            if (this.weights.size >= KEPT_WEIGHTS) {
                this.weights.clear();
            }
            this.weights.set(late, weights);
        }
        return weights;
    }
}

/** The mean of each so many samples. */
function folded(mixed, count, fold) {
    const piece = Signal.still(count);
    for (let place = 0; place < count; place++) {
        for (let at = place * fold; at < (place + 1) * fold; at++) {
            piece.real[place] += mixed.real[at];
            piece.imaginary[place] += mixed.imaginary[at];
        }
        piece.real[place] /= fold;
        piece.imaginary[place] /= fold;
    }
    return piece;
}

/**
 * The piece without its clicks: a sample that is louder than LOUDEST times the median comes out as
 * many times softer than that. What lasts, as a voice, is left for the filter.
 */
function limited(piece) {
    const sizes = piece.sizes();
    const limit = LOUDEST * median(sizes);
    if (!(limit > 0)) {
        return piece;
    }
    return piece.times(listOf(piece.length, (place) => {
        const part = limit / Math.max(sizes[place], limit);
        return part * part;
    }));
}

function filterWeights(late, half, band) {
    return listOf(2 * half + 1, (place) => {
        const away = late + (place - half);
        return sinc(band * away) * (0.5 + 0.5 * Math.cos(Math.PI * away / (half + 1))) * band;
    });
}

function sinc(x) {
    return x === 0 ? 1 : Math.sin(Math.PI * x) / (Math.PI * x);
}
