// The loudness of each pitch, for the waterfall.
import { Fourier } from '../sound/fourier.js';

export const LOWEST = 300;   // Hz, what the waterfall shows
export const HIGHEST = 3500;
export const PITCHES = 640;  // pitches in a row
const WIDTH = 8;             // Hz of a place of the spectrum, at most
const LEAST = -100;          // dB

/** The pitch of a place of a row. */
export function pitchAt(place) {
    return LOWEST + ((HIGHEST - LOWEST) * place) / PITCHES;
}

export class Spectrum {
    #rate;
    #size;
    #step;
    #window;
    #fourier;
    #held;      // the newest samples, those of one spectrum
    #since = 0; // samples since the last spectrum

    /** `rows` are the rows that it gives in a second. */
    constructor(rate, rows) {
        this.#rate = rate;
        this.#size = 2 ** Math.ceil(Math.log2(rate / WIDTH));
        this.#step = Math.floor(rate / rows);
        this.#fourier = new Fourier(this.#size);
        this.#held = new Float64Array(this.#size);
        this.#window = Float64Array.from({ length: this.#size }, (_, at) =>
            (1 - Math.cos((2 * Math.PI * at) / this.#size)) * (2 / this.#size));
    }

    /** Hears samples: the rows that they give, each the loudness of the pitches in dB. */
    push(samples) {
        const rows = [];
        for (let from = 0; from < samples.length;) {
            const count = Math.min(samples.length - from, this.#step - this.#since, this.#size);
            this.#hold(samples.subarray(from, from + count));
            from += count;
            this.#since += count;
            if (this.#since === this.#step) {
                this.#since = 0;
                rows.push(this.#row());
            }
        }
        return rows;
    }

    #row() {
        const power = this.#fourier.power(this.#held.map((sample, at) => sample * this.#window[at]));
        return Float32Array.from({ length: PITCHES }, (_, place) => {
            const here = power[Math.round((pitchAt(place) * this.#size) / this.#rate)] ?? 0;
            return Math.max(LEAST, 10 * Math.log10(here + 1e-12));
        });
    }

    #hold(samples) {
        this.#held.copyWithin(0, samples.length);
        this.#held.set(samples, this.#size - samples.length);
    }
}
