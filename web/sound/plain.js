// The plain demodulator: each element is decided by itself, by the energy at the two tones.
//
// Where neither tone is as loud as of late, in a fade, an element is told as 0: of a word's four B
// some are then missing, so the word shows that it is damaged. Where elements begin is followed
// slowly, over some seconds and in proportion to what is heard, so that the count of elements goes
// on through a fade.

import { clip, joined, modulo, roundEven } from './numbers.js';

const PLAIN_BAUD = 100;       // elements a second
const PLAIN_REMEMBERED = 2;   // seconds over which beginnings and loudness are averaged
const PLAIN_STEP = 0.02;      // how far a beginning may move, as a part of an element
const FADED = 0.2;            // an element with less than this part of the energy of late isn't heard

/** The energy of one tone, over the element that ends at each sample. */
class Tone {
    constructor(rate, frequency) {
        this.width = roundEven(rate / PLAIN_BAUD);
        this.turn = -2 * Math.PI * frequency / rate;
        this.heard = 0;
        this.before = new Float64Array(this.width);
    }

    energies(samples) {
        const whole = joined(this.before, samples);
        const sums = this.sums(whole);
        const energies = new Float64Array(samples.length);
        for (let place = 0; place < samples.length; place++) {
            const real = sums.real[place + 1 + this.width] - sums.real[place + 1];
            const imaginary = sums.imaginary[place + 1 + this.width] - sums.imaginary[place + 1];
            energies[place] = real * real + imaginary * imaginary;
        }
        this.heard += samples.length;
        this.before = whole.slice(samples.length);
        return energies;
    }

    /** The sums of the first 0, 1, 2, .. samples, turned back by the tone. */
    sums(samples) {
        const real = new Float64Array(samples.length + 1);
        const imaginary = new Float64Array(samples.length + 1);
        for (let place = 0; place < samples.length; place++) {
            const angle = this.turn * (this.heard - this.width + place);
            real[place + 1] = real[place] + samples[place] * Math.cos(angle);
            imaginary[place + 1] = imaginary[place] + samples[place] * Math.sin(angle);
        }
        return { real, imaginary };
    }
}

/** Takes the energies of the tones sample by sample, and tells the elements. */
class Elements {
    constructor(rate) {
        this.length = rate / PLAIN_BAUD;
        this.forget = Math.exp(-1 / (PLAIN_REMEMBERED * rate));
        this.swing = { real: 0, imaginary: 0 };   // what the ends of elements show, as a point on a circle
        this.loud = 0;                            // the energy of the louder tone, of late
        this.heard = 0;                           // samples so far
        this.next = this.length;                  // where the next element ends
    }

    told(upper, lower) {
        this.remember(upper, lower);
        const end = -Math.atan2(this.swing.imaginary, this.swing.real) / (2 * Math.PI) * this.length;
        let bits = '';
        while (roundEven(this.next) < this.heard + upper.length) {
            const here = roundEven(this.next) - this.heard;
            bits += upper[here] > Math.max(lower[here], FADED * this.loud) ? '1' : '0';
            const louder = Math.max(upper[here], lower[here]);
            this.loud += (louder - this.loud) / (PLAIN_REMEMBERED * PLAIN_BAUD);
            const late = modulo(end - this.next + this.length / 2, this.length) - this.length / 2;
            this.next += this.length + clip(late / 8, -PLAIN_STEP * this.length, PLAIN_STEP * this.length);
        }
        this.heard += upper.length;
        return bits;
    }

    /** The difference of the tones is largest where an element ends. */
    remember(upper, lower) {
        let real = 0;
        let imaginary = 0;
        for (let place = 0; place < upper.length; place++) {
            const shown = Math.abs(upper[place] - lower[place]);
            const angle = -2 * Math.PI * (this.heard + place) / this.length;
            real += shown * Math.cos(angle);
            imaginary += shown * Math.sin(angle);
        }
        const kept = this.forget ** upper.length;
        this.swing = { real: this.swing.real * kept + real, imaginary: this.swing.imaginary * kept + imaginary };
    }
}

/** Takes samples, and tells elements at once. It knows no words, so it has no lock. */
export class Plain {
    constructor({ rate, centre, shift = 170, exchanged = false }) {
        const pair = [centre + shift / 2, centre - shift / 2];
        const [upper, lower] = exchanged ? pair.reverse() : pair;
        this.upper = new Tone(rate, upper);
        this.lower = new Tone(rate, lower);
        this.elements = new Elements(rate);
        this.rate = rate;
        this.middle = centre;
        this.exchanged = exchanged;
        this.told = 0;
    }

    /** When the first of the new elements was heard, in seconds of sound, and the elements. */
    hear(samples) {
        const moment = this.elements.heard / this.rate;
        const bits = this.elements.told(this.upper.energies(samples), this.lower.energies(samples));
        this.told += bits.length;
        return { moment, bits };
    }

    /** Nothing is held back. */
    end() {
        return { moment: this.elements.heard / this.rate, bits: '' };
    }
}
