// What is heard of one sound: its elements, the text that they show, and rows for the waterfall. It
// runs beside the page, in a worker.
import { Demodulator } from '../demodulator.js';
import { judged } from '../sound/said.js';
import { Look } from '../hear/look.js';
import { Spectrum } from './spectrum.js';

const SILENCE = -100; // dB

// What the demodulator says to who runs it as a program, and what the page says in its place.
const SAID_HERE = [
    [/;? (?:or )?try --find$/, ''],
    [/, look at what the program before it says/, ''],
    [/^no sound came.*/, 'got no sound'],
    [/, where --centre names others: name (\d+), or none/, ': choose these, or look for the tones'],
];

/** Hears one sound. What it is told to do is in `tuning`: centre, search, exchanged. */
export class Hearing {
    #rate;
    #tuning;
    #demodulator;
    #spectrum;
    #look = new Look();
    #begun = 0; // seconds of sound before this demodulator
    heard = 0;  // seconds of sound

    /** `rows` are the rows of the waterfall in a second of sound. */
    constructor({ rate, tuning, rows }) {
        this.#rate = rate;
        this.#tuning = tuning;
        this.#spectrum = new Spectrum(rate, rows);
        this.#demodulator = this.#made();
    }

    /** Hears samples: the elements that are decided, each piece of them with its second in the sound,
     *  the text that they show, and rows of the waterfall. */
    push(samples) {
        this.heard += samples.length / this.#rate;
        const rows = this.#spectrum.push(samples);
        return { ...this.#told(this.#demodulator.push(samples)), rows, status: this.#status() };
    }

    /** What was still held back, at the end of the sound, and what was heard in words. */
    finish() {
        const told = this.#told(this.#demodulator.finish());
        return { ...told, rows: [], status: this.#status(), said: this.#said() };
    }

    /** Takes other tones from here on. */
    tune(tuning) {
        this.#tuning = tuning;
        this.#demodulator = this.#made();
        this.#begun = this.heard;
        this.#look = new Look();
    }

    #made() {
        return new Demodulator({ rate: this.#rate, ...this.#tuning });
    }

    #told(told) {
        return {
            told: told.map(({ moment, bits }) => ({ second: this.#begun + moment, bits })),
            text: told.map(({ bits }) => this.#look.push(bits)).join(''),
        };
    }

    #status() {
        const { middle, level, locked } = this.#demodulator.status();
        return { middle, level: Math.max(SILENCE, level), isLocked: locked };
    }

    #said() {
        const { receiver, level } = this.#demodulator;
        return SAID_HERE.reduce((text, [those, these]) => text.replace(those, these),
            judged(receiver, level.loudest, null));
    }
}
