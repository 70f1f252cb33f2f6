// The whole demodulator: samples in, elements out, some 3.6 s behind; and what it tells of itself.

import { Clock } from './clock.js';
import { Middle } from './middle.js';
import { Mixer } from './mixer.js';
import { clip, joined } from './numbers.js';
import { AHEAD, INNER_RATE, PIECE, pieceLength, SHIFT } from './rates.js';
import { Sendings } from './sendings.js';
import { Store } from './store.js';

const NEAR_CENTRE = 100;      // Hz on each side of a named centre in which the middle may be
const ASIDE = 400;            // Hz on each side in which two tones are seen, so that it can be told
export const SEARCHED = [300, 3500];   // Hz in which the middle is looked for where none is named
export const THERE = 2;       // the score at which two tones are there
const FAR = 25;               // the middle moves where another is so many Hz away
const CLEAR = 1.3;            // and so much clearer
const OTHER = 10;             // two tones that are so much clearer make words far beside them
const TUNED = 3;              // Hz that the middle may be off in a lock
const LEAP = 20;              // Hz that it moves at most in a lock
const STILL_BEHIND = 4.6;     // seconds of silence that bring out what is held back

/** Takes samples, and tells elements. */
export class Whole {
    constructor({ rate, centre, exchanged = false, search = false }) {
        this.reach = search ? SEARCHED : [centre - NEAR_CENTRE, centre + NEAR_CENTRE];
        this.rate = rate;
        this.middle = centre;
        this.spectrum = new Middle(rate, ...(search ? SEARCHED : [centre - ASIDE, centre + ASIDE]));
        this.mixer = new Mixer(rate);
        this.clock = new Clock();
        this.sendings = new Sendings(exchanged);
        this.begins = new Store(1);                 // where each element began, in samples at INNER_RATE
        this.samples = new Float64Array(0);         // those that don't fill a piece yet
        this.piece = pieceLength(rate);
        this.heard = 0;
        this.told = 0;
        this.locks = 0;
        this.outside = 0;                           // pieces of a sender whose clock can't be followed
        this.tone = 0;                              // the greatest score of two tones so far
        this.aside = { score: 0, place: 0 };        // how clear two tones out of reach were at most, and where
        this.wasLocked = false;
        this.place = centre;                        // the middle in the last lock
    }

    get locked() {
        return this.sendings.lock !== null;
    }

    get exchanged() {
        return this.sendings.exchanged;
    }

    get phasing() {
        return this.sendings.phasing;
    }

    get sure() {
        return this.sendings.sure;
    }

    get unsure() {
        return this.sendings.unsure;
    }

    get jumps() {
        return this.sendings.jumps;
    }

    /** How often a lock was refused for one tone alone. */
    get single() {
        return this.sendings.single;
    }

    /** When the first of the new elements was heard, in seconds of sound, and the elements. */
    hear(samples) {
        this.samples = joined(this.samples, samples);
        this.heard += samples.length;
        const told = { moment: 0, bits: '' };
        let used = 0;
        for (; used + this.piece <= this.samples.length; used += this.piece) {
            const { here } = this.sendings;
            const bits = this.hearPiece(this.samples.subarray(used, used + this.piece));
            if (bits && !told.bits) {
                told.moment = this.begins.get(here) / INNER_RATE;
            }
            told.bits += bits;
            this.told += bits.length;
        }
        this.samples = this.samples.slice(used);
        return told;
    }

    hearPiece(samples) {
        this.spectrum.hear(samples);
        this.follow();
        const elements = this.clock.hear(this.mixer.hear(samples, this.middle));
        if (this.clock.isMoved) {
            this.sendings.moved = this.begins.end;
        }
        if (this.clock.isOther) {                   // elements before it weren't counted rightly
            this.sendings.forget(this.begins.end);
        }
        this.outside += this.clock.isOutside ? 1 : 0;
        this.begins.add(elements.map(({ begin }) => begin));
        const bits = this.sendings.hear(elements, this.middle);
        this.locks += this.locked && !this.wasLocked ? 1 : 0;
        this.wasLocked = this.locked;
        this.place = this.locked ? this.middle : this.place;
        return bits;
    }

    /** The middle: in a lock by the phase of its words, else by the spectrum. */
    follow() {
        const { place, score } = this.spectrum.best(...this.reach);
        const here = this.spectrum.score(this.middle);
        this.tone = Math.max(this.tone, score);
        this.lookAside(here);
        if (this.locked) {
            this.followWords();
        } else if (Math.abs(place - this.middle) > FAR && score > CLEAR * here) {
            if (Math.abs(place - this.middle) > NEAR_CENTRE) {
                this.sendings.forget(this.begins.end + (AHEAD + 1) * PIECE);
            }
            this.middle = place;
        }
    }

    /**
     * Two tones out of reach that are clearer make words here too: on one tone where they are some
     * 170 Hz beside it, and by their keying where they are much clearer.
     */
    lookAside(here) {
        const clearest = this.spectrum.best();
        const isAside = clearest.score > Math.max(THERE, CLEAR * here)
            && Math.abs(clearest.place - clip(clearest.place, ...this.reach)) > FAR;
        const isBeside = Math.abs(clearest.place - this.middle) <= NEAR_CENTRE + SHIFT
            || clearest.score >= OTHER * here;
        this.sendings.isTuned = !(isAside && isBeside) && !this.clock.isOutside;
        if (isAside && clearest.score >= this.aside.score) {
            this.aside = clearest;
        }
    }

    followWords() {
        const told = this.sendings.middle;
        if (told !== null && Math.abs(told - this.middle) > TUNED) {
            this.middle += clip(told - this.middle, -LEAP, LEAP);
        }
    }

    /** The elements that were still held back. */
    end() {
        const { heard, told } = this;
        const { here } = this.sendings;
        const { moment, bits } = this.hear(new Float64Array(Math.trunc(STILL_BEHIND * this.rate)));
        const end = heard / this.rate * INNER_RATE;
        let whole = 0;
        while (here + whole < this.begins.end && this.begins.get(here + whole) < end) {
            whole += 1;
        }
        this.told = told + Math.min(whole, bits.length);
        return { moment, bits: bits.slice(0, whole) };
    }
}
