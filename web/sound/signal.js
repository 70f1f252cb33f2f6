// A list of complex numbers: samples that have a phase.

import { joined, listOf } from './numbers.js';

export class Signal {
    constructor(real, imaginary) {
        this.real = real;
        this.imaginary = imaginary;
    }

    /** So many samples of silence. */
    static still(length) {
        return new Signal(new Float64Array(length), new Float64Array(length));
    }

    get length() {
        return this.real.length;
    }

    /** This signal, and another one behind it. */
    and(behind) {
        return new Signal(joined(this.real, behind.real), joined(this.imaginary, behind.imaginary));
    }

    /** The samples from `first` on and before `last`. */
    part(first, last = this.length) {
        return new Signal(this.real.slice(first, last), this.imaginary.slice(first, last));
    }

    /** How loud each sample is. */
    sizes() {
        return listOf(this.length, (place) => Math.hypot(this.real[place], this.imaginary[place]));
    }

    /** Each sample times a number of its own. */
    times(numbers) {
        return new Signal(
            listOf(this.length, (place) => this.real[place] * numbers[place]),
            listOf(this.length, (place) => this.imaginary[place] * numbers[place]),
        );
    }
}
