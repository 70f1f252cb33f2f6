// A ring of samples between what captures sound and the demodulator: who captures never waits, and
// only the demodulator is late.

export class Ring {
    #samples;
    #first = 0; // where the oldest sample lies
    #count = 0;
    lost = 0;   // samples that found no room

    constructor(capacity) {
        this.#samples = new Float32Array(capacity);
    }

    get count() {
        return this.#count;
    }

    /** Takes samples; those that find no room are lost, and counted. */
    push(samples) {
        const capacity = this.#samples.length;
        const count = Math.min(samples.length, capacity - this.#count);
        const place = (this.#first + this.#count) % capacity;
        const straight = Math.min(count, capacity - place);
        this.#samples.set(samples.subarray(0, straight), place);
        this.#samples.set(samples.subarray(straight, count), 0);
        this.#count += count;
        this.lost += samples.length - count;
    }

    /** Gives the oldest samples, at most so many. */
    take(most) {
        const capacity = this.#samples.length;
        const count = Math.min(most, this.#count);
        const straight = Math.min(count, capacity - this.#first);
        const samples = new Float32Array(count);
        samples.set(this.#samples.subarray(this.#first, this.#first + straight));
        samples.set(this.#samples.subarray(0, count - straight), straight);
        this.#first = (this.#first + count) % capacity;
        this.#count -= count;
        return samples;
    }
}
