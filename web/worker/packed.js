// The frames of an MP3 file, which the browser decodes here, one by one.
import { framesIn } from '../hear/mp3.js';
import { takenOf } from '../hear/wave.js';

export class Packed {
    #form;
    #side;
    #decoder = null;
    #decoded = []; // samples that nobody took yet
    #moment = 0;   // microseconds of sound before the next frame
    #wake = () => {};

    /** `form` is what the browser's decoder is told of the sound. */
    constructor(form, side) {
        this.#form = form;
        this.#side = side;
    }

    /** The samples of bytes with whole frames, as far as they are decoded; the others come later. */
    async push(bytes) {
        const { sampleRate } = this.#form;
        for (const { at, length, samples } of framesIn(bytes, sampleRate)) {
            const data = bytes.subarray(at, at + length);
            this.#open().decode(new EncodedAudioChunk({ type: 'key', timestamp: this.#moment, data }));
            this.#moment += Math.round((1e6 * samples) / sampleRate);
        }
        while (this.#decoder !== null && this.#decoder.decodeQueueSize > 0) {
            await new Promise((resolve) => { this.#wake = resolve; });
        }
        return this.#taken();
    }

    /** The last samples. */
    async finish() {
        await this.#decoder?.flush().catch(() => {});
        return this.#taken();
    }

    /** The decoder; a new one behind a frame that it couldn't take. */
    #open() {
        if (this.#decoder !== null) return this.#decoder;
        this.#decoder = new AudioDecoder({
            output: (sound) => this.#take(sound),
            error: () => {
                this.#decoder = null;
                this.#wake();
            },
        });
        this.#decoder.ondequeue = () => this.#wake();
        this.#decoder.configure(this.#form);
        return this.#decoder;
    }

    #take(sound) {
        const [first, last] = takenOf(sound.numberOfChannels, this.#side);
        const samples = new Float32Array(sound.numberOfFrames);
        for (let planeIndex = first; planeIndex <= last; planeIndex++) {
            const side = new Float32Array(samples.length);
            sound.copyTo(side, { planeIndex, format: 'f32-planar' });
            for (let at = 0; at < samples.length; at++) samples[at] += side[at] / (last - first + 1);
        }
        sound.close();
        this.#decoded.push(samples);
    }

    #taken() {
        const all = new Float32Array(this.#decoded.reduce((sum, samples) => sum + samples.length, 0));
        let at = 0;
        for (const samples of this.#decoded.splice(0)) {
            all.set(samples, at);
            at += samples.length;
        }
        return all;
    }
}
