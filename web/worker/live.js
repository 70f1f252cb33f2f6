// Live sound within the worker: it waits in a ring, so only the demodulator is ever late.
import { Hearing } from './hearing.js';
import { Ring } from './ring.js';

const KEPT = 30;      // seconds of sound that wait where the demodulator is late
const AT_ONCE = 0.5;  // seconds of sound that are heard at a time, at most
const AT_LEAST = 0.1; // and at least, but at the end

const clock = () => Date.now() / 1000;

/** One side of a sound, or both as one. */
function sideOf([left, right = left], side) {
    if (side === 'both') return left.map((sample, at) => (sample + right[at]) / 2);
    return side === 'right' ? right : left;
}

/** The sides of a piece as it was captured; more than two are left out. */
function sidesOf(frame) {
    const count = Math.min(frame.numberOfChannels, 2);
    return Array.from({ length: count }, (_, planeIndex) => {
        const samples = new Float32Array(frame.numberOfFrames);
        frame.copyTo(samples, { planeIndex, format: 'f32-planar' });
        return samples;
    });
}

/** The page hears of a fault where it is an error of the whole worker. */
export function tellFault(fault) {
    setTimeout(() => { throw fault; });
}

export class Live {
    #begun;
    #tell;
    #hearing = null;  // from the first sound on, which says its rate
    #ring;
    #rate;
    #newest = clock(); // when the newest sound came
    #turn = new MessageChannel(); // between two turns what came meanwhile gets into the ring
    #isWaiting = false;
    side;

    /** `begun` has tuning, rows and side; `tell` gets what is heard. */
    constructor(begun, tell) {
        this.#begun = begun;
        this.#tell = tell;
        this.side = begun.side;
        this.#turn.port1.onmessage = () => this.#hear();
    }

    /** Takes sound as it comes: of a stream of pieces, or of a port. */
    connect({ frames, port, rate }) {
        if (frames !== undefined) this.#read(frames.getReader()).catch(tellFault);
        else port.onmessage = ({ data }) => this.#push(data, rate);
    }

    tune(tuning) {
        this.#begun = { ...this.#begun, tuning };
        this.#hearing?.tune(tuning);
    }

    /** All that still waits is heard, and what the demodulator held back. */
    finish() {
        if (this.#hearing === null) this.#hearing = new Hearing({ ...this.#begun, rate: 8000 }); // of no sound
        while (this.#ring?.count > 0) this.#tell(this.#stamped(this.#hearing.push(this.#next())));
        return this.#stamped(this.#hearing.finish());
    }

    async #read(reader) {
        for (;;) {
            const { value, done } = await reader.read();
            if (done) return;
            this.#push(sidesOf(value), value.sampleRate);
            value.close();
        }
    }

    #push(sides, rate) {
        if (this.#hearing === null) {
            this.#hearing = new Hearing({ ...this.#begun, rate });
            this.#ring = new Ring(KEPT * rate);
            this.#rate = rate;
        }
        this.#ring.push(sideOf(sides, this.side));
        this.#newest = clock();
        this.#waitForTurn();
    }

    #waitForTurn() {
        if (this.#isWaiting || this.#ring.count < AT_LEAST * this.#rate) return;
        this.#isWaiting = true;
        this.#turn.port2.postMessage(null);
    }

    #hear() {
        this.#isWaiting = false;
        this.#tell(this.#stamped(this.#hearing.push(this.#next())));
        this.#waitForTurn();
    }

    #next() {
        return this.#ring.take(Math.ceil(AT_ONCE * this.#rate));
    }

    /** Live sound gets its moment from when the newest of it came. */
    #stamped(told) {
        const behind = this.#ring === undefined ? 0 : this.#ring.count / this.#rate;
        const lost = this.#ring === undefined ? 0 : this.#ring.lost / this.#rate;
        const momentAt = (second) => this.#newest - behind - (this.#hearing.heard - second);
        return { ...told, behind, lost,
            told: told.told.map(({ second, bits }) => ({ moment: momentAt(second), bits })) };
    }
}
