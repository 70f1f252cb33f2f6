// Live sound in the queue: one or two inputs at once, each on a frequency of its own, until somebody
// stops it.
import { Beside } from './beside.js';
import { askForInput, Capture, endStream, SoundFault } from './capture.js';
import { Stopped, unlessStopped } from './queue.js';
import { clock, Sound } from './sound.js';

const ROWS = 10;      // rows of the waterfall in a second
const SILENT = 5000;  // milliseconds in which an input has to give something
const ENDING = 20000; // milliseconds in which what waits is heard, where it is stopped
const LATE = 2;       // seconds that the demodulator may be late before it is said

const lower = (name) => name.replace(/^./, (letter) => letter.toLowerCase());

export class Listening extends Sound {
    #inputs;
    #given;
    #captures = [];
    #besides = new Map(); // of each channel
    #behind = new Map();  // of each channel how many seconds its demodulator is late, and are lost
    #hasHeard = false;
    #isEnding = false;
    #fail;                // ends it with a fault

    /** `inputs` have each a channel, a side, and the number of an input, or a stream. `given` has the
     *  script of the worker, `tuningOf(channel)`, and `saidOf(channel)`. */
    constructor(name, inputs, given, kept, show) {
        super(name, kept, show);
        this.#inputs = inputs;
        this.#given = given;
    }

    get channels() {
        return this.#inputs.map(({ channel }) => channel);
    }

    tune(channel, tuning) {
        this.#besides.get(channel)?.tune(tuning);
    }

    /** Hears another side of an input. */
    setSide(channel, side) {
        const beside = this.#besides.get(channel);
        if (beside !== undefined) beside.side = side;
    }

    /** It was taken out before it began: a tab that was asked for is let go. */
    drop() {
        for (const { stream } of this.#inputs) if (stream !== undefined) endStream(stream);
    }

    async hear(signal) {
        this.show.source(`Asking for ${lower(this.name)}.`);
        try {
            const failed = new Promise((_, reject) => { this.#fail = reject; });
            failed.catch(() => {});
            for (const input of this.#inputs) this.#captures.push(await this.#open(input, signal));
            await this.within(clock(), () => this.#hearAll(signal, failed));
        } finally {
            await this.#close();
        }
    }

    async #open({ input, stream }, signal) {
        const gone = () => this.#fail(new SoundFault(`${this.name} is gone. Is it still connected?`));
        const asked = stream ?? await unlessStopped(signal, askForInput(input), endStream);
        try {
            return await unlessStopped(signal, Capture.of(asked, gone), (late) => late.close());
        } catch (fault) {
            endStream(asked); // at once, however long a browser takes to begin with it
            throw fault;
        }
    }

    async #hearAll(signal, failed) {
        this.#inputs.forEach((input, at) => this.#connect(input, this.#captures[at]));
        this.#showSource();
        this.show.live();
        const silent = setTimeout(() => {
            if (!this.#hasHeard) this.show.warn(`No sound comes from ${lower(this.name)}. `
                + 'Does the computer have a sound card in use?');
        }, SILENT);
        try {
            await unlessStopped(signal, failed);
            return '';
        } catch (fault) {
            if (!(fault instanceof Stopped)) throw fault;
            return await this.#finish();
        } finally {
            clearTimeout(silent);
        }
    }

    #connect({ channel, side }, capture) {
        const { script, tuningOf } = this.#given;
        const beside = new Beside(script, { tuning: tuningOf(channel), rows: ROWS, side }, {
            onTold: (told) => this.#hearLive(channel, told),
            onFault: (fault) => this.#fail(fault),
        });
        this.#besides.set(channel, beside);
        capture.handTo(beside);
    }

    #hearLive(channel, told) {
        this.#hasHeard = true;
        try {
            this.take(channel, told);
        } catch (fault) {
            this.#fail(fault);
        }
        this.#behind.set(channel, { behind: told.behind, lost: told.lost });
        this.#showSource();
    }

    #showSource() {
        if (this.#isEnding) return;
        const { saidOf } = this.#given;
        const all = [...this.#behind.values()];
        const behind = Math.max(0, ...all.map((one) => one.behind));
        const lost = Math.max(0, ...all.map((one) => one.lost));
        this.show.source(`Hearing ${lower(this.name)}, on `
            + `${this.channels.map(saidOf).join(' and ')}.`
            + (behind > LATE ? ` The demodulator is ${behind.toFixed(0)} s late.` : '')
            + (lost > 0 ? ` ${lost.toFixed(0)} s of sound were lost: this computer is too slow.` : ''));
    }

    /** The microphone is let go at once; then what was held back is heard. */
    async #finish() {
        this.#isEnding = true;
        this.show.source(`Ending ${lower(this.name)}..`);
        await Promise.all(this.#captures.map((capture) => capture.close()));
        const said = [];
        for (const [channel, beside] of this.#besides) {
            const told = await this.heldBack(beside, ENDING);
            if (told === null) continue;
            this.take(channel, told);
            said.push(told.said);
        }
        return said.join(', and on the second frequency ');
    }

    async #close() {
        this.drop();
        for (const beside of this.#besides.values()) beside.end();
        await Promise.all(this.#captures.map((capture) => capture.close()));
    }
}
