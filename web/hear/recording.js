// A file of the queue: a recording, an air file, or a log that comes with them.
import { readLine } from '../receiver/air.js';
import { Beside } from './beside.js';
import { decodedOf } from './decoded.js';
import { kindOf, linesOf, logOf } from './files.js';
import { Look } from './look.js';
import { mp3Of } from './mp3.js';
import { piecesOf } from './pieces.js';
import { Stopped, unlessStopped } from './queue.js';
import { clock, Sound } from './sound.js';
import { layoutOf } from './wave.js';

const PIECE = 2;                // seconds of a recording that are heard at a time
const LONG = 300;               // seconds: of a longer recording one row a second is shown
const ENDING = 1000;            // milliseconds that a stopped one has to tell what was held back
const ROWS = 10;                // rows a second of a shorter one
const RATES = [6000, 192000];   // samples a second that the demodulator takes; others the browser changes

export class Recording extends Sound {
    #file;
    #given;
    #beside = null;
    #isAir = false;
    #began = 0; // when this file began to be heard, of the page's clock

    /** `given` has the channel, the side, the script of the worker, `began` or null, `ends` (the end of
     *  a recording where nobody says when it began), and `tuningOf(channel)`. */
    constructor(file, given, kept, show) {
        super(file.name, kept, show);
        this.#file = file;
        this.#given = given;
    }

    get channels() {
        return [this.#given.channel];
    }

    /** Whether it is an air file, of which lines are told. */
    get isAir() {
        return this.#isAir;
    }

    tune(channel, tuning) {
        if (channel === this.#given.channel) this.#beside?.tune(tuning);
    }

    async hear(signal) {
        this.show.source(`Reading ${this.name}..`);
        const kind = await unlessStopped(signal, kindOf(this.#file));
        this.#isAir = kind === 'air';
        if (kind === 'log') await this.show.log(await unlessStopped(signal, logOf(this.#file)), this.name);
        else if (this.#isAir) await this.within(clock(), () => this.#hearAir(signal));
        else await this.#hearSound(signal);
    }

    async #hearAir(signal) {
        const look = new Look();
        this.#began = performance.now();
        for await (const [lines, part] of linesOf(this.#file)) {
            for (const line of lines) {
                await this.rest();
                if (signal.aborted) throw new Stopped();
                this.kept.take(line);
                const said = readLine(line);
                if (said?.kind === 'elements' && said.channel === this.#given.channel) {
                    this.show.text(said.channel, look.push(said.elements.join('')));
                }
            }
            this.#showProgress(part);
        }
    }

    async #hearSound(signal) {
        const source = await unlessStopped(signal, this.#open());
        const { channel, began, ends } = this.#given;
        const start = began ?? ends - source.seconds;
        this.#beside = new Beside(this.#given.script, {
            rate: source.rate,
            tuning: this.#given.tuningOf(channel),
            rows: source.seconds > LONG ? 1 : ROWS,
            layout: source.layout,
            packed: source.packed,
            side: this.#given.side,
        });
        try {
            await this.within(start, () => this.#hearPieces(source, start, signal));
        } finally {
            this.#beside.end();
            this.#beside = null;
        }
    }

    async #hearPieces(source, start, signal) {
        const { channel } = this.#given;
        const stamp = (told) => ({ ...told,
            told: told.told.map(({ second, bits }) => ({ moment: start + second, bits })) });
        const take = (told) => this.take(channel, stamp(told));
        this.#began = performance.now();
        try {
            for await (const [piece, second] of source.pieces(PIECE)) {
                take(await unlessStopped(signal, this.#beside.hear(piece), take));
                this.#showProgress(second / source.seconds);
            }
            const last = await unlessStopped(signal, this.#beside.finish());
            take(last);
            return last.said;
        } catch (fault) {
            const last = fault instanceof Stopped ? await this.heldBack(this.#beside, ENDING) : null;
            if (last !== null) take(last);
            throw fault;
        }
    }

    /** The sound: a WAV, MP3, FLAC, Ogg or M4A file in slices, any other one as the browser decodes it. */
    async #open() {
        const { side } = this.#given;
        const layout = await layoutOf(this.#file);
        if (layout === null) {
            return await mp3Of(this.#file, PIECE) ?? await piecesOf(this.#file, side) ?? decodedOf(this.#file, side);
        }
        if (layout.rate < RATES[0] || layout.rate > RATES[1]) return decodedOf(this.#file, side);
        const seconds = (layout.end - layout.begin) / layout.width / layout.rate;
        return { rate: layout.rate, seconds, layout, pieces: (length) => slicesOf(this.#file, layout, length) };
    }

    #showProgress(part) {
        const gone = (performance.now() - this.#began) / 1000;
        this.show.progress(part, part > 0 ? (gone * (1 - part)) / part : null);
        this.show.source(`Hearing ${this.name}.`);
    }
}

/** Slices of so many seconds, each with the second of its end. */
async function* slicesOf(file, { begin, end, width, rate }, length) {
    const size = Math.round(length * rate) * width;
    for (let from = begin; from < end; from += size) {
        const last = Math.min(from + size, end);
        yield [await file.slice(from, last).arrayBuffer(), (last - begin) / width / rate];
    }
}
