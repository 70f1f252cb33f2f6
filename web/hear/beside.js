// The worker beside the page, as the page sees it: one for each sound, from its beginning to its end.
import { PageFault } from '../show/faults.js';

let address = null; // of the worker's script, which stands within the page

/** The worker's script has no address of its own, since the page is one file. */
function addressOf(script) {
    address ??= URL.createObjectURL(new Blob([script], { type: 'text/javascript' }));
    return address;
}

export class Beside {
    #worker;
    #waiting = [];   // who waits for what a piece told, in order
    #onTold;

    /** `script` is that of the worker, `given` what it begins with: tuning, rows and side; of
     *  a recording its rate, the layout of a WAV file, or what a decoder of MP3 is told.
     *  `onTold` gets what live sound tells, and `onFault` what ends it. */
    constructor(script, given, { onTold = () => {}, onFault = () => {} } = {}) {
        this.#onTold = onTold;
        try {
            this.#worker = new Worker(addressOf(script));
        } catch {
            throw new PageFault('This browser lacks what sound needs here (a worker beside the page). '
                + 'A current Firefox, Chrome, Edge or Safari has it.');
        }
        this.#worker.onmessage = ({ data }) => this.#take(data);
        this.#worker.onerror = (event) => {
            event.preventDefault();
            const fault = new PageFault(`This sound can't be heard: ${event.message}.`);
            if (this.#waiting.length === 0) onFault(fault);
            for (const { reject } of this.#waiting.splice(0)) reject(fault);
        };
        this.#ask('begin', given);
    }

    /** Hears a piece: what it told. */
    hear(piece) {
        return this.#answer('piece', piece, [piece.buffer ?? piece]);
    }

    /** Hears live sound: `frames`, a stream of pieces as they were captured, or a `port` that gives
     *  samples, at a `rate` of so many a second. */
    connect(live) {
        this.#ask('live', live, [live.frames ?? live.port]);
    }

    /** Hears another side of live sound from here on. */
    set side(side) {
        this.#ask('side', side);
    }

    tune(tuning) {
        this.#ask('tune', tuning);
    }

    /** The sound is over: what was held back. */
    finish() {
        return this.#answer('finish', null);
    }

    /** Ends the worker, whatever it does. */
    end() {
        this.#worker.terminate();
    }

    #ask(ask, given, handed = []) {
        this.#worker.postMessage([ask, given], handed);
    }

    #answer(ask, given, handed) {
        return new Promise((resolve, reject) => {
            this.#waiting.push({ resolve, reject });
            this.#ask(ask, given, handed);
        });
    }

    #take(told) {
        const isAnswer = told.behind === undefined || told.said !== undefined;
        if (isAnswer) this.#waiting.shift()?.resolve(told);
        else this.#onTold(told);
    }
}
