// One sound of the queue, from its beginning to its end: what all kinds of them do.
import { Stopped } from './queue.js';

const BAUD = 100;
const LINE = 100;      // elements of a line, so that its moment is true to a second
const BUSY = 40;       // milliseconds after which the page may do something else

export const clock = () => Date.now() / 1000;

/** Lets the page do what waits; other than a timer this is quick in a window behind others too. */
export function breathe() {
    return new Promise((resolve) => {
        const { port1, port2 } = new MessageChannel();
        port1.onmessage = () => { port1.close(); resolve(); };
        port2.postMessage(null);
    });
}

/** What is said of a sound at its end. */
export function countsSaid({ heard, added, known, refused, notWhole }) {
    if (heard === 0) return 'no message';
    const parts = [`${added} new`, `${known} known`, `${refused} refused`];
    const whole = notWhole === 0 ? '' : `; ${notWhole} of the new not whole`;
    return `${heard} ${heard === 1 ? 'message' : 'messages'} heard: ${parts.join(', ')}${whole}`;
}

export class Sound {
    wasHeard = false; // whether it was said what was heard of it
    #lastMoment = null;
    #rested = 0;

    /** `kept` is the receiver; `show` shows what is heard. */
    constructor(name, kept, show) {
        this.name = name;
        this.kept = kept;
        this.show = show;
    }

    /** The frequencies that it hears. */
    get channels() {
        return [];
    }

    /** Takes other tones for a frequency. */
    tune() {}

    /** Hears within a run of the receiver. `action` answers what the demodulator says, or nothing. */
    async within(start, action) {
        const run = this.kept.begin(Math.floor(start));
        let said = '';
        let isStopped = false;
        try {
            said = await action(run) ?? '';
        } catch (fault) {
            if (!(fault instanceof Stopped)) throw fault;
            isStopped = true;
        } finally {
            await this.kept.endOfSound(Math.floor(clock()));
            this.wasHeard = true;
            const name = `${this.name}${isStopped ? ', stopped' : ''}`;
            const words = said === '' ? '' : ` The demodulator ${said}.`;
            this.show.ended(this, `${name}: ${countsSaid(run.counts)}.${words}`, run);
        }
    }

    /** What a sound told on a channel goes to the receiver, and is shown. */
    take(channel, { told, text, rows, status }) {
        for (const { moment, bits } of told) {
            for (let from = 0; from < bits.length; from += LINE) {
                this.#setMoment(moment + from / BAUD);
                this.kept.take(`B${channel} ${bits.slice(from, from + LINE)}`);
            }
        }
        this.show.text(channel, text);
        for (const row of rows) this.show.row(channel, row);
        this.show.status(channel, status);
    }

    /** Lets the page do something else where it was busy for a while. */
    async rest() {
        if (performance.now() - this.#rested < BUSY) return;
        await breathe();
        this.#rested = performance.now();
    }

    /** What the worker of a stopped sound held back, if it comes within so many milliseconds, or null. */
    async heldBack(beside, patience) {
        let late;
        const tooLate = new Promise((resolve) => { late = setTimeout(resolve, patience, null); });
        const told = await Promise.race([beside.finish(), tooLate]);
        clearTimeout(late);
        return told;
    }

    #setMoment(exact) {
        const moment = Math.floor(exact);
        if (this.#lastMoment !== null && moment <= this.#lastMoment) return;
        this.#lastMoment = moment;
        this.kept.take(`T ${moment}`);
    }
}
