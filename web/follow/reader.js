// Reads the log of a watch from a web server, again and again: where the server gives a range of a file, what
// is new of it and the last entries before that, and all of it elsewhere.
import { lineOf } from '../receiver/entries.js';
import { PageFault } from '../show/faults.js';
import { readKept } from './kept.js';

const LATE = 60000;   // milliseconds in which a server answers
const AGAIN = 8192;   // bytes of the last entries that are read again, to see that they stand there still
const WHOLE = 720;    // readings after which all is read again

/** The moment of a time that a server names, or null. */
function momentIn(answer, name) {
    const milliseconds = Date.parse(answer.headers.get(name) ?? '');
    return Number.isFinite(milliseconds) ? milliseconds / 1000 : null;
}

export class LogReader {
    #address;
    #get;
    #entries = [];     // those that were read, each with its places
    #gate = 0;         // where the last gate stands
    #lines = 0;        // lines before it
    #length = null;    // bytes of the file when it was read last
    #broken = null;    // the byte at which it was no log then
    #count = 0;        // how often it was read
    #takesRanges = true;

    /** `get` asks a server as `fetch` does. */
    constructor(address, get) {
        this.#address = address;
        this.#get = get;
    }

    /**
     * Reads the log: the entries that are `added`; whether they are all of one that began anew (`isAnew`);
     * the line at which it is `damaged`, or null; whether the next reading has to tell that (`isUnsure`); when
     * the file was `changed`, and what time it is by the server (`now`), as far as it says so.
     */
    async read() {
        const part = await this.#part(this.#count++ % WHOLE === 0 ? 0 : this.#again());
        if (part !== null && this.#standsIn(part)) return { isAnew: false, ...this.#take(part) };
        const whole = part?.from === 0 ? part : await this.#part(0);
        const isAnew = this.#entries.length > 0;
        [this.#entries, this.#gate, this.#lines] = [[], 0, 0];
        return { isAnew, ...this.#take(whole) };
    }

    /** From where on the log is read again. */
    #again() {
        let at = this.#entries.length - 1;
        while (at > 0 && this.#entries[at].place > this.#gate - AGAIN) at -= 1;
        return this.#entries[at]?.place ?? 0;
    }

    /** Whether the entries that were read stand at their places, each behind an open gate. */
    #standsIn({ from, text }) {
        for (let at = this.#entries.length - 1; at >= 0 && this.#entries[at].place >= from; at--) {
            const { place, log } = this.#entries[at];
            const gate = text[place - from];
            if (gate === undefined || gate === ' ' || !text.startsWith(log, place - from + 1)) return false;
        }
        return true;
    }

    #take({ from, text, changed, now }) {
        const begin = this.#gate;
        const behind = text.slice(begin - from);
        const read = readKept(behind);
        const added = read.entries.map((entry) => ({ ...entry, place: begin + entry.place, next: begin + entry.next }));
        // A server may give the length of one moment and the bytes of another, or the bytes of two. So what is
        // no log is damaged where it was none there before; and where it ends too early, where it didn't grow.
        const broken = read.broken === null ? null : begin + read.broken;
        const isStill = from + text.length === this.#length;
        const isDamaged = broken !== null && broken === this.#broken && (isStill || !read.isEarly);
        const damaged = isDamaged ? this.#lines + lineOf(behind, read.broken) : null;
        [this.#broken, this.#length] = [broken, from + text.length];
        this.#gate = begin + read.gate;
        this.#lines += lineOf(behind, read.gate) - 1;
        this.#entries = this.#entries.concat(added.map(({ place, log }) => ({ place, log })));
        return { added, damaged, isUnsure: broken !== null && !isDamaged, changed, now };
    }

    /** The text from a place on, or from the beginning where the server gives no ranges; null where it has
     *  nothing there. */
    async #part(from) {
        const isRange = from > 0 && this.#takesRanges;
        const answer = await this.#asked(isRange ? { Range: `bytes=${from}-` } : {});
        if (answer.status === 416 && isRange) return null;
        if (answer.status === 206 && isRange && !isRangeFrom(answer, from)) {
            this.#takesRanges = false;
            return this.#part(0);
        }
        if (answer.status !== 200 && !(answer.status === 206 && isRange)) {
            throw new PageFault(`The server answers ${answer.status} ${answer.statusText}`.trim());
        }
        const text = new TextDecoder('latin1').decode(await bytesOf(answer));
        return { from: answer.status === 206 ? from : 0, text, changed: momentIn(answer, 'Last-Modified'),
            now: momentIn(answer, 'Date') };
    }

    async #asked(headers) {
        try {
            return await this.#get(this.#address, { cache: 'no-store', headers, signal: AbortSignal.timeout(LATE) });
        } catch {
            throw new PageFault("The server doesn't answer");
        }
    }
}

async function bytesOf(answer) {
    try {
        return await answer.arrayBuffer();
    } catch {
        throw new PageFault('The answer of the server broke off');
    }
}

/** Whether an answer has the bytes of the file from a place on, as they are. */
function isRangeFrom(answer, from) {
    const said = /^bytes (\d+)-/.exec(answer.headers.get('Content-Range') ?? '');
    return said !== null && Number(said[1]) === from && answer.headers.get('Content-Encoding') === null;
}
