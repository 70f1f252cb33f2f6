// The lines of an air file, and what a receiver does with them: as `navtex watch` takes them, a line
// that isn't understood has no effect, and neither has a moment that goes back. A line may end by CR
// LF, as files of Windows have it.
import { MAX_MOMENT, ReceiverFault } from './receiver.js';

const LONGEST = 514; // characters of a line without its end
const SELECTING = { RS: 'refuseStation', AS: 'acceptStation', RJ: 'refuseSubject', AJ: 'acceptSubject' };

/** What a line says: a moment, elements of a channel or a choice; null where it says nothing. */
export function readLine(line) {
    if (line.length > LONGEST) return null;
    let found = /^T (0|[1-9]\d{0,10})$/.exec(line);
    if (found) return { kind: 'moment', moment: Number(found[1]) };
    found = /^B([012]?) ([01]{1,512})$/.exec(line);
    if (found) return { kind: 'elements', channel: Number(found[1]), elements: elementsOf(found[2]) };
    found = /^(RS|AS|RJ|AJ)([012]?) ([A-Z])$/.exec(line);
    if (found) {
        return { kind: 'choice', call: SELECTING[found[1]], channel: Number(found[2]), letter: found[3] };
    }
    return null;
}

/** Digits as elements: a byte each, 1 for B. */
export function elementsOf(digits) {
    return Uint8Array.from(digits, (digit) => (digit === '1' ? 1 : 0));
}

/** Cuts text that comes in pieces into lines. */
export class LineSplitter {
    #rest = '';

    push(text) {
        const lines = (this.#rest + text).split('\n');
        this.#rest = lines.pop().slice(0, LONGEST + 2); // a longer line isn't understood anyway
        return lines.map(withoutReturn);
    }

    /** What stands behind the last line's end. */
    get rest() {
        return withoutReturn(this.#rest);
    }
}

const withoutReturn = (line) => (line.endsWith('\r') ? line.slice(0, -1) : line);

/** Gives lines to a receiver, and counts those without effect. */
export class AirRun {
    #receiver;
    #start;
    lines = 0;
    withoutEffect = 0;
    first = null; // the first line without effect: its number, and why

    /** Elements before the first good moment are heard at `start`, where one is given. */
    constructor(receiver, start = null) {
        this.#receiver = receiver;
        this.#start = start;
    }

    /** Takes a line: the entries that are printed. */
    take(line) {
        this.lines += 1;
        const said = readLine(line);
        if (said === null) return this.#passOver('it is not understood');
        try {
            return this.#act(said);
        } catch (fault) {
            if (!(fault instanceof ReceiverFault)) throw fault;
            return this.#passOver(fault.message);
        }
    }

    #act(said) {
        if (said.kind === 'elements') {
            this.#begin();
            return this.#receiver.hear(said.channel, said.elements);
        }
        if (said.kind === 'moment') {
            if (said.moment <= MAX_MOMENT) this.#start = null; // also where it goes back
            this.#receiver.setMoment(said.moment);
        } else {
            this.#receiver[said.call](said.channel, said.letter);
        }
        return [];
    }

    #begin() {
        const start = this.#start;
        this.#start = null;
        if (start === null) return;
        try {
            this.#receiver.setMoment(start);
        } catch (fault) {
            if (!(fault instanceof ReceiverFault)) throw fault; // a later moment is in force, and stays
        }
    }

    #passOver(why) {
        this.withoutEffect += 1;
        this.first ??= { line: this.lines, why };
        return [];
    }
}
