// One sound or one air file, as two receivers hear it: ours, and a witness that refuses and remembers
// nothing. What the witness alone prints was refused or is known, so each sound can say how many.
import { AirRun, readLine } from './air.js';
import { isBetter, Messages } from './copies.js';
import { entryAt, identityOf, isWhole } from './entries.js';
import { CHANNELS } from './receiver.js';
import { refusedIn } from './state.js';

const PAUSE = new Uint8Array(448).fill(1); // 64 words that are none: behind them nothing is being heard

const isSame = (one, other) => one.channel === other.channel && identityOf(one) === identityOf(other);

/** What a receiver printed, as entries. */
const read = (printed) => printed.map(({ log, sendings }) => ({ ...entryAt(log), sendings }));

export class SoundRun {
    #receiver;
    #witness;
    #ours;
    #theirs;
    #messages = new Messages(); // those that were heard, each copy with its fate

    /** Both receivers are open, and the witness is closed with the run. Elements before any moment are
     *  heard at `start`. */
    constructor(receiver, witness, start) {
        this.#receiver = receiver;
        this.#witness = witness;
        this.#ours = new AirRun(receiver, start);
        this.#theirs = new AirRun(witness, start);
    }

    /** How many messages were heard: of them are new, known and refused; of the new are not whole. */
    get counts() {
        const { all } = this.#messages;
        const ofFate = (fate) => all.filter(({ copies }) => copies.some((copy) => copy.fate === fate));
        const added = ofFate('added');
        const refused = ofFate('refused').filter((message) => !added.includes(message));
        const notWhole = added.filter(({ copies }) => !copies.some((copy) => copy.fate === 'added' && isWhole(copy)));
        return { heard: all.length, added: added.length, known: all.length - added.length - refused.length,
            refused: refused.length, notWhole: notWhole.length };
    }

    /** How many lines had no effect, and the first of them. */
    get withoutEffect() {
        return this.#ours.withoutEffect;
    }

    get first() {
        return this.#ours.first;
    }

    /** Takes a line: the entries that are printed. */
    take(line) {
        const printed = read(this.#ours.take(line));
        const isChoice = readLine(line)?.kind === 'choice'; // which the witness doesn't hear
        this.#count(isChoice ? [] : read(this.#theirs.take(line)), printed);
        return printed;
    }

    /** The sound is over: what was still being heard is printed as cut. Our receiver stays open, so that
     *  sendings in a later sound join those of this one; between them it hears a pause. */
    close() {
        const refused = this.#refused();
        const closing = read(this.#receiver.closing());
        const paused = [...Array(CHANNELS).keys()].flatMap((channel) => read(this.#receiver.hear(channel, PAUSE)));
        const printed = endOf(closing, paused);
        this.#count(read(this.#witness.close()), printed, refused);
        return printed;
    }

    #refused() {
        return refusedIn(this.#receiver.save());
    }

    #count(witnessed, printed, refused) {
        if (witnessed.length + printed.length === 0) return;
        const isRefused = ({ channel, station, subject }) => {
            const { stations, subjects } = (refused ?? this.#refused())[channel];
            return stations.includes(station) || subjects.includes(subject);
        };
        const unprinted = without(witnessed, printed);
        this.#messages.add([
            ...printed.map((entry) => ({ ...entry, fate: 'added' })),
            ...unprinted.map((entry) => ({ ...entry, fate: isRefused(entry) ? 'refused' : 'known' })),
        ]);
    }
}

/** What the end of a sound prints: what closing the receiver prints, or what a pause does where that is
 *  better, since there less noise is taken for words. From how many sendings it is the pause alone tells. */
function endOf(closing, paused) {
    const sendingsOf = (entry) => paused.find((other) => isSame(entry, other))?.sendings;
    const better = paused.filter((entry) => closing.every((other) => !isSame(entry, other) || isBetter(entry, other)));
    const others = closing.filter((entry) => !better.some((other) => isSame(entry, other)));
    return [...others.map((entry) => ({ ...entry, sendings: sendingsOf(entry) })), ...better];
}

/** The entries of a list that another one hasn't; of the same ones as many as there are more. */
function without(entries, taken) {
    const left = [...taken];
    return entries.filter((entry) => {
        const at = left.findIndex((other) => isSame(entry, other));
        if (at >= 0) left.splice(at, 1);
        return at < 0;
    });
}
