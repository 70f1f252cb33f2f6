// Entries of one message, as one: the best of them is shown, and the others stand behind it.
import { identityOf } from './entries.js';

const APART = 237600; // seconds, 66 hours; what is further apart is another message of that number

/** Whether an entry is better than another one. */
export function isBetter(one, other) {
    const [isFull, wasFull] = [one.how === 'full', other.how === 'full'];
    return isFull === wasFull ? one.errors < other.errors : isFull;
}

/** The best of entries, of equal ones the later one. */
const bestOf = (entries) => entries.reduce((best, entry) => (isBetter(best, entry) ? best : entry));

/** A message of its entries, in order: `best`, the `others`, the newest first, and whether all are read. */
export class Message {
    copies;
    #first; // the earliest and the latest moment
    #last;

    constructor(entry) {
        this.copies = [entry];
        [this.#first, this.#last] = [entry.moment, entry.moment];
    }

    /** By which it is known while copies come. */
    get id() {
        return this.copies[0].id;
    }

    get best() {
        return bestOf(this.copies);
    }

    /** The copy whose place the best one took: the best of those before it, where it is worse; or null. */
    get replaced() {
        const { best } = this;
        const before = this.copies.slice(0, this.copies.indexOf(best));
        const last = before.length === 0 ? best : bestOf(before);
        return isBetter(best, last) ? last : null;
    }

    get others() {
        const { best } = this;
        return this.copies.filter((entry) => entry !== best).reverse();
    }

    get isRead() {
        return this.copies.every(({ isRead }) => isRead);
    }

    /** Whether an entry of its identity and channel is of it. */
    takes({ moment }) {
        return Math.max(this.#last, moment) - Math.min(this.#first, moment) < APART;
    }

    add(entry) {
        this.copies.push(entry);
        this.#first = Math.min(this.#first, entry.moment);
        this.#last = Math.max(this.#last, entry.moment);
    }
}

/** The messages of entries, in the order of their last ones. Those numbered 00 are each a message. */
export class Messages {
    #all = new Set();
    #open = new Map(); // the message of an identity on a channel that takes copies

    constructor(entries = []) {
        this.add(entries);
    }

    get all() {
        return [...this.#all];
    }

    /** Takes entries that came behind the others: the messages that changed, in order. */
    add(entries) {
        const changed = new Set();
        for (const entry of entries) {
            const message = this.#of(entry);
            for (const those of [this.#all, changed]) {
                those.delete(message); // to the end
                those.add(message);
            }
        }
        return [...changed];
    }

    #of(entry) {
        const name = `${identityOf(entry)} ${entry.channel}`;
        const open = this.#open.get(name);
        if (entry.number !== '00' && open?.takes(entry)) {
            open.add(entry);
            return open;
        }
        const message = new Message(entry);
        this.#open.set(name, message);
        return message;
    }
}
