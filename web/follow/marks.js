// Which entries of a log were marked as read on this device. They are known by what they say, so a log
// that was shortened keeps its marks; of equal ones by which of them it is.
const MOST = 20000; // marks that are kept, the newest ones

/** The browser's small store, or null where it gives none to this page. */
function storage() {
    try {
        return window.localStorage;
    } catch {
        return null;
    }
}

/** A short name of a text, the same for the same text. */
function nameOf(text) {
    let [one, other] = [0xdeadbeef, 0x41c6ce57];
    for (let at = 0; at < text.length; at++) {
        const code = text.charCodeAt(at);
        one = Math.imul(one ^ code, 2654435761);
        other = Math.imul(other ^ code, 1597334677);
    }
    one = Math.imul(one ^ (one >>> 16), 2246822507) ^ Math.imul(other ^ (other >>> 13), 3266489909);
    other = Math.imul(other ^ (other >>> 16), 2246822507) ^ Math.imul(one ^ (one >>> 13), 3266489909);
    return (other >>> 0).toString(36) + (one >>> 0).toString(36).padStart(7, '0');
}

export class Marks {
    #key;
    #marks = new Set();
    #store;

    /** `onChange` is told where another window of this browser marked something. */
    constructor(log, onChange, store = storage()) {
        this.#key = `navtex.read ${log}`;
        this.#store = store;
        this.#read();
        globalThis.addEventListener?.('storage', ({ key }) => {
            if (key !== this.#key) return;
            this.#read();
            onChange();
        });
    }

    /** The marks of entries, in their order; `counts` has how often each text came so far. */
    static of(entries, counts) {
        return entries.map(({ log }) => {
            const name = nameOf(log);
            const count = counts.get(name) ?? 0;
            counts.set(name, count + 1);
            return count === 0 ? name : `${name}.${count}`;
        });
    }

    has(mark) {
        return this.#marks.has(mark);
    }

    /** Keeps marks; a store that is full or closed keeps them until the page is closed. */
    add(marks) {
        this.#read();
        for (const mark of marks) this.#marks.add(mark);
        try {
            this.#store?.setItem(this.#key, JSON.stringify([...this.#marks].slice(-MOST)));
        } catch {
            // they hold until the page is closed
        }
    }

    /** Takes up what any window kept; what is no list of marks is as if there were none. */
    #read() {
        try {
            const kept = JSON.parse(this.#store?.getItem(this.#key) ?? '[]');
            if (!Array.isArray(kept)) return;
            for (const mark of kept) if (typeof mark === 'string') this.#marks.add(mark);
        } catch {
            // then nothing was kept
        }
    }
}
