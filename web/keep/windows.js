// Which window of the page receives, where several are open: the one that owns the store. The others
// look on. The store alone decides, in one transaction, so this needs no https; the messages between
// windows only say early what the store says in the end.

const NAME = 'navtex';
const LAST = 'navtex.window'; // where a window that is loaded again finds what it was called
const PATIENCE = 2000; // milliseconds in which a window that is there answers
const ROUND = 5000; // milliseconds after which one that looks on asks again who receives
const MISSED = 3; // so many rounds without an answer say that nobody does

/** A name for this window that no other has. */
export function newWindow() {
    return [...crypto.getRandomValues(new Uint8Array(16))].map((byte) => byte.toString(16).padStart(2, '0')).join('');
}

/** What this window was called before it was loaded again, or null; asked once. */
function nameBefore() {
    try {
        const name = sessionStorage.getItem(LAST);
        sessionStorage.removeItem(LAST); // or a copy of this window would have it too
        return name;
    } catch {
        return null;
    }
}

function keepName(name) {
    try {
        sessionStorage.setItem(LAST, name);
    } catch {
        // then the next page asks who is there
    }
}

export class Windows {
    #store;
    #window;
    #on;
    #others;
    #answers = new Map();
    #before = nameBefore();
    #isClaiming = false;
    #missed = 0;
    owns = false;

    /** `on` is told `lost`, where another window took over; `free`, where the one that received is
     *  closed; `changed`, where it kept something. */
    constructor(store, window, on) {
        this.#store = store;
        this.#window = window;
        this.#on = on;
        if (typeof BroadcastChannel === 'undefined') return; // a window that is lost sees it as it writes
        this.#others = new BroadcastChannel(NAME);
        this.#others.onmessage = ({ data }) => this.#hear(data);
        setInterval(() => this.#look().catch(() => {}), ROUND);
    }

    /** Whether this window receives from here on and didn't before: where no other one that is there does. */
    async claim() {
        if (this.owns || this.#isClaiming) return false;
        this.#isClaiming = true;
        try {
            const owner = await this.#store.owner();
            const isOurs = owner === undefined || owner === this.#window || owner === this.#before;
            if (!isOurs && await this.#isThere(owner)) return false;
            this.owns = await this.#store.own(owner, this.#window);
            return this.owns;
        } finally {
            this.#isClaiming = false;
        }
    }

    /** Receives here, whoever does so now. */
    async take() {
        while (!this.owns) this.owns = await this.#store.own(await this.#store.owner(), this.#window);
        this.#tell({ took: this.#window });
    }

    /** Tells the other windows what was kept. */
    tellKept(change) {
        this.#tell({ kept: change });
    }

    /** This window is closed, or receives no more. */
    leave() {
        if (!this.owns) return;
        this.owns = false;
        this.#tell({ left: this.#window });
        this.#store.own(this.#window, undefined).catch(() => {});
        keepName(this.#window); // last, since Firefox may end the script of a closed window here
    }

    /** A window that crashes, or that the browser ends too early, can't say that it is closed. So one that
     *  looks on asks from time to time whether the one that receives is there. */
    async #look() {
        if (this.owns || this.#isClaiming) return;
        const owner = await this.#store.owner();
        if (this.owns || this.#isClaiming) return;
        if (owner !== undefined) {
            this.#missed = await this.#isThere(owner) ? 0 : this.#missed + 1;
            if (this.#missed < MISSED) return;
        }
        this.#missed = 0;
        this.#on.free();
    }

    #isThere(owner) {
        return new Promise((resolve) => {
            const late = setTimeout(() => this.#answers.get(owner)?.(false), PATIENCE);
            this.#answers.set(owner, (isThere) => {
                clearTimeout(late);
                this.#answers.delete(owner);
                resolve(isThere);
            });
            this.#tell({ ask: owner });
        });
    }

    #tell(data) {
        this.#others?.postMessage(data);
    }

    #hear({ ask, answer, left, took, kept }) {
        if (ask === this.#window && this.owns) this.#tell({ answer: this.#window });
        if (answer !== undefined) this.#answers.get(answer)?.(true);
        if (left !== undefined) {
            this.#answers.get(left)?.(false);
            if (!this.owns) this.#on.free();
        }
        if (took !== undefined && this.owns) {
            this.owns = false;
            this.#on.lost();
        }
        if (kept !== undefined && !this.owns) this.#on.changed(kept);
    }
}
