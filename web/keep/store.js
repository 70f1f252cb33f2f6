// What stays over a reload, in the browser's store (IndexedDB): one entry for each message, and the
// receiver's state. Both change in one transaction, so neither is kept without the other. Only the
// window that owns the store writes: each transaction looks whether it still does.
import { PageFault } from '../show/faults.js';

const NAME = 'navtex';
const VERSION = 1;
const MESSAGES = 'messages';
const REST = 'receiver'; // the state, the window that owns the store, and a state that was put aside
const AT_ONCE = 100;     // messages that go where the store is full
const OFTEN = 3;         // times that this is done, until it helps

/** Why nothing can be kept, in words for who uses the page. */
export class StoreFault extends PageFault {}

/** Another window took the store over. */
export class LostFault extends StoreFault {}

/** The answer of a request, as a promise that can be waited for within its transaction. */
function answered(request) {
    return new Promise((resolve, reject) => {
        request.onsuccess = () => resolve(request.result);
        request.onerror = (event) => {
            event.preventDefault(); // the transaction is aborted by who asked
            reject(request.error);
        };
    });
}

const isFull = (fault) => fault?.name === 'QuotaExceededError';

/** Opens the database, or tells why it can't be opened. */
function opened() {
    return new Promise((resolve, reject) => {
        let request;
        try {
            request = indexedDB.open(NAME, VERSION);
        } catch (fault) {
            reject(fault);
            return;
        }
        request.onupgradeneeded = () => {
            request.result.createObjectStore(MESSAGES, { keyPath: 'id' });
            request.result.createObjectStore(REST);
        };
        request.onsuccess = () => resolve(request.result);
        request.onerror = () => reject(request.error);
    });
}

export class Store {
    #database;
    #window;
    #helps = true; // that the oldest messages go

    /** Opens the browser's store for a window of the page. */
    static async open(window) {
        try {
            return new Store(await opened(), window);
        } catch (fault) {
            throw new StoreFault(fault?.name === 'VersionError'
                ? 'This browser keeps messages of a newer version of this page. They are left as they are, and '
                    + 'what is received here is gone with this window.'
                : 'This browser keeps nothing for this page: where it is closed, all messages are gone.');
        }
    }

    constructor(database, window) {
        this.#database = database;
        this.#window = window;
        database.onversionchange = () => database.close();
    }

    get isThere() {
        return true;
    }

    /** The state, or undefined where nothing was kept, and the messages with a number above `last`. */
    async read(last = 0) {
        return this.#within('readonly', async (messages, rest) => {
            const [state, found] = await Promise.all([answered(rest.get('state')),
                answered(messages.getAll(IDBKeyRange.lowerBound(last, true)))]);
            return { state, messages: found };
        });
    }

    /** Which window owns the store. */
    owner() {
        return this.#within('readonly', (_, rest) => answered(rest.get('owner')));
    }

    /** Makes a window the owner, or none, where it belongs to `expected`: whether that is so. */
    own(expected, window) {
        return this.#within('readwrite', async (_, rest) => {
            if (await answered(rest.get('owner')) !== expected) return false;
            await answered(window === undefined ? rest.delete('owner') : rest.put(window, 'owner'));
            return true;
        });
    }

    /**
     * Keeps a state, with messages that are new or changed. Where the store is full the oldest go:
     * `onGone` gets their numbers. `isAnew` takes all messages away first; `aside` is an unreadable
     * state that nobody overwrites.
     */
    async keep(change, onGone) {
        for (let tried = 0; ; tried++) {
            try {
                await this.#write(change);
                return;
            } catch (fault) {
                if (!isFull(fault) || tried === OFTEN || !this.#helps) {
                    this.#helps &&= !isFull(fault); // what didn't help takes no more messages away
                    throw this.#words(fault);
                }
                const oldest = await this.#forgetOldest().catch((other) => { throw this.#words(other); });
                if (oldest.length === 0) throw this.#words(fault);
                onGone(oldest);
            }
        }
    }

    #words(fault) {
        if (fault instanceof StoreFault) return fault;
        return new StoreFault("The browser's store is full or closed: what comes now is lost with this page. "
            + 'Save the log, and then begin anew.');
    }

    #write({ state, messages = [], isAnew = false, aside }) {
        return this.#within('readwrite', async (kept, rest) => {
            await this.#checkOwner(rest);
            if (isAnew) await answered(kept.clear());
            if (aside !== undefined) await answered(rest.put(aside, `aside ${new Date().toISOString()}`));
            await Promise.all([...messages.map((message) => answered(kept.put(message))),
                answered(rest.put(state, 'state'))]);
        });
    }

    #forgetOldest() {
        return this.#within('readwrite', async (messages, rest) => {
            await this.#checkOwner(rest);
            const oldest = await answered(messages.getAllKeys(null, AT_ONCE));
            if (oldest.length > 0) await answered(messages.delete(IDBKeyRange.bound(oldest[0], oldest.at(-1))));
            return oldest;
        });
    }

    async #checkOwner(rest) {
        if (await answered(rest.get('owner')) !== this.#window) throw new LostFault('Another window receives now.');
    }

    /** Does something in one transaction, which holds whole or not at all. */
    #within(mode, action) {
        return new Promise((resolve, reject) => {
            const transaction = this.#database.transaction([MESSAGES, REST], mode, { durability: 'strict' });
            let answer;
            let fault;
            transaction.oncomplete = () => resolve(answer);
            transaction.onabort = () => reject(fault ?? transaction.error);
            action(transaction.objectStore(MESSAGES), transaction.objectStore(REST)).then(
                (value) => { answer = value; },
                (found) => {
                    fault = found;
                    try {
                        transaction.abort();
                    } catch {
                        // it was aborted by the browser, which has told so or will
                    }
                });
        });
    }
}

/** Where the browser keeps nothing: all is gone with the window. */
export class NoStore {
    get isThere() {
        return false;
    }

    async read() {
        return { state: undefined, messages: [] };
    }

    async keep() {
        // nothing stays
    }
}
