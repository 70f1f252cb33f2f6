// The receiver with its messages: whatever is printed is kept at once, with the state behind it. After
// a reload it goes on from there, so that nothing is lost and nothing is printed again.
import { Messages } from '../receiver/copies.js';
import { entriesOf, entryAt, isWhole, lineOf } from '../receiver/entries.js';
import { ReceiverFault } from '../receiver/receiver.js';
import { SoundRun } from '../receiver/run.js';
import { EMPTY_STATE, refusedIn, stateAt, stateForgotten, stateRefusing, stateWith } from '../receiver/state.js';
import { LostFault, StoreFault } from './store.js';

const AT_ONCE = 200; // entries of a log after which the page may do something else
const LISTS = { Station: 'stations', Subject: 'subjects' }; // of what is refused, by kind

/** From how many sendings an entry is, as far as that is known. */
const sendingsOf = (count) => (Number.isSafeInteger(count) && count > 1 ? { sendings: count } : {});

/** A message of an entry that the store has, or null where it is none. */
function messageOf({ id, text, isRead, sendings }) {
    const entry = typeof text === 'string' ? entryAt(text) : null;
    if (entry === null || !Number.isSafeInteger(id)) return null;
    return { ...entry, id, isRead: isRead === true, ...sendingsOf(sendings) };
}

const storedOf = ({ id, log, isRead, sendings }) => ({ id, text: log, isRead, ...sendingsOf(sendings) });

/** In order of time; of one time in the order in which they were printed. */
const inOrder = (one, other) => one.moment - other.moment || one.id - other.id;

export class KeptReceiver {
    #receiver;
    #witness;
    #store;
    #on;
    #run = null;      // the sound that is being heard
    #printed;         // messages that were printed since the receiver was opened
    #messages = [];   // in order
    #refused;         // for each channel what the user refuses
    #lastId = 0;
    #written = Promise.resolve();

    /**
     * `receivers` are two closed ones, ours and the witness of each sound. `on` is told `fault`, where
     * something can't be kept or taken up, and the receiver goes on all the same; `added` of new
     * messages, once they are kept; `changed`, where others changed.
     */
    constructor(receivers, store, on) {
        [this.#receiver, this.#witness] = receivers;
        this.#store = store;
        this.#on = on;
    }

    /** Opens the receiver from what the store has; `now` is the clock's moment. Where it has nothing,
     *  `before` gives what an older page kept, its state and its entries. */
    async open(now, before = () => null) {
        const { state, messages } = await this.#read();
        const older = state === undefined && messages.length === 0 ? before() : null;
        const stored = older === null ? messages : older.entries.map((entry, at) => ({ ...entry, id: at + 1 }));
        this.#take(stored);
        const odd = stored.length - this.#messages.length;
        if (odd > 0) this.#on.fault(new StoreFault(`The browser's store has ${odd} entries that are no messages. `
            + 'They stay there, and are not shown.'));
        this.#start(older?.state ?? state ?? stateWith(EMPTY_STATE, this.#messages), now);
        if (older !== null) await this.#write({ messages: this.#messages });
    }

    /** Shows what another window received since; `isAnew` says that others changed too. */
    follow({ isAnew }) {
        this.#written = this.#written.then(() => this.#follow(isAnew));
        return this.#written;
    }

    get messages() {
        return this.#messages;
    }

    /** For each channel the stations and the subjects that the user refuses. */
    get refused() {
        return this.#refused;
    }

    /** What the sound that is heard refuses too, by commands in its file. */
    get refusedHere() {
        return this.#run === null ? this.#refused : refusedIn(this.#receiver.save());
    }

    /** Begins a sound or a file; elements before any moment of it are heard at `start`. */
    begin(start) {
        this.#witness.open(0);
        this.#run = new SoundRun(this.#receiver, this.#witness, start);
        return this.#run;
    }

    /** Takes a line of the sound, and keeps what it prints. */
    take(line) {
        const entries = this.#run.take(line);
        this.#printed.add(entries);
        this.#keepPrinted(entries);
    }

    /** The sound is over: what was still being heard is printed as cut. What its commands chose is over
     *  too. Where nothing that was printed can become better, the receiver begins anew from its state;
     *  else it goes on with the next sound. Answers when all is kept. */
    async endOfSound(now) {
        const entries = this.#run.close();
        this.#run = null;
        this.#printed.add(entries);
        const state = this.#state();
        if (this.#isDone() || stateAt(state, now) !== state) {
            this.#receiver.abandon();
            this.#start(state, now);
        } else {
            this.#refuseAsChosen();
        }
        this.#keepPrinted(entries);
        await this.#written;
    }

    /** Refuses a station or a subject on a channel, or accepts it again. */
    choose(kind, channel, letter, isRefused) {
        this.#receiver[(isRefused ? 'refuse' : 'accept') + kind](channel, letter);
        const list = LISTS[kind];
        const others = this.#refused[channel][list].filter((other) => other !== letter);
        this.#refused[channel][list] = isRefused ? [...others, letter].sort() : others;
        this.#write({});
    }

    markRead(messages) {
        const unread = messages.filter(({ isRead }) => !isRead);
        for (const message of unread) message.isRead = true;
        if (unread.length > 0) this.#write({ messages: unread });
        return unread;
    }

    /** Takes the messages of a log that aren't there yet, and remembers them: how many they are. */
    async load(text, now, breathe) {
        const entries = [];
        let stray = null;
        for (const entry of entriesOf(text, (at) => { stray ??= at; })) {
            entries.push(entry);
            if (entries.length % AT_ONCE === 0) await breathe();
        }
        const added = this.#unknown(entries).map((entry) => ({ ...entry, id: ++this.#lastId, isRead: true }));
        const state = stateWith(this.#state(), entries);
        this.#receiver.abandon();
        this.#start(state, now);
        this.#messages = [...this.#messages, ...added].sort(inOrder);
        await this.#write({ messages: added });
        return { found: entries.length, added: added.length, stray: stray === null ? null : lineOf(text, stray) };
    }

    /** Forgets all messages and what is remembered; what is refused stays. */
    async beginAnew(now) {
        const state = stateForgotten(this.#state());
        this.#receiver.abandon();
        this.#start(state, now);
        this.#messages = [];
        await this.#write({ isAnew: true });
    }

    async #follow(isAnew) {
        const { state, messages } = await this.#read(isAnew ? 0 : this.#lastId);
        if (isAnew) {
            this.#messages = [];
            this.#lastId = 0;
        }
        this.#take(messages);
        if (typeof state === 'string') this.#refused = refusedIn(state);
        this.#on.changed();
    }

    /** What another window left in the store; where it can't be read, nothing. */
    async #read(last) {
        try {
            return await this.#store.read(last);
        } catch (fault) {
            this.#on.fault(new StoreFault(`What this browser kept of the page can't be read: ${fault.message}.`));
            return { state: undefined, messages: [] };
        }
    }

    #take(stored) {
        const messages = stored.map(messageOf).filter((message) => message !== null);
        this.#messages = [...this.#messages, ...messages].sort(inOrder);
        for (const { id } of stored) if (Number.isSafeInteger(id)) this.#lastId = Math.max(this.#lastId, id);
    }

    /** The state: what is remembered by now, and what the user refuses. */
    #state() {
        return stateRefusing(this.#receiver.save(), this.#refused);
    }

    /** Whether no later sending makes what was printed better; what is numbered 00 is never taken together. */
    #isDone() {
        if (this.#receiver.families === 0) return true;
        return this.#printed.all.every(({ best }) => best.number === '00' || isWhole(best));
    }

    /** The receiver refuses what the user does, and nothing else. */
    #refuseAsChosen() {
        const here = refusedIn(this.#receiver.save());
        for (const [kind, list] of Object.entries(LISTS)) {
            this.#refused.forEach((chosen, channel) => {
                for (const letter of here[channel][list]) this.#receiver[`accept${kind}`](channel, letter);
                for (const letter of chosen[list]) this.#receiver[`refuse${kind}`](channel, letter);
            });
        }
    }

    /** The entries that aren't there yet; of equal ones as many as there are more. */
    #unknown(entries) {
        const known = new Map();
        for (const { log } of this.#messages) known.set(log, (known.get(log) ?? 0) + 1);
        return entries.filter(({ log }) => {
            const left = known.get(log) ?? 0;
            known.set(log, left - 1);
            return left <= 0;
        });
    }

    /** Opens the receiver from a state, without what a clock far ahead left in it. One that is no state
     *  is put aside, and it is opened from what the messages tell. */
    #start(state, now) {
        this.#printed = new Messages();
        try {
            this.#receiver.openFrom(typeof state === 'string' ? state : '');
            this.#receiver.abandon();
        } catch (fault) {
            if (!(fault instanceof ReceiverFault)) throw fault;
            this.#on.fault(new StoreFault(`What this browser kept of the receiver is put aside: ${fault.message}. `
                + 'It goes on from the messages.'));
            const mended = stateWith(EMPTY_STATE, this.#messages);
            this.#receiver.openFrom(stateAt(mended, now));
            this.#refused = refusedIn(mended);
            this.#write({ aside: state });
            return;
        }
        this.#receiver.openFrom(stateAt(state, now));
        this.#refused = refusedIn(state);
    }

    #keepPrinted(entries) {
        const added = entries.map((entry) => ({ ...entry, id: ++this.#lastId, isRead: false }));
        if (added.length > 0) this.#write({ messages: added }).then(() => this.#show(added));
    }

    /** Shows messages, once they are kept or it is told that they can't be. */
    #show(added) {
        const before = this.#messages.at(-1);
        this.#messages.push(...added);
        if (before !== undefined && inOrder(before, added[0]) > 0) this.#messages.sort(inOrder);
        this.#on.added(added);
    }

    /** Writes a change with the state as it is now, behind what is still being written. A full store, or
     *  one that can't be written, ends nothing. */
    #write({ messages = [], ...rest }) {
        const change = { state: this.#state(), messages: messages.map(storedOf), ...rest };
        this.#written = this.#written.then(async () => {
            try {
                await this.#store.keep(change, (gone) => this.#forget(gone));
                this.#on.kept?.({ isAnew: change.isAnew === true || change.messages.some(({ isRead }) => isRead) });
            } catch (fault) {
                if (!(fault instanceof StoreFault)) throw fault;
                if (fault instanceof LostFault) this.#on.lost?.();
                this.#on.fault(fault);
            }
        });
        return this.#written;
    }

    /** The store was full, and the oldest messages went. */
    #forget(gone) {
        const ids = new Set(gone);
        this.#messages = this.#messages.filter(({ id }) => !ids.has(id));
        this.#on.fault(new StoreFault(`The browser's store is full: the ${gone.length} oldest messages went. `
            + 'Save the log to keep those that are there.'));
        this.#on.changed();
    }
}
