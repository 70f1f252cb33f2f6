// The proved receiver: the calls of crates/nx_live/navtex-live.h, over its module of WebAssembly.
// All that is proved of the page is what these calls answer. The module has a memory of 32 bits;
// its calls take addresses and lengths as BigInt all the same.

const PAGE = 65536;
export const CHANNELS = 3;
export const ROOM = 22392;     // NX_LIVE_KEPT
export const MAX_ENTRY = 4163; // NX_LIVE_MAX_ENTRY
const MAX_STATE = 12288;
const MAX_ELEMENTS = 4096; // of one call; more are given in pieces

export const COMBINING_CHANNEL = 19864; // NX_LIVE_COMBINING_CHANNEL, where sendings are taken together
export const FAMILY = 8240;             // NX_LIVE_FAMILY

export const MAX_MOMENT = 32503679999; // the end of the year 2999

/** How a call ends, as far as a caller can do something about it; numbers are those of the header. */
export const Status = Object.freeze({
    DONE: 0,
    MOMENT_RANGE: 11,
    MOMENT_BACK: 12,
    VITAL: 13,
    STATE_LINE: 14,
    STATE_CUT: 15,
    NO_STATION: 28,
    CLOSED: 32,
    ALREADY_OPEN: 33,
    NO_CHANNEL: 34,
    NO_ELEMENT: 35,
    NO_SUBJECT: 36,
});

const WORDS = new Map([
    [Status.MOMENT_RANGE, 'the time is past the year 2999'],
    [Status.MOMENT_BACK, 'the time is before the one in force'],
    [Status.VITAL, "subjects A, B, D and L can't be refused"],
    [Status.STATE_LINE, 'what was kept is no state of a receiver'],
    [Status.STATE_CUT, 'what was kept of the receiver has no end'],
]);

/** A call that wasn't done. The receiver is as it was before. */
export class ReceiverFault extends Error {
    constructor(status) {
        super(WORDS.get(status) ?? `the receiver answers status ${status}`);
        this.status = status;
    }
}

/** Takes memory, which is all zero, and that only this file uses: where things of these sizes lie. */
function takeMemory(memory, sizes) {
    const places = {};
    let length = 0;
    for (const [name, size] of Object.entries(sizes)) {
        places[name] = length;
        length += Math.ceil(size / 16) * 16;
    }
    const start = memory.grow(Math.ceil(length / PAGE)) * PAGE;
    return Object.fromEntries(Object.entries(places).map(([name, at]) => [name, start + at]));
}

/** Where the things lie that a call reads and writes. */
function layOut(memory, room) {
    return takeMemory(memory, { handle: 64, room, number: 8, written: 8, elements: MAX_ELEMENTS,
        log: MAX_ENTRY, state: MAX_STATE });
}

/** Where so many families of each channel lie; null where there is no memory for them. */
function layOutFamilies(memory, count) {
    try {
        return takeMemory(memory, { families: CHANNELS * count * FAMILY }).families;
    } catch (fault) {
        if (!(fault instanceof RangeError)) throw fault;
        return null;
    }
}

const bytesOf = (text) => Uint8Array.from(text, (letter) => letter.charCodeAt(0) & 0xff);
const textOf = (bytes) => String.fromCharCode(...bytes);

export class Receiver {
    #calls;
    #memory;
    #at;

    /** For how many messages of a channel it takes sendings together; where it is none, each copy is
     *  judged alone. */
    families = 0;

    /** A closed receiver, of the bytes of the module. It takes the sendings of so many messages of a
     *  channel together, or of none, where there is no memory for them. */
    static async load(bytes, families = 0) {
        const { instance } = await WebAssembly.instantiate(bytes, {});
        return new Receiver(instance, families);
    }

    constructor(instance, families) {
        this.#calls = instance.exports;
        this.#memory = instance.exports.memory;
        const lent = families > 0 ? layOutFamilies(this.#memory, families) : null;
        this.#at = layOut(this.#memory, lent === null ? ROOM : CHANNELS * COMBINING_CHANNEL);
        const [handle, room] = [BigInt(this.#at.handle), BigInt(this.#at.room)];
        if (lent === null) {
            this.#calls.nx_live_lend_3(handle, room);
        } else {
            this.families = families;
            this.#calls.nx_live_lend_3_families(handle, room, BigInt(lent), BigInt(families));
        }
    }

    /** Opens it at a moment, in seconds since 1970. It remembers nothing. */
    open(moment) {
        this.#call('nx_live_open', BigInt(moment));
    }

    /** Opens it from the text of a state, as `save` gives it. */
    openFrom(state) {
        const bytes = bytesOf(state);
        if (bytes.length > MAX_STATE) throw new ReceiverFault(Status.STATE_LINE);
        this.#bytes(this.#at.state, bytes.length).set(bytes);
        this.#call('nx_live_open_from', BigInt(this.#at.state), BigInt(bytes.length));
    }

    /** The text of a state: what is remembered, and what is refused. */
    save() {
        this.#call('nx_live_save', BigInt(this.#at.state), BigInt(MAX_STATE), BigInt(this.#at.written));
        return textOf(this.#bytes(this.#at.state, this.#number(this.#at.written)));
    }

    setMoment(moment) {
        this.#call('nx_live_set_moment', BigInt(moment));
    }

    /** Hears elements, each a byte, 1 for B and 0 for Y: the entries that are printed, in order, each as it
     *  stands in a log, with the number of sendings that it is put together from. */
    hear(channel, elements) {
        const entries = [];
        for (let from = 0; from < elements.length;) {
            const [heard, log] = this.#hearPiece(channel, elements.subarray(from, from + MAX_ELEMENTS));
            from += heard;
            if (log !== '') entries.push({ log, sendings: this.#sendings(channel) });
        }
        return entries;
    }

    refuseStation(channel, letter) {
        this.#select('nx_live_refuse_station', channel, letter);
    }

    acceptStation(channel, letter) {
        this.#select('nx_live_accept_station', channel, letter);
    }

    refuseSubject(channel, letter) {
        this.#select('nx_live_refuse_subject', channel, letter);
    }

    acceptSubject(channel, letter) {
        this.#select('nx_live_accept_subject', channel, letter);
    }

    /** Closes it: the entries that its end prints, of messages that were still being heard. From how many
     *  sendings these are, a receiver that is being closed doesn't say. */
    close() {
        const entries = [];
        for (;;) {
            this.#call('nx_live_close', BigInt(this.#at.log), BigInt(MAX_ENTRY), BigInt(this.#at.written));
            const log = this.#entry();
            if (log === '') return entries;
            entries.push({ log });
        }
    }

    /** The entries that its end would print here. It stays as it is: its memory is put back. */
    closing() {
        const memory = new Uint8Array(this.#memory.buffer);
        const before = memory.slice();
        const entries = this.close();
        memory.set(before);
        return entries;
    }

    /** Closes it, and prints nothing. */
    abandon() {
        this.#calls.nx_live_abandon(BigInt(this.#at.handle));
    }

    #hearPiece(channel, elements) {
        this.#bytes(this.#at.elements, elements.length).set(elements);
        this.#call('nx_live_hear', channel, BigInt(this.#at.elements), BigInt(elements.length),
            BigInt(this.#at.number), BigInt(this.#at.log), BigInt(MAX_ENTRY), BigInt(this.#at.written));
        return [this.#number(this.#at.number), this.#entry()];
    }

    /** From how many sendings the entry is that was printed last on a channel. */
    #sendings(channel) {
        this.#call('nx_live_sendings', channel, BigInt(this.#at.number));
        return this.#number(this.#at.number);
    }

    #select(name, channel, letter) {
        this.#call(name, channel, letter.charCodeAt(0));
    }

    #call(name, ...given) {
        const status = this.#calls[name](BigInt(this.#at.handle), ...given);
        if (status !== Status.DONE) throw new ReceiverFault(status);
    }

    #entry() {
        return textOf(this.#bytes(this.#at.log, this.#number(this.#at.written)));
    }

    #bytes(at, length) {
        return new Uint8Array(this.#memory.buffer, at, length);
    }

    #number(at) {
        return Number(new DataView(this.#memory.buffer).getBigUint64(at, true));
    }
}
