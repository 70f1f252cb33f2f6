// A receiver by a module, navtex.wasm or navtex32.wasm, in a browser or in node. The calls are those of
// navtex-live.h. Each has the numbers of the module's memory as its arguments; here a method takes
// bytes and gives bytes.

const CHANNELS = 3;
const CHANNEL = 7464; // NX_LIVE_CHANNEL of the header
const COMBINING_CHANNEL = 19864; // NX_LIVE_COMBINING_CHANNEL
const FAMILY = 8240; // NX_LIVE_FAMILY
const MAX_ENTRY = 4163; // NX_LIVE_MAX_ENTRY
const MAX_STATE = 11001; // no text of a state is longer
const MAX_TEXT = 4100; // no text of an entry is longer
const PIECE = 4096; // elements that one call of the module hears
const PAGE = 65536;

// What the calls write to, behind the module's own memory; behind it the places lie, and then the families
// of each channel.
const OFFSETS = {
  handle: 0, number: 24, written: 32, entry: 40, log: 64, text: 64 + MAX_ENTRY, elements: 64 + MAX_STATE,
  room: Math.ceil((64 + MAX_STATE + PIECE) / 8) * 8,
};

function grow(memory, pages) {
  try {
    return memory.grow(pages);
  } catch {
    return memory.grow(BigInt(pages)); // a newer engine, of a memory of 64 bits
  }
}

/** A call that wasn't done, with its status: a number of `enum nx_live_status`. */
export class Refused extends Error {
  constructor(call, status) {
    super(`${call}: status ${status}`);
    this.status = status;
  }
}

export class Receiver {
  /** A closed receiver, by the bytes of a module. It takes several sendings of a message together, with so
   * many families of each channel, 0 to 200; with 0 each copy is judged alone. */
  static async of(bytes, families = 0) {
    const { instance } = await WebAssembly.instantiate(bytes, {});
    return new Receiver(instance.exports, families);
  }

  constructor(exports, families) {
    this.exports = exports;
    this.base = Math.ceil(Number(exports.__heap_base.value) / 8) * 8;
    const places = CHANNELS * (families > 0 ? COMBINING_CHANNEL : CHANNEL);
    const size = OFFSETS.room + places + CHANNELS * families * FAMILY;
    const lacking = this.base + size - exports.memory.buffer.byteLength;
    if (lacking > 0) grow(exports.memory, Math.ceil(lacking / PAGE));
    const [handle, room] = [this.at("handle"), this.at("room")];
    if (families > 0) exports.nx_live_lend_3_families(handle, room, room + BigInt(places), BigInt(families));
    else exports.nx_live_lend_3(handle, room);
  }

  at(name) {
    return BigInt(this.base + OFFSETS[name]);
  }

  bytes(name, length) {
    return new Uint8Array(this.exports.memory.buffer, this.base + OFFSETS[name], length);
  }

  number(name) {
    return Number(new DataView(this.exports.memory.buffer).getBigUint64(this.base + OFFSETS[name], true));
  }

  call(name, ...given) {
    const status = this.exports[name](this.at("handle"), ...given);
    if (status !== 0) throw new Refused(name, status);
  }

  /** Opens it at a moment, in seconds since 1970. */
  open(moment) {
    this.call("nx_live_open", BigInt(moment));
  }

  /** Opens it from the text of a state, as `save` gives it. */
  openFrom(state) {
    const begin = state.subarray(0, MAX_STATE); // what stands behind a state isn't read
    this.bytes("log", begin.length).set(begin);
    this.call("nx_live_open_from", this.at("log"), BigInt(begin.length));
  }

  setMoment(moment) {
    this.call("nx_live_set_moment", BigInt(moment));
  }

  /** Hears elements of a channel, 1 for B and 0 for Y: gives the entries that are printed. */
  hear(channel, elements) {
    const entries = [];
    for (let at = 0, heard; at < elements.length; at += heard) {
      const piece = elements.subarray(at, at + PIECE);
      this.bytes("elements", piece.length).set(piece);
      this.call("nx_live_hear", channel, this.at("elements"), BigInt(piece.length), this.at("number"),
        this.at("log"), BigInt(MAX_ENTRY), this.at("written"));
      heard = this.number("number");
      if (this.number("written") > 0) entries.push(this.bytes("log", this.number("written")).slice());
    }
    return entries;
  }

  /** From how many sendings the entry is put together that `hear` gave last of a channel. */
  sendings(channel) {
    this.call("nx_live_sendings", channel, this.at("number"));
    return this.number("number");
  }

  /** Refuses or accepts a station or a subject: `select(0, "refuse", "station", "E")`. */
  select(channel, what, of, letter) {
    this.call(`nx_live_${what}_${of}`, channel, letter.charCodeAt(0));
  }

  /** The text of a state, to go on with. */
  save() {
    this.call("nx_live_save", this.at("log"), BigInt(MAX_STATE), this.at("written"));
    return this.bytes("log", this.number("written")).slice();
  }

  /** What the entry says with which bytes begin, whatever stands behind it: one of `hear` or `close`,
   * or of a log. Where they begin with none, this is refused with status 37. */
  entryOf(bytes) {
    const begin = bytes.subarray(0, MAX_ENTRY);
    this.bytes("log", begin.length).set(begin);
    this.call("nx_live_log_entry", this.at("log"), BigInt(begin.length), this.at("entry"), this.at("text"),
      BigInt(MAX_TEXT), this.at("written"));
    const seen = new DataView(this.exports.memory.buffer, this.base + OFFSETS.entry, 24);
    return {
      moment: Number(seen.getBigUint64(0, true)),
      length: Number(seen.getBigUint64(8, true)),
      errors: seen.getUint16(16, true),
      channel: seen.getUint8(18),
      station: String.fromCharCode(seen.getUint8(19)),
      subject: String.fromCharCode(seen.getUint8(20)),
      number: seen.getUint8(21),
      how: ["full", "cut", "long"][seen.getUint8(22)],
      text: this.bytes("text", this.number("written")).slice(),
    };
  }

  /** Ends the elements: gives what their end prints. The receiver may be opened again. */
  close() {
    const entries = [];
    do {
      this.call("nx_live_close", this.at("log"), BigInt(MAX_ENTRY), this.at("written"));
      if (this.number("written") > 0) entries.push(this.bytes("log", this.number("written")).slice());
    } while (this.number("written") > 0);
    return entries;
  }
}
