// An Ogg file of one stream, of Vorbis or Opus, cut at its pages (RFC 3533): each piece, behind the head of
// the stream, is an Ogg file that the browser decodes.
import { bytesOf, cut, hasWord } from './bytes.js';

const SLICE = 1 << 18; // bytes that are read at a time
const PAGE = 27;       // bytes of a page's head, without the lengths of what is in it
const WHOLE = 255;     // bytes of a part of a packet behind which another one follows
const [MOMENT, STREAM, NUMBER, SUM, COUNT] = [6, 14, 18, 22, 26]; // places in a page's head
const WARM = 0.25;     // seconds from which on a decoder gives what it would have given all along
const OPUS_RATE = 48000;
const DIVISOR = 0x04c11db7;

const REMAINDERS = Uint32Array.from({ length: 256 }, (_, byte) => {
    let sum = byte << 24;
    for (let bit = 0; bit < 8; bit++) sum = (sum << 1) ^ (sum < 0 ? DIVISOR : 0);
    return sum;
});

/** The sum of a page, by which it is known as whole. */
function sumOf(bytes) {
    let sum = 0;
    for (const byte of bytes) sum = (sum << 8) ^ REMAINDERS[(sum >>> 24) ^ byte];
    return sum >>> 0;
}

/** The page that lies whole at a place of bytes: its `length`, the `moment` of its end in samples (-1 where no
 *  packet ends in it), its `stream`, and how many `packets` end in it; or null. */
function pageAt(bytes, at) {
    if (!hasWord(bytes, 'OggS', at) || at + PAGE > bytes.length) return null;
    const lengths = bytes.subarray(at + PAGE, at + PAGE + bytes[at + COUNT]);
    const length = PAGE + lengths.length + lengths.reduce((sum, one) => sum + one, 0);
    if (lengths.length < bytes[at + COUNT] || at + length > bytes.length) return null;
    const view = new DataView(bytes.buffer, bytes.byteOffset + at);
    return { at, length, moment: Number(view.getBigInt64(MOMENT, true)), stream: view.getUint32(STREAM, true),
        packets: lengths.filter((one) => one < WHOLE).length };
}

/** The pages in bytes, each with its place; what is none is passed over. Only those that are whole. */
function* pagesIn(bytes) {
    for (let at = bytes.indexOf(0x4f); at >= 0;) {
        const page = pageAt(bytes, at);
        if (page !== null) yield page;
        at = bytes.indexOf(0x4f, page === null ? at + 1 : at + page.length);
    }
}

/** The pages of a file from a place on, in lists. */
async function* pagesOf(file, begin) {
    for (let from = begin; from < file.size;) {
        const bytes = await bytesOf(file, from, SLICE);
        const list = [...pagesIn(bytes)].map((page) => ({ ...page, at: from + page.at }));
        yield list;
        from = list.length === 0 ? from + SLICE : list.at(-1).at + list.at(-1).length;
    }
}

/** Where the head of the stream ends, which has so many packets; null where it never does. */
async function headEnd(file, packets) {
    let left = packets;
    for await (const pages of pagesOf(file, 0)) {
        const last = pages.find((page) => (left -= page.packets) <= 0);
        if (last !== undefined) return last.at + last.length;
    }
    return null;
}

/** The pages as parts of the sound, as `cut` takes them. */
async function* partsOf(lists, silent) {
    let sample = 0;
    for await (const pages of lists) {
        yield pages.map(({ at, moment }) => {
            const first = sample;
            sample = Math.max(sample, moment - silent);
            return { at, first, last: sample };
        });
    }
}

/** What the first page says of the sound: `rate`, `sides`, the `silent` samples before it, the
 *  `packets` of its head; or null, where only the browser knows it. */
function saidOf(bytes) {
    const view = new DataView(bytes.buffer);
    const at = PAGE + 1;
    if (bytes.length < at + 19) return null;
    if (hasWord(bytes, 'OpusHead', at)) {
        return { rate: OPUS_RATE, sides: bytes[at + 9], silent: view.getUint16(at + 10, true), packets: 2 };
    }
    if (!hasWord(bytes, '\x01vorbis', at)) return null;
    return { rate: view.getUint32(at + 12, true), sides: bytes[at + 11], silent: 0, packets: 3 };
}

/** Pages as a file of its own: numbered from 0, their moments counted from `base`. Those of the head have none. */
function ownFile(head, rest, base) {
    const bytes = new Uint8Array(head.length + rest.length);
    bytes.set(head);
    bytes.set(rest, head.length);
    let number = 0;
    for (const { at, length, moment } of pagesIn(bytes)) {
        const view = new DataView(bytes.buffer, at, length);
        if (moment >= 0 && at >= head.length) view.setBigInt64(MOMENT, BigInt(Math.max(0, moment - base)), true);
        view.setUint32(NUMBER, number++, true);
        view.setUint32(SUM, 0, true);
        view.setUint32(SUM, sumOf(bytes.subarray(at, at + length)), true);
    }
    return bytes.buffer;
}

/** An Ogg file in pieces of some `size` samples of all sides; null where it is none, or more than one stream. */
export async function oggOf(file, size) {
    const start = await bytesOf(file, 0, SLICE);
    const first = pageAt(start, 0);
    const said = first && saidOf(start);
    const begin = said && await headEnd(file, said.packets);
    if (!begin) return null;
    let isOne = true;
    const pages = async function* () {
        for await (const list of pagesOf(file, begin)) {
            isOne &&= list.every(({ stream }) => stream === first.stream);
            yield list;
        }
    };
    const { rate, sides, silent } = said;
    const pieces = await cut(file, partsOf(pages(), silent), size / sides, WARM * rate);
    const head = await bytesOf(file, 0, begin);
    const fileOf = async ({ from, to, base }) => ownFile(head, await bytesOf(file, from, to - from), base);
    return isOne ? { rate, pieces, fileOf } : null;
}
