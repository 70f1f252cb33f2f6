// A FLAC file, cut at its frames (RFC 9639): each piece, behind a head of its own, is a FLAC file that the
// browser decodes.
import { behindTag, bytesOf, cut, hasWord } from './bytes.js';

const SLICE = 1 << 17;  // bytes that are read at a time: of silence, some thousand frames
const HEAD = 42;        // bytes of the mark, and of what is said of the whole stream
const PART = 4;         // bytes of the mark, and of a part's kind and length
const LAST = 128;       // with which the last part before the frames is marked
const FRAME = 17;       // bytes of a frame's head with its remainder, at most
const LEAP = 1 << 20;   // samples that a file may lack in one place
const SIDES = 10;       // the last way in which a frame has its sides
const SIZE_BYTES = { 6: 1, 7: 2 };          // bytes behind the number that say how many samples a frame has
const RATE_BYTES = { 12: 1, 13: 2, 14: 2 }; // and those that say its rate
const DIVISOR = 7;      // of the remainder of a head

const REMAINDERS = Uint8Array.from({ length: 256 }, (_, byte) => {
    let sum = byte;
    for (let bit = 0; bit < 8; bit++) sum = (sum << 1) ^ (sum & 128 ? DIVISOR : 0);
    return sum;
});

/** The remainder of bytes from one place to another, by which a frame's head is known as whole. */
function remainderOf(bytes, from, to) {
    let sum = 0;
    for (let at = from; at < to; at++) sum = REMAINDERS[sum ^ bytes[at]];
    return sum;
}

/** The number at a place, written as in UTF-8 of up to seven bytes: [number, bytes]; or null. */
function numberAt(bytes, at) {
    const ones = Math.clz32(~(bytes[at] << 24));
    if (ones === 0) return [bytes[at], 1];
    if (ones === 1 || ones > 7) return null;
    let number = bytes[at] & (127 >> ones);
    for (let place = at + 1; place < at + ones; place++) {
        if (bytes[place] >> 6 !== 2) return null;
        number = 64 * number + (bytes[place] & 63);
    }
    return [number, ones];
}

/** How many samples a frame has by its head, whose number ends before a place. */
function samplesSaid(code, bytes, place) {
    if (code === 6) return bytes[place] + 1;
    if (code === 7) return 256 * bytes[place] + bytes[place + 1] + 1;
    if (code === 1) return 192;
    return code < 6 ? 576 << (code - 2) : 256 << (code - 8);
}

/** The frame whose head lies at a place of bytes: its `number`, which counts frames where `isFixed`, else
 *  samples; and its `samples`; or null. */
export function frameAt(bytes, at) {
    if (bytes[at] !== 0xff || bytes[at + 1] >> 1 !== 0x7c) return null;
    const [size, rate] = [bytes[at + 2] >> 4, bytes[at + 2] & 15];
    if (size === 0 || rate === 15 || bytes[at + 3] >> 4 > SIDES || bytes[at + 3] & 1) return null;
    const said = numberAt(bytes, at + PART);
    if (said === null) return null;
    const [number, length] = said;
    const place = at + PART + length;
    const end = place + (SIZE_BYTES[size] ?? 0) + (RATE_BYTES[rate] ?? 0);
    if (remainderOf(bytes, at, end) !== bytes[end]) return null;
    return { number, isFixed: bytes[at + 1] === 0xf8, samples: samplesSaid(size, bytes, place) };
}

/** The head of a file of its own: no length and no sum are said of it. */
function ownHead(head) {
    const own = head.slice();
    own[PART] = LAST;
    own[21] &= 0xf0;
    own.fill(0, 22);
    return own;
}

/** Where the frames begin, behind all other parts. */
async function framesBegin(file, begin) {
    let at = begin + PART;
    for (;;) {
        const [kind, ...length] = await bytesOf(file, at, PART);
        if (length.length < PART - 1) return file.size;
        at += PART + length.reduce((sum, byte) => 256 * sum + byte, 0);
        if (kind & LAST) return at;
    }
}

/** What looks like a frame in the first bytes, each with its place. */
function* framesIn(bytes) {
    for (let at = bytes.indexOf(0xff); at >= 0 && at < SLICE; at = bytes.indexOf(0xff, at + 1)) {
        const frame = frameAt(bytes, at);
        if (frame !== null) yield { ...frame, at };
    }
}

/** The frames in lists, as `cut` takes them. What only looks like one has a number that doesn't fit. */
async function* framesOf(file, begin) {
    let [fixed, next] = [null, null]; // samples of each frame but the last; the sample that comes next
    for (let from = begin; from < file.size; from += SLICE) {
        const bytes = new Uint8Array(SLICE + FRAME);
        bytes.set(await bytesOf(file, from, bytes.length));
        const list = [];
        for (const { at, number, isFixed, samples } of framesIn(bytes)) {
            fixed ??= samples;
            const first = isFixed ? number * fixed : number;
            if (next !== null && (first < next || first > next + LEAP)) continue;
            next = first + samples;
            list.push({ at: from + at, first, last: next });
        }
        yield list;
    }
}

/** A FLAC file in pieces of some `size` samples of all sides; null where it is none. */
export async function flacOf(file, size) {
    const begin = await behindTag(file);
    const head = await bytesOf(file, begin, HEAD);
    if (head.length < HEAD || !hasWord(head, 'fLaC') || (head[PART] & ~LAST) !== 0) return null;
    const rate = (head[18] << 12) | (head[19] << 4) | (head[20] >> 4);
    const sides = 1 + ((head[20] >> 1) & 7);
    const own = ownHead(head);
    const frames = framesOf(file, await framesBegin(file, begin));
    return { rate, pieces: await cut(file, frames, size / sides, 0),
        fileOf: async ({ from, to }) => new Blob([own, file.slice(from, to)]).arrayBuffer() };
}
