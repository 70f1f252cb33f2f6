// An MP3 file, read in slices: its frames are found here, and the browser decodes them one by one beside
// the page (worker/packed.js), or in pieces where it has no decoder for that. So a recording of hours never
// lies in memory whole.
import { behindTag, bytesOf, cut, hasWord } from './bytes.js';

const SLICE = 1 << 18;  // bytes that are read at a time
const HEAD = 4;         // bytes of a frame's head
const INDEX = 40;       // bytes of a frame by which one without sound is known
const WARM = 0.5;       // seconds from which on a decoder gives what it would have given all along
const MPEG1 = 3;
const RESERVED = 1;
const LAYER3 = 1;
const ONE_SIDE = 3;
const RATES = [44100, 48000, 32000]; // of MPEG 1; MPEG 2 has the half of each, MPEG 2.5 a quarter
const KILOBITS = [0, 32, 40, 48, 56, 64, 80, 96, 112, 128, 160, 192, 224, 256, 320];
const FEWER_KILOBITS = [0, 8, 16, 24, 32, 40, 48, 56, 64, 80, 96, 112, 128, 144, 160];

/** The frame whose head lies at a place of bytes: its `length` in bytes, `samples`, `rate` and `sides`; or null. */
export function frameAt(bytes, at) {
    if (at + HEAD > bytes.length || bytes[at] !== 0xff || bytes[at + 1] < 0xe0) return null;
    const [version, layer] = [(bytes[at + 1] >> 3) & 3, (bytes[at + 1] >> 1) & 3];
    const kilobits = (version === MPEG1 ? KILOBITS : FEWER_KILOBITS)[bytes[at + 2] >> 4];
    const usual = RATES[(bytes[at + 2] >> 2) & 3];
    if (version === RESERVED || layer !== LAYER3 || !kilobits || !usual) return null;
    const rate = usual / { [MPEG1]: 1, 2: 2, 0: 4 }[version];
    const samples = version === MPEG1 ? 1152 : 576;
    const padding = (bytes[at + 2] >> 1) & 1;
    const length = Math.floor((samples / 8) * ((1000 * kilobits) / rate)) + padding;
    return { length, samples, rate, sides: bytes[at + 3] >> 6 === ONE_SIDE ? 1 : 2 };
}

/** The frames in bytes, each with its place; what is none is passed over. Only those that are whole. */
export function* framesIn(bytes, rate) {
    for (let at = 0; at < bytes.length;) {
        const frame = frameAt(bytes, at);
        if (frame === null || frame.rate !== rate) {
            at++;
        } else {
            if (at + frame.length > bytes.length) return;
            yield { ...frame, at };
            at += frame.length;
        }
    }
}

/** The first frame, where another one of its kind follows it; or null, where this is no MP3 file. */
async function firstOf(file, begin) {
    const bytes = await bytesOf(file, begin, SLICE);
    const first = frameAt(bytes, 0);
    const second = first && frameAt(bytes, first.length);
    return second && second.rate === first.rate && second.sides === first.sides ? first : null;
}

/** The frames in lists, as `cut` takes them. */
async function* framesOf(file, begin, rate) {
    let samples = 0;
    for (let from = begin; from < file.size;) {
        const bytes = await bytesOf(file, from, SLICE);
        let end = bytes.length;
        const list = [];
        for (const frame of framesIn(bytes, rate)) {
            end = frame.at + frame.length;
            list.push({ at: from + frame.at, first: samples, last: samples += frame.samples });
        }
        yield list;
        from += end;
    }
}

/** The sound of an MP3 file, in pieces of some `length` seconds; null where it is none, or where this browser
 *  decodes none frame by frame. */
export async function mp3Of(file, length) {
    const begin = await behindTag(file);
    const first = await firstOf(file, begin);
    if (first === null || typeof AudioDecoder === 'undefined') return null;
    const packed = { codec: 'mp3', sampleRate: first.rate, numberOfChannels: first.sides };
    const { supported } = await AudioDecoder.isConfigSupported(packed).catch(() => ({ supported: false }));
    if (!supported) return null;
    const pieces = await cut(file, framesOf(file, begin, first.rate), length * first.rate, 0);
    const seconds = pieces.reduce((sum, { count }) => sum + count, 0) / first.rate;
    return { rate: first.rate, seconds, layout: null, packed, pieces: () => read(file, pieces, first.rate) };
}

async function* read(file, pieces, rate) {
    for (const { from, to, base, count } of pieces) {
        yield [await file.slice(from, to).arrayBuffer(), (base + count) / rate];
    }
}

/** Whether a frame has no sound, and only says how many follow it. */
async function isIndex(file, { at, length }) {
    const bytes = await bytesOf(file, at, Math.min(length, INDEX));
    return ['Xing', 'Info'].some((word) => [13, 21, 36].some((place) => hasWord(bytes, word, place)));
}

/** An MP3 file in pieces of some `size` samples of all sides, each a file of its own; null where it is none. */
export async function mp3PiecesOf(file, size) {
    const at = await behindTag(file);
    const first = await firstOf(file, at);
    if (first === null) return null;
    const begin = await isIndex(file, { ...first, at }) ? at + first.length : at;
    const pieces = await cut(file, framesOf(file, begin, first.rate), size / first.sides, WARM * first.rate);
    return { rate: first.rate, pieces, fileOf: ({ from, to }) => file.slice(from, to).arrayBuffer() };
}
