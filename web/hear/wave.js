// A WAV file, read in slices: a recording of hours never lies in memory whole.

const HEAD = 12;           // bytes before the first part
const PART = 8;            // bytes of a part's name and length
const MOST_PARTS = 100;    // before the samples
const UNKNOWN = 0xffffffff; // a length that a program which ended early left, or one in 64 bits
const INTEGERS = 1;
const FLOATS = 3;
const EXTENDED = 0xfffe;

export const SIDES = ['both', 'left', 'right'];

const READERS = {
    [`${INTEGERS} 8`]: (view, at) => (view.getUint8(at) - 128) / 128,
    [`${INTEGERS} 16`]: (view, at) => view.getInt16(at, true) / 32768,
    [`${INTEGERS} 24`]: (view, at) => ((view.getInt8(at + 2) << 16) | view.getUint16(at, true)) / 8388608,
    [`${INTEGERS} 32`]: (view, at) => view.getInt32(at, true) / 2147483648,
    [`${FLOATS} 32`]: (view, at) => view.getFloat32(at, true),
    [`${FLOATS} 64`]: (view, at) => view.getFloat64(at, true),
};

async function viewOf(file, at, length) {
    return new DataView(await file.slice(at, at + length).arrayBuffer());
}

function wordAt(view, at) {
    return String.fromCharCode(...new Uint8Array(view.buffer, at, 4));
}

/**
 * How the samples lie in a WAV file: `begin` and `end` in bytes, the `rate`, the `sides`, the bytes of
 * a sample of all sides (`width`), and what they are (`kind`). Null where it is no such file, or its
 * samples are packed in a way that only the browser knows.
 */
export async function layoutOf(file) {
    const head = await viewOf(file, 0, HEAD);
    if (head.byteLength < HEAD || wordAt(head, 8) !== 'WAVE') return null;
    if (!['RIFF', 'RF64', 'BW64'].includes(wordAt(head, 0))) return null;
    let form = null;
    let long = null; // the length of the samples, where it takes 64 bits
    let at = HEAD;
    for (let parts = 0; parts < MOST_PARTS; parts++) {
        const part = await viewOf(file, at, PART);
        if (part.byteLength < PART) return null;
        const [word, length] = [wordAt(part, 0), part.getUint32(4, true)];
        at += PART;
        if (word === 'data') return form && { ...form, ...placeOf(file, at, long ?? length, form.width) };
        if (word === 'fmt ') form = formOf(await viewOf(file, at, Math.min(length, 40)));
        if (word === 'ds64') long = Number((await viewOf(file, at, 16)).getBigUint64(8, true));
        at += length + (length % 2);
    }
    return null;
}

/** Where the samples begin and end; an unfinished file has them up to its end. */
function placeOf(file, begin, length, width) {
    const there = file.size - begin;
    const taken = length === 0 || length === UNKNOWN ? there : Math.min(length, there);
    return { begin, end: begin + taken - (taken % width) };
}

function formOf(view) {
    if (view.byteLength < 16) return null;
    const said = view.getUint16(0, true);
    const tag = said === EXTENDED && view.byteLength >= 26 ? view.getUint16(24, true) : said;
    const [sides, rate, width, bits] = [view.getUint16(2, true), view.getUint32(4, true), view.getUint16(12, true),
        view.getUint16(14, true)];
    const kind = `${tag} ${bits}`;
    const isOurs = READERS[kind] !== undefined && sides > 0 && rate > 0 && width === (sides * bits) / 8;
    return isOurs ? { kind, sides, rate, width } : null;
}

/** The samples of bytes that begin with a whole sample: of one side, or of both as one. */
export function samplesOf(bytes, { kind, sides, width }, side) {
    const [view, read] = [new DataView(bytes), READERS[kind]];
    const samples = new Float32Array(Math.floor(bytes.byteLength / width));
    const [first, last] = takenOf(sides, side);
    const size = width / sides;
    for (let place = 0; place < samples.length; place++) {
        let sum = 0;
        for (let one = first; one <= last; one++) sum += read(view, place * width + one * size);
        samples[place] = sum / (last - first + 1);
    }
    return samples;
}

/** The first and the last side that is heard. */
export function takenOf(sides, side) {
    if (side === 'left' || sides === 1) return [0, 0];
    return side === 'right' ? [1, 1] : [0, sides - 1];
}
