// An M4A file (MPEG-4) with one sound, of AAC, cut at its frames (ISO/IEC 14496-12 and 14496-3): each piece, its
// frames behind heads of their own (ADTS), is a file that the browser decodes.
import { bytesOf, cut, hasWord } from './bytes.js';
import { breathe } from './sound.js';

const HEAD = 8;           // bytes of a box's length and name
const LONG_HEAD = 16;     // and where its length has 64 bits
const MOST = 1 << 26;     // bytes of the tables, at most: those of a week
const MOST_BOXES = 1000;  // boxes that the tables may stand behind
const SOUND = 28;         // bytes before the boxes in what is said of a sound
const AAC = 0x40;         // a kind of sound
const LOW = 2;            // and the kind of AAC that each browser has
const HIGHER = 0x2b7;     // with which it is said whether another sound is to be made above it
const RATES = [96000, 88200, 64000, 48000, 44100, 32000, 24000, 22050, 16000, 12000, 11025, 8000, 7350];
const SAMPLES = 1024;     // of a frame
const WARM = 2 * SAMPLES; // from which on a decoder gives what it would have given all along
const AT_ONCE = 4096;     // frames of a list
const OWN_HEAD = 7;       // bytes before a frame of a piece
const MOST_FRAME = 8191;  // bytes of a frame with them

const viewOf = (bytes) => new DataView(bytes.buffer, bytes.byteOffset, bytes.length);

/** The tables of a file, which may stand at its end; null where there are none. */
async function tablesOf(file) {
    for (let at = 0, boxes = 0; boxes < MOST_BOXES; boxes++) {
        const head = await bytesOf(file, at, LONG_HEAD);
        if (head.length < LONG_HEAD || (boxes === 0 && !hasWord(head, 'ftyp', 4))) return null;
        const said = viewOf(head).getUint32(0);
        const length = said === 1 ? Number(viewOf(head).getBigUint64(HEAD)) : said;
        if (length < HEAD || length > file.size - at) return null;
        if (hasWord(head, 'moov', 4)) return length > MOST ? null : (await bytesOf(file, at, length)).subarray(HEAD);
        at += length;
    }
    return null;
}

/** The contents of the boxes of a name within bytes. */
function boxesIn(bytes, name) {
    const found = [];
    for (let at = 0; at + HEAD <= bytes.length;) {
        const length = viewOf(bytes).getUint32(at);
        if (length < HEAD) break;
        if (hasWord(bytes, name, at + 4)) found.push(bytes.subarray(at + HEAD, at + length));
        at += length;
    }
    return found;
}

/** The content of a box within others, each named; empty where it isn't there. */
const boxIn = (bytes, ...names) =>
    names.reduce((within, name) => boxesIn(within, name)[0] ?? new Uint8Array(), bytes);

/** What `read` makes of each row of a table, each of so many bytes, behind their count at a place; of fewer where it
 *  has no more. */
function rowsOf(table, at, width, read) {
    const most = Math.floor(Math.max(0, table.length - at - 4) / width);
    const view = viewOf(table);
    const rows = new Array(most === 0 ? 0 : Math.min(most, view.getUint32(at)));
    for (let row = 0; row < rows.length; row++) rows[row] = read(view, at + 4 + width * row);
    return rows;
}

const wordAt = (view, at) => view.getUint32(at);

/** What is in a part of a description, which begins with a tag and its length; empty where it is another one. */
function partIn(bytes, tag) {
    if (bytes[0] !== tag) return new Uint8Array();
    let [at, length] = [0, 0];
    do length = 128 * length + (bytes[++at] & 127); while (bytes[at] & 128);
    return bytes.subarray(at + 1, at + 1 + length);
}

const isSound = (track) => hasWord(boxIn(track, 'mdia', 'hdlr'), 'soun', HEAD);

/** The sound of a track: its rate, by its `code`, and `sides`; or null, where only the browser knows it. */
function soundOf(track) {
    const entry = boxIn(boxIn(track, 'mdia', 'minf', 'stbl', 'stsd').subarray(HEAD), 'mp4a');
    const config = partIn(partIn(boxIn(entry.subarray(SOUND), 'esds').subarray(4), 3).subarray(3), 4);
    const [one = 0, other = 0, ...rest] = config[0] === AAC ? partIn(config.subarray(13), 5) : [];
    const code = ((one & 7) << 1) | (other >> 7);
    const sides = (other >> 3) & 15;
    const isHigher = ((rest[0] << 3) | (rest[1] >> 5)) === HIGHER && (rest[2] & 128) !== 0;
    const isKnown = one >> 3 === LOW && (other & 7) === 0 && !isHigher && code < RATES.length;
    return isKnown && (sides === 1 || sides === 2) ? { code, rate: RATES[code], sides } : null;
}

/** How many samples before the sound aren't heard. */
function silentIn(track, rate) {
    const [list, clock] = [boxIn(track, 'edts', 'elst'), boxIn(track, 'mdia', 'mdhd')];
    if (list.length === 0 || clock.length < 24) return 0;
    const begins = list[0] === 1 ? rowsOf(list, 4, 20, (view, at) => Number(view.getBigInt64(at + 8)))
        : rowsOf(list, 4, 12, (view, at) => view.getInt32(at + 4));
    const begin = begins.find((one) => one >= 0) ?? 0;
    return Math.round((begin * rate) / viewOf(clock).getUint32(clock[0] === 1 ? 20 : 12));
}

/** The `places` of frames in the file, and their `sizes`; null where the tables don't say that of each. */
function framesOf(track) {
    const table = boxIn(track, 'mdia', 'minf', 'stbl');
    const sizes = rowsOf(boxIn(table, 'stsz'), 8, 4, wordAt);
    const chunks = rowsOf(boxIn(table, 'stco'), 4, 4, wordAt)
        .concat(rowsOf(boxIn(table, 'co64'), 4, 8, (view, at) => Number(view.getBigUint64(at))));
    const runs = rowsOf(boxIn(table, 'stsc'), 4, 12, (view, at) => [wordAt(view, at) - 1, wordAt(view, at + 4)]);
    const places = new Float64Array(sizes.length);
    let [run, frame] = [0, 0];
    for (let chunk = 0; chunk < chunks.length; chunk++) {
        while (run + 1 < runs.length && runs[run + 1][0] <= chunk) run += 1;
        const last = Math.min(sizes.length, frame + (runs[run]?.[1] ?? 0));
        for (let at = chunks[chunk]; frame < last; frame++) {
            places[frame] = at;
            at += sizes[frame];
        }
    }
    const isWhole = frame > 0 && frame === sizes.length && sizes.every((size) => size + OWN_HEAD <= MOST_FRAME)
        && places.every((place, one) => one === 0 || place >= places[one - 1]);
    return isWhole ? { places, sizes } : null;
}

/** The frames as parts of the sound, as `cut` takes them: their places are their numbers. The page may do something
 *  else between some thousands and the next. */
async function* partsOf(count, silent) {
    const samplesBefore = (frame) => Math.max(0, frame * SAMPLES - silent);
    for (let from = 0; from < count; from += AT_ONCE) {
        await breathe();
        yield Array.from({ length: Math.min(AT_ONCE, count - from) }, (_, at) =>
            ({ at: from + at, first: samplesBefore(from + at), last: samplesBefore(from + at + 1) }));
    }
}

/** Frames as a file of their own. */
async function ownFile(file, { places, sizes }, { from, to }, { code, sides }) {
    const begin = places[from];
    const bytes = await bytesOf(file, begin, places[to - 1] + sizes[to - 1] - begin);
    const parts = [];
    for (let frame = from; frame < to; frame++) {
        const length = OWN_HEAD + sizes[frame];
        const place = places[frame] - begin;
        parts.push(Uint8Array.of(0xff, 0xf1, ((LOW - 1) << 6) | (code << 2), (sides << 6) | (length >> 11),
            (length >> 3) & 255, ((length & 7) << 5) | 31, 0xfc), bytes.subarray(place, place + sizes[frame]));
    }
    return new Blob(parts).arrayBuffer();
}

/** An M4A file in pieces of some `size` samples of all sides; null where it is none, or of another kind. */
export async function m4aOf(file, size) {
    const tables = await tablesOf(file);
    const tracks = tables === null ? [] : boxesIn(tables, 'trak').filter(isSound);
    const sound = tracks.length === 1 ? soundOf(tracks[0]) : null;
    const frames = sound && framesOf(tracks[0]);
    if (frames === null) return null;
    const count = frames.places.length;
    const parts = partsOf(count, silentIn(tracks[0], sound.rate));
    const pieces = await cut({ size: count }, parts, size / sound.sides, WARM);
    return { rate: sound.rate, pieces, fileOf: (piece) => ownFile(file, frames, piece, sound) };
}
