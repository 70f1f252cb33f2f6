// A FLAC, Ogg, MP3 or M4A file that the browser decodes in pieces, so that it never hands over the sound of
// hours at once, which would hold up the page, and take memory for all of it.
import { partOf } from './decoded.js';
import { flacOf } from './flac.js';
import { m4aOf } from './m4a.js';
import { mp3PiecesOf } from './mp3.js';
import { oggOf } from './ogg.js';

const SIZE = 1 << 20;         // samples of all sides that are decoded at once
const RATES = [6000, 192000]; // samples a second that the demodulator takes

/** What decodes sound of a rate and leaves it so; null where the browser can't. */
function decoder(rate) {
    try {
        return new OfflineAudioContext(1, 1, rate);
    } catch {
        return null;
    }
}

/** The sound of bytes, or null where the browser can't decode them. */
async function soundOf(context, bytes) {
    try {
        return await context.decodeAudioData(await bytes);
    } catch {
        return null;
    }
}

/** Pieces of so many seconds, each with the second of its end. What is wanted of a sound is at its end. The
 *  next one is decoded while this one is heard, and the `first` is there. One that can't be decoded is silent,
 *  so that the others keep their time. */
async function* read({ rate, pieces, fileOf }, { context, first, side }, length) {
    let [coming, gone] = [first, 0];
    for (const [place, { count }] of pieces.entries()) {
        const sound = await coming;
        const next = pieces[place + 1];
        coming = next && soundOf(context, fileOf(next));
        const before = Math.max(0, (sound?.length ?? 0) - count);
        for (let from = 0; from < count; from += length * rate) {
            const taken = Math.min(length * rate, count - from);
            const samples = sound === null ? new Float32Array(taken) : partOf(sound, side, before + from, taken);
            yield [samples, (gone + from + taken) / rate];
        }
        gone += count;
    }
}

/** The sound of a file: its rate, how many seconds it has, its pieces; null where it can't be cut, or where
 *  the browser can't decode its first piece. */
export async function piecesOf(file, side) {
    const cut = await flacOf(file, SIZE) ?? await oggOf(file, SIZE) ?? await mp3PiecesOf(file, SIZE)
        ?? await m4aOf(file, SIZE);
    if (!cut || cut.rate < RATES[0] || cut.rate > RATES[1] || cut.pieces.length === 0) return null;
    const context = decoder(cut.rate);
    const first = context && await soundOf(context, cut.fileOf(cut.pieces[0]));
    if (first === null || first.length < cut.pieces[0].count / 2) return null;
    const seconds = cut.pieces.reduce((sum, { count }) => sum + count, 0) / cut.rate;
    return { rate: cut.rate, seconds, layout: null, pieces: (length) => read(cut, { context, first, side }, length) };
}
