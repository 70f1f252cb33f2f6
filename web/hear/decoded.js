// A recording that the browser decodes whole, since the page can't cut it into pieces (hear/pieces.js). It takes
// memory for all of it, so a recording that is too long is told before.
import { PageFault } from '../show/faults.js';
import { takenOf } from './wave.js';

const RATE = 8000;          // samples a second that a sound is brought to, where the browser can do that
const USUAL_RATE = 44100;
const SECOND = 2 * 4 * 48000; // bytes that a second of sound takes while the browser decodes it, at most
const MOST = 3e9;           // bytes that a browser gives a page for that
const PACKED = 4000;        // bytes of a file that are a second of sound, where it doesn't say how long it is
const PATIENCE = 3000;      // milliseconds in which a file says how long it is

/** What decodes a sound, and brings it to our rate where the browser can do that. */
function decoder() {
    for (const rate of [RATE, USUAL_RATE]) {
        try {
            return new OfflineAudioContext(1, 1, rate);
        } catch {
            // the next rate, or none
        }
    }
    throw new PageFault("This browser can't decode sound. A current Firefox, Chrome, Edge or Safari can.");
}

/** How many seconds a file has, by what it says of itself; else by its size. */
async function secondsOf(file) {
    const probe = document.createElement('audio');
    probe.preload = 'metadata';
    const address = URL.createObjectURL(file);
    const seconds = await new Promise((resolve) => {
        probe.onloadedmetadata = () => resolve(probe.duration);
        probe.onerror = () => resolve(NaN);
        setTimeout(resolve, PATIENCE, NaN);
        probe.src = address;
    });
    probe.removeAttribute('src');
    URL.revokeObjectURL(address);
    return Number.isFinite(seconds) ? seconds : file.size / PACKED;
}

/** The sound of a file: its rate, how many seconds it has, its pieces. */
export async function decodedOf(file, side) {
    const context = decoder();
    const seconds = await secondsOf(file);
    if (seconds * SECOND + file.size > MOST) {
        throw new PageFault(`${file.name} is too long for this browser, some ${Math.ceil(seconds / 3600)} hours: `
            + 'only WAV, MP3, FLAC, Ogg and M4A are read piece by piece. Make one of these of it, or cut it into '
            + 'parts.');
    }
    let sound;
    try {
        sound = await context.decodeAudioData(await file.arrayBuffer());
    } catch {
        throw new PageFault('This file is no sound that the browser can decode. '
            + 'WAV, MP3, FLAC, Ogg and M4A mostly are.');
    }
    return { rate: sound.sampleRate, seconds: sound.duration, layout: null,
        pieces: (length) => piecesOf(sound, side, length) };
}

/** Samples of a sound, of one side or of both as one: so many from a place on, silent where it has none. */
export function partOf(sound, side, from, count) {
    const samples = new Float32Array(count);
    const [first, last] = takenOf(sound.numberOfChannels, side);
    for (let one = first; one <= last; one++) {
        sound.getChannelData(one).subarray(from, from + count).forEach((sample, at) => { samples[at] += sample; });
    }
    return last > first ? samples.map((sample) => sample / (last - first + 1)) : samples;
}

/** Pieces of so many seconds, of one side or of both as one, each with the second of its end. */
function* piecesOf(sound, side, length) {
    const most = Math.round(length * sound.sampleRate);
    for (let from = 0; from < sound.length; from += most) {
        const count = Math.min(most, sound.length - from);
        yield [partOf(sound, side, from, count), (from + count) / sound.sampleRate];
    }
}
