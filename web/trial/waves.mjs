// Recordings that are made for a trial: two tones, as a radio gives them; the upper one is 1.
import { closeSync, ftruncateSync, openSync, readFileSync, writeFileSync, writeSync } from 'node:fs';

const EXAMPLES = new URL('../../examples/', import.meta.url);
const SILENCE = 1; // seconds before and behind an emission
const BAUD = 100;

export const path = (name) => new URL(name, EXAMPLES).pathname;
export const example = (name) => readFileSync(new URL(name, EXAMPLES), 'latin1');

/** The elements of an air file, as digits. */
export const bitsOf = (air) => [...air.matchAll(/^B ([01]+)$/gm)].map(([, digits]) => digits).join('');

/** Samples of an emission, from -1 to 1, with silence around. */
export function tonesOf(bits, { rate = 48000, centre = 1000 } = {}) {
    const samples = new Float64Array((bits.length / BAUD + 2 * SILENCE) * rate);
    let turn = 0;
    for (let at = 0; at < bits.length * (rate / BAUD); at++) {
        turn += (centre + (bits[Math.floor((at * BAUD) / rate)] === '1' ? 85 : -85)) / rate;
        samples[at + SILENCE * rate] = 0.2 * Math.sin(2 * Math.PI * turn);
    }
    return samples;
}

/** The bytes of a sample: whole numbers of 16 bits, or one of the other ways of WAV. */
const WRITERS = {
    8: [1, (bytes, sample, at) => bytes.writeUInt8(128 + Math.round(127 * sample), at)],
    16: [1, (bytes, sample, at) => bytes.writeInt16LE(Math.round(32767 * sample), at)],
    24: [1, (bytes, sample, at) => bytes.writeIntLE(Math.round(8388607 * sample), at, 3)],
    32: [3, (bytes, sample, at) => bytes.writeFloatLE(sample, at)],
};

/** A WAV file of its sides, each a list of samples. */
export function waveOf(sides, { rate = 48000, bits = 16 } = {}) {
    const [tag, write] = WRITERS[bits];
    const count = Math.max(...sides.map((samples) => samples.length));
    const width = (sides.length * bits) / 8;
    const bytes = Buffer.alloc(count * width);
    sides.forEach((samples, side) => samples.forEach((sample, place) =>
        write(bytes, sample, place * width + (side * bits) / 8)));
    return Buffer.concat([headOf({ tag, sides: sides.length, rate, bits, length: bytes.length }), bytes]);
}

export function headOf({ tag = 1, sides = 1, rate = 48000, bits = 16, length }) {
    const head = Buffer.alloc(44);
    const width = (sides * bits) / 8;
    head.write('RIFF', 0);
    head.writeUInt32LE(36 + length, 4);
    head.write('WAVEfmt ', 8);
    head.writeUInt32LE(16, 16);
    head.writeUInt16LE(tag, 20);
    head.writeUInt16LE(sides, 22);
    head.writeUInt32LE(rate, 24);
    head.writeUInt32LE(rate * width, 28);
    head.writeUInt16LE(width, 32);
    head.writeUInt16LE(bits, 34);
    head.write('data', 36);
    head.writeUInt32LE(length, 40);
    return head;
}

/** A stereo WAV file of so many seconds at 48 kHz, with one emission at its beginning and another at its
 *  end; in between nothing was written, so it takes no room on the disk. */
export function writeLong(file, seconds, first, last) {
    const length = seconds * 48000 * 4;
    const place = openSync(file, 'w');
    writeSync(place, headOf({ sides: 2, length }), 0, 44, 0);
    ftruncateSync(place, 44 + length);
    for (const [samples, isLast] of [[first, false], [last, true]]) {
        const sound = waveOf([samples, samples]).subarray(44);
        writeSync(place, sound, 0, sound.length, isLast ? 44 + length - sound.length : 44);
    }
    closeSync(place);
}

/** Writes an example as a recording. */
export function writeWave(file, name, options = {}) {
    const samples = tonesOf(bitsOf(example(name)), options);
    writeFileSync(file, waveOf([samples], options));
    return samples;
}
