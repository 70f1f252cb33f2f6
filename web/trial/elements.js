#!/usr/bin/env node
// As examples/sound/elements, by the demodulator of the page: raw samples of 16 bits on standard
// input, lines of an air file on standard output.
//
//     web/trial/elements.js [--rate N] [--centre N] [--search] [--exchanged] [--plain]
//                           [--from SECONDS] [--at-once N] [--quiet]
//
// --at-once N pushes N samples at a time: elements are the same for each.

import { readFileSync } from 'node:fs';
import { parseArgs } from 'node:util';
import { Demodulator } from '../demodulator.js';

const LINE = 20;   // elements of a line

const { values: given } = parseArgs({
    options: {
        rate: { type: 'string', default: '8000' },
        centre: { type: 'string' },
        from: { type: 'string', default: '0' },
        'at-once': { type: 'string', default: '1600' },
        search: { type: 'boolean' },
        exchanged: { type: 'boolean' },
        plain: { type: 'boolean' },
        quiet: { type: 'boolean' },
    },
});

function samplesOf(bytes) {
    const samples = new Float32Array(bytes.length >> 1);
    return samples.map((_, place) => bytes.readInt16LE(2 * place) / 32768);
}

/** The lines of an air file: T where the moment is another one, and B. */
function linesOf(told, start, last) {
    let lines = '';
    for (const { moment, bits } of told) {
        for (let first = 0; first < bits.length; first += LINE) {
            const now = Math.trunc(start + moment + first / 100);
            if (last.moment === undefined || now > last.moment) {
                lines += `T ${now}\n`;
                last.moment = now;
            }
            lines += `B ${bits.slice(first, first + LINE)}\n`;
        }
    }
    return lines;
}

const centre = given.centre === undefined ? undefined : Number(given.centre);
const { search, exchanged, plain } = given;
const demodulator = new Demodulator({ rate: Number(given.rate), centre, search, exchanged, plain });
const samples = samplesOf(readFileSync(0));
const [start, atOnce, last] = [Number(given.from), Number(given['at-once']), {}];
const begun = performance.now();
let lines = '';
for (let first = 0; first < samples.length; first += atOnce) {
    lines += linesOf(demodulator.push(samples.subarray(first, first + atOnce)), start, last);
}
lines += linesOf(demodulator.finish(), start, last);
const seconds = (performance.now() - begun) / 1000;
process.stdout.write(lines);
if (!given.quiet) {
    const { told } = demodulator.status();
    console.error(`${demodulator.line()}, ${(told / seconds).toFixed(0)} elements a second`);
    console.error(demodulator.heard());
}
