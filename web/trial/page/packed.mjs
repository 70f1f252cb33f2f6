// Tries two hours of FLAC, Ogg, MP3 and M4A by plain http, where the browser decodes them in pieces: the page
// answers from when a recording is opened on.
import assert from 'node:assert/strict';
import { readFileSync, writeFileSync } from 'node:fs';
import { setTimeout as pause } from 'node:timers/promises';
import { expectSoon } from '../answers.mjs';
import { flacFile, m4aTimes, OGGS, oggTimes } from '../packed.mjs';
import { served } from '../served.mjs';
import { bitsOf, example, tonesOf } from '../waves.mjs';

const SECONDS = 2 * 3600;
const ONCE = 16;      // seconds of an example, at least
const WATCHED = 2000; // milliseconds, from when it is heard on
const HEARING = "document.getElementById('source').textContent.startsWith('Hearing')";

/** It is opened by http alone. */
export const isOpened = false;

const once = (name) => readFileSync(new URL(`../${name}`, import.meta.url));

/** Whole numbers of 16 bits of ea01.air as sound. */
const samplesAt = (rate) =>
    Int16Array.from(tonesOf(bitsOf(example('ea01.air')), { rate }), (sample) => Math.round(32767 * sample));

/** Makes a recording of each kind, with an example so many times in a row. */
export const KINDS = {
    flac: (times, rate = 8000) => flacFile(samplesAt(rate), { rate, times }),
    ogg: (times) => oggTimes(once('ea01.ogg'), times, OGGS['ea01.ogg'].step),
    opus: (times) => oggTimes(once('ea01.opus'), times, OGGS['ea01.opus'].step),
    mp3: (times) => Buffer.concat(Array(times).fill(once('slip.mp3'))),
    m4a: (times) => m4aTimes(once('ea01.m4a'), times),
};

/** Opens a recording, and stops it after it was heard for a while. */
async function hearAWhile(tab, file) {
    await tab.giveFiles('#file', file);
    await tab.until(HEARING);
    await pause(WATCHED);
    assert.match(await tab.textOf('left'), /^\d+ %/);
    await tab.press('#stop');
    await tab.untilIdle();
    assert.ok((await tab.ended())[0].startsWith(`${file.split('/').at(-1)}, stopped: `));
    await tab.forgetFaults();
}

/** The page answers while one after the other is opened and heard. */
export async function answersThroughHours({ browser, tab, room, kind }, where) {
    const times = Math.ceil(SECONDS / ONCE);
    const files = Object.entries(KINDS).map(([name, made]) => {
        writeFileSync(`${room}/two-hours.${name}`, made(times));
        return `${room}/two-hours.${name}`;
    });
    const said = await expectSoon(browser, tab, `two hours of ${Object.keys(KINDS).join(', ')} ${where}`, async () => {
        for (const file of files) await hearAWhile(tab, file);
    });
    console.log(`ci/web: ${kind}: ${said}`);
}

async function triesHours(given) {
    const { address, stop } = await served(`${given.room}/navtex.html`);
    await given.tab.openPage(address);
    await answersThroughHours(given, 'by http');
    stop();
}

export const trials = () => [triesHours];
