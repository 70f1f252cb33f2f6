// Tries long recordings: two hours of 48 kHz in stereo are read in slices, and the page answers
// meanwhile; other formats that are too long are told.
import assert from 'node:assert/strict';
import { setTimeout as pause } from 'node:timers/promises';
import { answersDuring, expectSoon, isSoon } from '../answers.mjs';
import { headOf, bitsOf, example, tonesOf, writeLong } from '../waves.mjs';
import { readFileSync, writeFileSync } from 'node:fs';

const HOURS = 2;
const WATCHED = 15000;  // milliseconds
const MEMORY = 200e6;   // bytes that the page may take more
const SLIP = 16.5;      // seconds of slip.mp3
const ROUGH = 5000;     // samples a second, which the page doesn't read itself
const HEARING = "document.getElementById('source').textContent.startsWith('Hearing')";

/** The one at the beginning of a long recording, and the one at its end. */
const emissions = () => ['ea01.air', 'refused.air'].map((name) => tonesOf(bitsOf(example(name))));

/** A page that is kept busy is told from one that answers, on a busy machine too, where others have most of the
 *  time for which it is kept busy. */
async function triesSlowPage({ browser, tab }) {
    await tab.value(`window.slow = setInterval(() => {
        const begun = performance.now();
        while (performance.now() < begun + 1500);
    }, 3000)`);
    const found = await answersDuring(browser, tab, () => pause(WATCHED));
    await tab.value('clearInterval(window.slow)');
    assert.ok(!isSoon(found), `a page that is kept busy: ${found.words}`);
    assert.ok(!isSoon({ ...found, tasks: null }), `by its answers alone: ${found.words}`);
    if (found.tasks) assert.ok(!isSoon({ ...found, page: 0 }), `by its tasks alone: ${found.words}`);
}

async function triesTwoHours({ browser, tab, room, kind }) {
    const [first, last] = emissions();
    writeLong(`${room}/two-hours.wav`, HOURS * 3600, first, last);
    const memory = () => tab.value('performance.memory?.usedJSHeapSize ?? 0');
    const before = await memory();
    await isHeardSoon(kind, browser, tab, `${room}/two-hours.wav`);
    await tab.until("document.querySelectorAll('#list li').length === 1");
    assert.ok(await memory() - before < MEMORY);
    assert.ok(await tab.value("document.getElementById('progress').value > 0"));
    assert.match(await tab.textOf('left'), /^\d+ %, some \d+ (s|min) left$/);
    await tab.press('#stop');
    await tab.untilIdle();
    assert.match((await tab.ended())[0], /^two-hours.wav, stopped: 1 message heard: 1 new/);
}

/** The page answers while a recording is read and heard, from when it is opened on. */
async function isHeardSoon(kind, browser, tab, file) {
    const said = await expectSoon(browser, tab, file.split('/').at(-1), async () => {
        await tab.giveFiles('#file', file);
        await pause(WATCHED);
        await tab.until(HEARING);
    });
    console.log(`ci/web: ${kind}: ${said}`);
}

/** An MP3 file is read in slices too, where the browser has a decoder that takes its frames: the page answers
 *  through two hours of it, and takes no memory for them. A tag, and a frame that is cut, spoil nothing. */
async function triesMp3({ browser, tab, room, kind }) {
    const once = readFileSync(new URL('../slip.mp3', import.meta.url));
    const hours = Buffer.concat(Array(Math.ceil((HOURS * 3600) / SLIP)).fill(once));
    writeFileSync(`${room}/two-hours.mp3`, hours);
    await isHeardSoon(kind, browser, tab, `${room}/two-hours.mp3`);
    await tab.until("document.querySelectorAll('#list li').length > 0");
    assert.match(await tab.textOf('left'), /^\d+ %, some \d+ (s|min) left$/);
    await tab.press('#stop');
    await tab.untilIdle();
    assert.match((await tab.ended())[0], /^two-hours.mp3, stopped: \d+ messages? heard/);
    const tag = Buffer.from([...Buffer.from('ID3'), 4, 0, 0, 0, 0, 7, 104, ...Buffer.alloc(1000, 255)]);
    writeFileSync(`${room}/thrice.mp3`, Buffer.concat([tag, once, once.subarray(0, -20), once]));
    await tab.value('(window.whole = window.OfflineAudioContext, delete window.OfflineAudioContext)');
    const [line] = await tab.hear(`${room}/thrice.mp3`);
    await tab.value('(window.OfflineAudioContext = window.whole, true)');
    assert.match(line, /^thrice.mp3: 1 message heard: 0 new, 1 known, 0 refused\. The demodulator heard NAVTEX/);
    await tab.forgetFaults();
}

/** So it does with one that only the browser decodes, from when it is heard on. Before that the browser holds
 *  up the page once, as it hands over the sound of all the hours: how long, is told. */
async function triesDecoded({ browser, tab, room, kind }) {
    const length = HOURS * 3600 * ROUGH;
    const head = headOf({ rate: ROUGH, length, bits: 8 });
    writeFileSync(`${room}/decoded-hours.wav`, Buffer.concat([head, Buffer.alloc(length, 128)]));
    const { words } = await answersDuring(browser, tab, async () => {
        await tab.giveFiles('#file', `${room}/decoded-hours.wav`);
        await tab.until(HEARING);
    });
    console.log(`ci/web: ${kind}: two hours that the browser decodes, until they are heard: ${words}`);
    const said = await expectSoon(browser, tab, 'decoded-hours.wav', () => pause(WATCHED / 3));
    console.log(`ci/web: ${kind}: ${said}`);
    await tab.press('#stop');
    await tab.untilIdle();
    await tab.forgetFaults();
}

/** The end of a long recording is heard too: here a minute of silence is between. */
async function triesItsEnd({ tab, room }) {
    const [first, last] = emissions();
    const seconds = Math.ceil((first.length + last.length) / 48000) + 60;
    writeLong(`${room}/minutes.wav`, seconds, first, last);
    const [line] = await tab.hear(`${room}/minutes.wav`);
    assert.match(line, /: 3 messages heard: 2 new, 1 known/);
    assert.match((await tab.titles())[0], /EL06/);
    await tab.forgetFaults();
}

/** What only the browser decodes is told before it takes the memory. */
async function triesTooLong({ tab, room }) {
    // 4000 samples a second, which the page doesn't read itself: a day of it
    const length = 24 * 3600 * 4000;
    const head = headOf({ rate: 4000, length, bits: 8 });
    writeFileSync(`${room}/day.wav`, Buffer.concat([head, Buffer.alloc(length, 128)]));
    const [line] = await tab.hear(`${room}/day.wav`);
    assert.match(line, /day.wav: not heard/);
    assert.match((await tab.faults())[0], /^day.wav is too long for this browser, some 24 hours/);
    await tab.forgetFaults();
}

export const trials = () => [triesSlowPage, triesTwoHours, triesMp3, triesDecoded, triesItsEnd, triesTooLong];
