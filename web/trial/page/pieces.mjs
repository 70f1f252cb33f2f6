// Tries FLAC, Ogg, MP3 and M4A where the browser decodes them in pieces: joined they are the sound that it
// decodes whole, sample by sample, and what is heard of them is what is heard of a WAV file. Then two hours from
// a disk.
import assert from 'node:assert/strict';
import { writeFileSync } from 'node:fs';
import { served } from '../served.mjs';
import { writeWave } from '../waves.mjs';
import { answersThroughHours, KINDS } from './packed.mjs';

const RATE = 48000;
const TIMES = { flac: 4, ogg: 17, opus: 4, mp3: 9, m4a: 9 }; // of an example, so that there are some pieces
const LESS = { m4a: 1024 }; // samples at the end that a browser may leave out where it decodes all at once
const EXAMPLES = { flac: 'ea01.air', ogg: 'ea01.air', opus: 'ea01.air', mp3: 'slip.air', m4a: 'ea01.air' };
const BEGAN = '2025-01-05 00:40';
const NEAR = 1e-4; // to which a decoder of MP3 gives the same again

/** It is opened by http first. */
export const isOpened = false;

/** How many samples the pieces have, and the whole sound; how far they are apart at most; how long a piece is. */
const COMPARED = `(async () => {
    const { piecesOf } = await import('/hear/pieces.js');
    const [file] = document.getElementById('file').files;
    const { rate, seconds, pieces } = await piecesOf(file, 'both');
    const sound = await new OfflineAudioContext(1, 1, rate).decodeAudioData(await file.arrayBuffer());
    const whole = sound.getChannelData(0);
    let [at, apart, longest] = [0, 0, 0];
    for await (const [samples] of pieces(2)) {
        const farthest = (most, sample, place) => Math.max(most, Math.abs(sample - (whole[at + place] ?? sample)));
        apart = samples.reduce(farthest, apart);
        at += samples.length;
        longest = Math.max(longest, samples.length / rate);
    }
    return { joined: at, said: Math.round(seconds * rate), whole: whole.length, apart, longest };
})()`;

async function triesSameSound({ tab, room }) {
    const { scripts, stop } = await served(`${room}/navtex.html`);
    for (const [name, times] of Object.entries(TIMES)) {
        writeFileSync(`${room}/pieces.${name}`, KINDS[name](times, RATE));
        await tab.open(scripts);
        await tab.giveFiles('#file', `${room}/pieces.${name}`);
        const { joined, said, whole, apart, longest } = await tab.value(COMPARED);
        assert.ok(joined > (1 << 20), `${name} is one piece`);
        assert.deepEqual([said, longest], [joined, 2], name);
        assert.ok(whole <= joined && whole >= joined - (LESS[name] ?? 0), `${name}: ${whole} of ${joined}`);
        assert.ok(apart <= NEAR, `${name}: ${apart}`);
    }
    stop();
}

/** What is heard of a file by a receiver that knows nothing yet: the line at its end, and the messages. */
async function heardOf(tab, file) {
    await tab.press('#anew');
    await tab.until("document.querySelectorAll('#list li').length === 0");
    await tab.set('began', BEGAN);
    const [line] = await tab.hear(file);
    return { line: line.replace(/^[^:]*: /, ''), messages: await tab.textsOf('#list li') };
}

/** What is heard of each is what is heard of a WAV file. */
async function triesMessages({ tab, room }) {
    const { address, stop } = await served(`${room}/navtex.html`);
    await tab.openPage(address);
    for (const [name, example] of Object.entries(EXAMPLES)) {
        writeFileSync(`${room}/once.${name}`, KINDS[name](1, RATE));
        writeWave(`${room}/once.wav`, example, { rate: RATE });
        const expected = await heardOf(tab, `${room}/once.wav`);
        assert.match(expected.line, /^1 message heard: 1 new/);
        assert.deepEqual(await heardOf(tab, `${room}/once.${name}`), expected, name);
        assert.deepEqual(await tab.faults(), []);
    }
    stop();
}

async function triesHoursFromDisk(given) {
    await given.tab.openPage(given.address);
    await answersThroughHours(given, 'from a disk');
}

export const trials = () => [triesSameSound, triesMessages, triesHoursFromDisk];
