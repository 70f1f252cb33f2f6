// Tries that one sound is heard at a time: each pair of sounds at each moment, and Stop.
import assert from 'node:assert/strict';
import { writeFileSync } from 'node:fs';
import { setTimeout as pause } from 'node:timers/promises';
import { slowness } from '../waits.mjs';
import { path, writeWave } from '../waves.mjs';
import { KINDS } from './packed.mjs';

const NUMBER_00 = 'EA00'; // whose messages are printed each time
const AT_ONCE = 2000; // milliseconds in which Stop has an effect, on a machine that does nothing else
const WATCHED = `
    window.tracks = [];
    const ask = navigator.mediaDevices.getUserMedia.bind(navigator.mediaDevices);
    navigator.mediaDevices.getUserMedia = async (...given) => {
        const stream = await ask(...given);
        window.tracks.push(...stream.getTracks());
        return stream;
    };
    true`;

/** The sounds: a file of each kind, of which messages it is and how many it gives, and the microphone. */
function soundsIn(room) {
    writeWave(`${room}/slices.wav`, 'slip.air');
    writeWave(`${room}/decoded.wav`, 'refused.air', { rate: 5000 }); // a rate that only the browser reads
    writeFileSync(`${room}/pieces.flac`, KINDS.flac(1));
    return {
        air: { file: path('number-00.air'), name: 'number-00.air', of: NUMBER_00, messages: 3 },
        slices: { file: `${room}/slices.wav`, name: 'slices.wav', of: 'EA01', messages: 1 },
        mp3: { file: new URL('../slip.mp3', import.meta.url).pathname, name: 'slip.mp3', of: 'EA01', messages: 1 },
        pieces: { file: `${room}/pieces.flac`, name: 'pieces.flac', of: 'EA01', messages: 1 },
        decoded: { file: `${room}/decoded.wav`, name: 'decoded.wav', of: 'EL06', messages: 2 },
        microphone: { name: 'The microphone', messages: 0 },
    };
}

/** Moments of a sound at which something else is done. */
const MOMENTS = {
    'at once': async () => {},
    'as it begins': (tab) => tab.until("document.getElementById('source').textContent !== 'Nothing is being heard.'"),
    'as it is heard': (tab) => tab.until("document.getElementById('source').textContent.startsWith('Hearing')"
        + " || document.querySelectorAll('#ended li').length > 0"),
};

async function begin(tab, { file }) {
    if (file === undefined) await tab.press('#microphone');
    else await tab.giveFiles('#file', file);
}

/** The microphone is stopped once it is heard; files end by themselves. */
async function letEnd(tab, { file, name }) {
    if (file !== undefined) return;
    await tab.until("document.getElementById('source').textContent.startsWith('Hearing the microphone')");
    await tab.press('#stop');
    await tab.until(`[...document.querySelectorAll('#ended li')].some((one) => one.textContent.startsWith('${name}'))`);
}

async function beginAnew(tab) {
    await tab.press('#anew');
    await tab.until("document.querySelectorAll('#list li').length === 0");
    await tab.untilIdle();
    await tab.value("document.getElementById('ended').replaceChildren()");
    await tab.forgetFaults();
}

async function expectTracksEnded(tab, what) {
    const states = await tab.value("window.tracks.map(({ readyState }) => readyState)");
    assert.ok(states.every((state) => state === 'ended'), `${what}: a track is ${states}`);
}

/** From here on the tracks of the microphone are looked at. */
async function triesWatching({ browser, tab }) {
    await browser.allow('microphone');
    await tab.value(WATCHED);
}

async function triesPairs({ tab, room }) {
    const sounds = Object.entries(soundsIn(room));
    for (const [one, first] of sounds) {
        for (const [other, second] of sounds) {
            for (const [when, wait] of Object.entries(MOMENTS)) {
                if (one === 'microphone' && other === 'microphone') continue; // its button is off meanwhile
                const what = `${one}, then ${other} ${when}`;
                await beginAnew(tab);
                await begin(tab, first);
                await wait(tab);
                await begin(tab, second);
                await letEnd(tab, first);
                await letEnd(tab, second);
                await tab.untilEnded(2);
                await tab.untilIdle();
                await expectPair(tab, what, first, second);
            }
        }
    }
}

async function expectPair(tab, what, first, second) {
    const lines = (await tab.ended()).reverse();
    assert.deepEqual(lines.map((line) => line.split(/[:,]/)[0]), [first.name, second.name], what);
    for (const [line, { messages }] of [[lines[0], first], [lines[1], second]]) {
        if (messages > 0) assert.match(line, new RegExp(`: ${messages} messages? heard:`), what);
    }
    if (first.messages > 0 && second.messages > 0) {
        const facts = await tab.textsOf('#list .facts');
        const count = first.of === second.of && first.of !== NUMBER_00 ? first.messages
            : first.messages + second.messages;
        assert.equal(facts.length, count, `${what}: ${lines}`);
        assert.ok(facts.every((fact) => fact.includes('complete, none of')), `${what}: ${facts}`);
    }
    await expectTracksEnded(tab, what);
}

/** Presses Stop: the milliseconds until nothing more is heard, but what waits of a microphone that was let go. */
async function timeOfStop(tab) {
    const begun = Date.now();
    await tab.press('#stop');
    await tab.until("/^(Nothing is being heard|Ending)/.test(document.getElementById('source').textContent)");
    return Date.now() - begun;
}

/** Stop works at each moment of each sound, and what comes behind it is heard whole. */
async function triesStop({ tab, room }) {
    const sounds = soundsIn(room);
    for (const [one, first] of Object.entries(sounds)) {
        for (const [when, wait] of Object.entries(MOMENTS)) {
            await beginAnew(tab);
            await begin(tab, first);
            await wait(tab);
            const took = await timeOfStop(tab);
            const most = AT_ONCE * slowness();
            assert.ok(took < most, `${one}, stopped ${when}, after ${took} ms of ${most.toFixed(0)}`);
            await tab.untilIdle();
            const ended = await tab.ended();
            assert.equal(ended.length, 1, `${one}, stopped ${when}: ${ended}`);
            assert.match(ended[0], new RegExp(`^${first.name}(, stopped)?: `), `${one}, stopped ${when}`);
            const [line] = await tab.hear(sounds.air.file);
            assert.match(line, /^number-00.air: 3 messages heard: 3 new/, `${one}, stopped ${when}`);
            await expectTracksEnded(tab, `${one}, stopped ${when}`);
        }
    }
}

/** Several files are heard in order, one that waits may be taken out, and the same one twice is known. */
async function triesOrder({ tab, room }) {
    const { air, slices, decoded } = soundsIn(room);
    await beginAnew(tab);
    await tab.dropFiles('#drop', slices.file, air.file, decoded.file);
    assert.deepEqual(await tab.textsOf('#queue li span'), ['number-00.air waits.', 'decoded.wav waits.']);
    await tab.press('#queue button');
    await tab.untilEnded(2);
    assert.deepEqual((await tab.ended()).map((line) => line.split(':')[0]), ['decoded.wav', 'slices.wav']);
    await beginAnew(tab);
    await tab.giveFiles('#file', slices.file);
    await pause(300);
    await tab.giveFiles('#file', slices.file);
    await tab.untilEnded(2);
    const lines = await tab.ended();
    assert.match(lines[1], /: 1 message heard: 1 new, 0 known, 0 refused\./);
    assert.match(lines[0], /: 1 message heard: 0 new, 1 known, 0 refused\./);
    assert.match((await tab.textsOf('#list .facts'))[0], /complete, none of/);
}

/** A microphone that is asked for while a file is heard waits; a file waits behind the microphone. */
async function triesWaiting({ tab, room }) {
    const { slices, air } = soundsIn(room);
    await beginAnew(tab);
    await tab.giveFiles('#file', slices.file);
    await tab.press('#microphone');
    assert.deepEqual(await tab.textsOf('#queue li span'), ['The microphone waits.']);
    assert.equal(await tab.value("document.getElementById('microphone').disabled"), true);
    await tab.until("document.getElementById('source').textContent.startsWith('Hearing the microphone')");
    await tab.giveFiles('#file', air.file);
    assert.deepEqual(await tab.textsOf('#queue li span'), ['number-00.air waits.']);
    await tab.press('#stop');
    await tab.untilEnded(3);
    await tab.untilIdle();
    await expectTracksEnded(tab, 'a microphone between two files');
}

export const options = () => ['--use-fake-device-for-media-stream'];

export const trials = () => [triesWatching, triesStop, triesOrder, triesWaiting, triesPairs];
