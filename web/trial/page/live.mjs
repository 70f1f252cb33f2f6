// Tries live sound: the microphone, two frequencies at once, another tab, a busy machine.
import assert from 'node:assert/strict';
import { writeFileSync } from 'node:fs';
import { setTimeout as pause } from 'node:timers/promises';
import { USUAL_TUNING } from '../../keep/choices.js';
import { Hearing } from '../../worker/hearing.js';
import { bitsOf, example, tonesOf, waveOf } from '../waves.mjs';

const HEARD = 90000; // milliseconds in which an emission is heard
const BUSY = 40000;  // milliseconds for which the page makes the machine busy

/** The left side has an emission of its own, and so has the right one. */
export function options(room) {
    const [left, right] = ['refused.air', 'ea01.air'].map((name) => tonesOf(bitsOf(example(name))));
    writeFileSync(`${room}/microphone.wav`, waveOf([left, right]));
    return ['--use-fake-device-for-media-stream', `--use-file-for-fake-audio-capture=${room}/microphone.wav`,
        '--auto-select-tab-capture-source-by-title=Tab that sounds', '--autoplay-policy=no-user-gesture-required'];
}

const source = (words) => `document.getElementById('source').textContent.startsWith(${JSON.stringify(words)})`;

async function stop(tab) {
    const before = (await tab.ended()).length;
    await tab.press('#stop');
    await tab.untilEnded(before + 1);
    await tab.untilIdle();
    return (await tab.ended())[0];
}

async function triesOneSide({ browser, tab }) {
    await browser.allow('microphone');
    await tab.set('side', 'left');
    await tab.press('#microphone');
    await tab.until(source('Hearing the microphone, on 518 kHz.'));
    await tab.until("document.getElementById('lock').textContent === 'locked'", HEARD);
    await tab.until("document.querySelectorAll('#list li').length === 2", HEARD);
    assert.match((await tab.titles()).sort().join(), /^New EC05.*New EL06/);
    assert.match(await stop(tab), /^The microphone: \d messages? heard: .* The demodulator heard NAVTEX/);
}

/** Two frequencies at once: each side of the input has its own. */
async function triesTwo({ tab }) {
    await tab.set('side', 'left');
    await tab.set('second-on', true);
    await tab.set('second-channel', '0');
    await tab.press('#microphone');
    await tab.until("document.querySelector('#faults .fault')");
    assert.match((await tab.faults())[0], /^Two inputs have to be on two frequencies/);
    await tab.forgetFaults();
    await tab.set('second-channel', '1');
    await tab.press('#microphone');
    await tab.until(source('Hearing the microphones, on 518 kHz and 490 kHz.'));
    await tab.until("[...document.querySelectorAll('#list .facts')].some((one) => one.textContent.includes('490 kHz'))",
        HEARD);
    const found = await tab.titles();
    assert.ok(found.some((title) => title.includes('EA01')), found.join('\n'));
    await tab.press('#shown button:last-child');
    assert.equal(await tab.textOf('tones-of'), '490 kHz');
    await tab.until("document.getElementById('lock').textContent === 'locked'", HEARD);
    await stop(tab);
    await tab.set('second-on', false);
    await tab.forgetFaults();
}

/** Another tab, as one with a receiver on the web. */
async function triesTab({ browser, tab, room }) {
    writeFileSync(`${room}/sounds.html`,
        '<!doctype html><title>Tab that sounds</title><audio src="sounds.wav" loop autoplay>');
    writeFileSync(`${room}/sounds.wav`, waveOf([tonesOf(bitsOf(example('slip.air')))]));
    const other = await browser.tab();
    await other.open(`file://${room}/sounds.html`);
    await tab.set('input', 'tab');
    await tab.press('#microphone');
    await tab.until(source('Hearing the other tab, on 518 kHz.'));
    await tab.until("document.getElementById('lock').textContent === 'locked'", HEARD);
    await other.close();
    await tab.until("document.querySelector('#faults .fault')");
    assert.match((await tab.faults())[0], /^The other tab is gone/);
    await tab.untilIdle();
    await tab.forgetFaults();
    await tab.set('input', '');
}

/** Keeps the left side of what the microphone gives, beside the page. */
const KEEPING = `
    window.kept = [];
    window.askUnkept = navigator.mediaDevices.getUserMedia.bind(navigator.mediaDevices);
    navigator.mediaDevices.getUserMedia = async (...given) => {
        const stream = await window.askUnkept(...given);
        window.keptTrack = stream.getAudioTracks()[0].clone();
        const source = { track: window.keptTrack, maxBufferSize: 3000 };
        const reader = new MediaStreamTrackProcessor(source).readable.getReader();
        (async () => {
            for (;;) {
                const { value, done } = await reader.read();
                if (done) return;
                const samples = new Float32Array(value.numberOfFrames);
                value.copyTo(samples, { planeIndex: 0, format: 'f32-planar' });
                window.kept.push(samples);
                window.keptRate = value.sampleRate;
                value.close();
            }
        })();
        return stream;
    };
    true`;
const KEPT = `(async () => {
    window.keptTrack.stop();
    navigator.mediaDevices.getUserMedia = window.askUnkept;
    const reader = new FileReader();
    reader.readAsDataURL(new Blob(window.kept));
    await new Promise((resolve) => { reader.onload = resolve; });
    return [reader.result.split(',')[1], window.keptRate];
})()`;

/** How often sound was lost or doubled, by what a demodulator said. */
const jumpsOf = (said) => Number(said.match(/sound was lost or doubled (\d+) times/)?.[1] ?? 0);

/** The same of what was kept beside the page, which the browser itself lost. */
async function jumpsBefore(tab) {
    const [text, rate] = await tab.value(KEPT);
    const bytes = Buffer.from(text, 'base64');
    const samples = new Float32Array(bytes.buffer.slice(bytes.byteOffset, bytes.byteOffset + bytes.length));
    assert.ok(samples.length > (rate * BUSY) / 2000, `only ${samples.length / rate} s were captured`);
    const hearing = new Hearing({ rate, tuning: USUAL_TUNING, rows: 1 });
    for (let at = 0; at < samples.length; at += rate) hearing.push(samples.subarray(at, at + rate));
    const { said } = hearing.finish();
    assert.match(said, /^heard NAVTEX/);
    return jumpsOf(said);
}

/** On a busy machine only the demodulator is late, and nothing that was captured is lost: the same
 *  demodulator over what was kept beside the page finds no fewer jumps, those of the browser itself. */
async function triesBusy({ tab }) {
    await tab.set('side', 'left');
    await tab.value(KEEPING);
    await tab.press('#microphone');
    await tab.until(source('Hearing the microphone'));
    await tab.value(`
        window.busy = Array.from({ length: navigator.hardwareConcurrency }, () => new Worker(URL.createObjectURL(
            new Blob(['for (;;) Math.random();']))));
        true`);
    await pause(BUSY);
    await tab.value('window.busy.forEach((worker) => worker.terminate())');
    const line = await stop(tab);
    assert.match(line, /The demodulator heard NAVTEX/);
    const before = await jumpsBefore(tab);
    console.log(`ci/web: the microphone on a busy machine: ${jumpsOf(line)} jumps, ${before} of them of the browser`);
    assert.ok(jumpsOf(line) <= before, line);
}

async function triesNoLeave({ browser, tab }) {
    await browser.allow('microphone', 'denied');
    await tab.press('#microphone');
    await tab.until("document.querySelector('#faults .fault')");
    assert.match((await tab.faults())[0], /no leave to use the microphone/);
    await tab.untilIdle();
    await browser.allow('microphone');
    await tab.forgetFaults();
}

/** A Firefox of a trial has a microphone that gives one tone. */
async function triesTone({ tab }) {
    await tab.press('#microphone');
    await tab.until(source('Hearing the microphone, on 518 kHz.'));
    await pause(3000);
    assert.match(await stop(tab), /^The microphone: no message\./);
    await tab.forgetFaults();
}

export const trials = (kind) => (kind === 'chromium' ? [triesOneSide, triesTwo, triesTab, triesBusy, triesNoLeave]
    : [triesTone]);
