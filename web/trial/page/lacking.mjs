// Tries browsers that lack what is needed, and a computer without a microphone.
import assert from 'node:assert/strict';
import { path, writeWave } from '../waves.mjs';

async function triesLacking({ tab, room }) {
    const shown = async (words) => {
        await tab.until("document.querySelector('#faults .fault')");
        assert.match((await tab.faults())[0], words);
    };
    const expect = async (words, action) => {
        await tab.ready();
        await tab.forgetFaults();
        await action();
        await shown(words);
    };
    writeWave(`${room}/slices.wav`, 'slip.air');
    writeWave(`${room}/decoded.wav`, 'slip.air', { rate: 5000 });
    const give = (file) => tab.giveFiles('#file', file);
    await tab.loadWith('delete window.WebAssembly', () =>
        shown(/lacks WebAssembly, without which there is no receiver/));
    await tab.loadWith('delete window.OfflineAudioContext', () =>
        expect(/can't decode sound/, () => give(`${room}/decoded.wav`)));
    await tab.loadWith('delete window.AudioDecoder', async () => {
        await tab.ready();
        const mp3 = new URL('../slip.mp3', import.meta.url).pathname;
        assert.match((await tab.hear(mp3))[0], /^slip.mp3: 1 message heard/, 'it is decoded in pieces');
    });
    await tab.loadWith('delete window.Worker', () =>
        expect(/lacks what sound needs here/, () => give(`${room}/slices.wav`)));
    const mixed = 'delete window.MediaStreamTrackProcessor;'; // the sound comes by the browser's mixer
    await tab.loadWith(mixed, async () => {
        await tab.ready();
        await tab.press('#microphone');
        await tab.until("document.getElementById('source').textContent.startsWith('Hearing the microphone')");
        await tab.until("document.getElementById('level').textContent !== ''");
        await tab.press('#stop');
        await tab.untilIdle();
    });
    await tab.loadWith(`${mixed} delete window.AudioWorkletNode`, () =>
        expect(/lacks what a microphone needs/, () => tab.press('#microphone')));
    await tab.loadWith("IDBFactory.prototype.open = () => { throw new Error('none'); }",
        () => shown(/^This browser keeps nothing for this page/));
    await tab.loadWith("Object.defineProperty(window, 'localStorage', { get() { throw new Error('none'); } })",
        () => tab.ready());
    await tab.loadWith(`MediaDevices.prototype.getUserMedia = async () => {
            throw new DOMException('', 'NotFoundError');
        }`,
        () => expect(/^No microphone was found/, () => tab.press('#microphone')));
    await tab.loadWith('delete window.BroadcastChannel; delete window.Notification', async () => {
        await tab.ready();
        await tab.hear(path('ea01.air'));
        assert.equal((await tab.titles()).length, 1);
    });
}

export const options = () => ['--use-fake-device-for-media-stream', '--use-fake-ui-for-media-stream'];

/** A Firefox of a trial can't be made to lack anything. */
export const trials = (kind) => (kind === 'chromium' ? [triesLacking] : []);
