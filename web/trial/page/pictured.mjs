// Keeps docs/pictures/page.png: messages, one of which is put together from two sendings, and the microphone.
import { spawnSync } from 'node:child_process';
import { mkdirSync, writeFileSync } from 'node:fs';
import { fileURLToPath } from 'node:url';
import { tonesOf, waveOf } from '../waves.mjs';

const RATE = 48000;
const LOUDNESS = 0.02; // of the noise, beside tones of 0.2
const AGO = 18000;     // seconds since the messages were heard
const HEARD = 120000;  // milliseconds in which the microphone hears what is shown
const READ = ['EB34', 'EA13'];

/** What is heard: an air file, and the elements that the microphone hears. */
function heard() {
    const script = fileURLToPath(new URL('../pictured.py', import.meta.url));
    const { stdout } = spawnSync('python3', [script, String(Math.floor(Date.now() / 1000) - AGO)], { encoding: 'latin1' });
    const [air, bits] = stdout.split('# ');
    return { air, bits: bits.trim() };
}

/** The microphone hears an emission with some noise. */
export function options(room) {
    const { bits } = heard();
    const samples = tonesOf(bits, { rate: RATE, centre: 1500 }).map((sample) => sample + LOUDNESS * (2 * Math.random() - 1));
    writeFileSync(`${room}/pictured.wav`, waveOf([samples], { rate: RATE }));
    return ['--use-fake-device-for-media-stream', `--use-file-for-fake-audio-capture=${room}/pictured.wav`];
}

async function keepsPicture({ browser, tab, room, pictures }) {
    await browser.allow('microphone');
    await tab.touch(); // or the alarm can't ring, and says so
    writeFileSync(`${room}/navtex.air`, heard().air);
    await tab.hear(`${room}/navtex.air`);
    for (const identity of READ) await tab.press(`#list button[aria-label="Mark ${identity} as read"]`);
    await tab.press("#stations input[value='Q']");
    await tab.press('#microphone');
    await tab.until("document.getElementById('look').textContent.includes('ALL SHIPS ARE ASKED')", HEARD);
    await tab.value('document.activeElement.blur(); window.scrollTo(0, 0)');
    mkdirSync(pictures, { recursive: true });
    writeFileSync(`${pictures}/page.png`, await tab.picture(1180, 1155, false));
    await tab.press('#stop');
    await tab.untilIdle();
}

export const trials = (kind, pictures) => (kind === 'chromium' && pictures ? [keepsPicture] : []);
