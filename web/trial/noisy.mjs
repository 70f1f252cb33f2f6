// Two sendings of a message that come with noise, so that none of them is whole and together they are. They are
// spelled by ci/, and the noise is the same in each run.
import { spawnSync } from 'node:child_process';
import { fileURLToPath } from 'node:url';
import { chanceOf } from './chance.mjs';
import { tonesOf } from './waves.mjs';

export const RATE = 8000;
export const NOISY = { identity: 'EA01', text: 'TRACTOR TUG TOWING LARGE BARGE BOUND FOR DOVER\nWIDE BERTH REQUESTED\n' };
const NOISE = 0.62;      // its deviation, beside tones of 0.2
const SEEDS = [2, 102];  // of the two sendings; with most others one of them is whole, or both have one hole
const LOUDNESS = 0.3;

/** The elements of an emission with one message, as digits. */
function emissionOf({ identity, text }) {
    const script = 'import sys; sys.path.insert(0, sys.argv[1]); from combined_air import emission, message, words_of; '
        + 'print("".join(words_of(emission(message(sys.argv[2], sys.argv[3])))))';
    const ci = fileURLToPath(new URL('../../ci', import.meta.url));
    return spawnSync('python3', ['-c', script, ci, identity, text], { encoding: 'latin1' }).stdout.trim();
}

/** The samples of both sendings. */
export function noisySendings() {
    const clean = tonesOf(emissionOf(NOISY), { rate: RATE });
    return SEEDS.map((seed) => {
        const chance = chanceOf(seed);
        for (let warming = 0; warming < 10; warming++) chance();
        const normal = () => Array.from({ length: 12 }, chance).reduce((sum, one) => sum + one) - 6;
        return Float32Array.from(clean, (sample) => LOUDNESS * (sample + NOISE * normal()));
    });
}
