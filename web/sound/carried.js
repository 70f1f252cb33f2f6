// The phase from word to word: a sender changes from tone to tone without a jump there too.

import { ELEMENT_SECONDS, ELEMENT_TURNS } from './phase.js';
import { GAP, WORD } from './words.js';

const WORD_TURNS = ELEMENT_TURNS;   // turns that a word adds, which has one B more than Y
const MIDDLE = (WORD - 1) / 2;      // elements from where a word begins to where its phase is told
const BESIDE = [-2, -1, 1, 2];      // words from one to those that tell the phase in which it begins
const WANDER = 0.2;                 // how fast the phase is forgotten, for each word in between

export const PHASORS = 8;           // numbers that a position has: the phase of DX, and of RX; exchanged
export const NO_PHASE = { real: 0, imaginary: 0 };

/**
 * The phase in which a word begins, as the two words on each side tell it: by their likeliest
 * words, and the less, the more words are in between.
 *
 * - `phasors`: the phases of the words of each position.
 * - `stretch`: the sound without a jump in which they are.
 * - `place`: where the word begins; `isRx` is 1 where it is a second sending, else 0.
 * - `off`: how far the middle is off, in Hz.
 */
export function carriedPhase(phasors, stretch, { place, isRx, isExchanged, off }) {
    const sum = { real: 0, imaginary: 0 };
    for (const words of BESIDE) {
        const begin = place + words * WORD;
        const isOtherRx = (isRx + Math.abs(words)) % 2;
        const position = begin - isOtherRx * GAP;
        if (position >= stretch.first && position < phasors.end && begin + WORD <= stretch.last) {
            const column = 4 * Number(isExchanged) + 2 * isOtherRx;
            const real = phasors.get(position, column);
            const imaginary = phasors.get(position, column + 1);
            const added = (isExchanged ? -WORD_TURNS : WORD_TURNS) * words;
            const angle = -2 * Math.PI * (off * ELEMENT_SECONDS * (WORD * words + MIDDLE) + added);
            const part = 1 / (1 + WANDER * Math.abs(words) * Math.hypot(real, imaginary));
            sum.real += part * (real * Math.cos(angle) - imaginary * Math.sin(angle));
            sum.imaginary += part * (real * Math.sin(angle) + imaginary * Math.cos(angle));
        }
    }
    return sum;
}
