// The words that may be sent, and how likely each pair of both sendings is.
//
// A position is sent twice: as DX in one slot, and as RX five slots later, 35 elements behind. A
// word is named by its number, element 1 in the least place, B as 1. With the tones exchanged it is
// 127 less its number. How likely a word is stands as a multiple of the mean of all words.

import { mean, placeOfGreatest } from './numbers.js';

export const WORD = 7;          // elements of a word
export const GAP = 35;          // elements between both sendings
export const WORDS = 128;       // words of seven elements
export const PHASING_ONE = 0x0F;
export const PHASING_TWO = 0x66;
const TRAFFIC = [               // the 32 traffic combinations (ITU-R M.476, M.625)
    0x47, 0x72, 0x1D, 0x53, 0x56, 0x1B, 0x35, 0x69, 0x4D, 0x17, 0x1E, 0x65, 0x39, 0x59, 0x71, 0x2D,
    0x2E, 0x55, 0x4B, 0x74, 0x4E, 0x3C, 0x27, 0x3A, 0x2B, 0x63, 0x78, 0x6C, 0x5A, 0x36, 0x5C, 0x6A];
export const DX = [...TRAFFIC, PHASING_TWO, PHASING_ONE];   // a combination twice, phasing, P1 twice
export const RX = [...TRAFFIC, PHASING_ONE, PHASING_ONE];
export const PAIRS = DX.length + 1;                         // these, and an end
export const PHASING_NUMBER = TRAFFIC.length;               // the number of phasing among them
export const COMBINATION = 0.75 / 32;                       // how often each combination is sent
const PRIOR = [...TRAFFIC.map(() => COMBINATION), 0.20, 0.02];
const LAST = 0.001;             // an end position: P1, and no second sending
const SPOILT = 0.002;           // how often one sending of a word is spoilt in any way

/** The elements of a word, 0 or 1. */
export const PATTERNS = Array.from({ length: WORDS }, (_, word) =>
    Array.from({ length: WORD }, (_, element) => (word >> element) & 1));

/** What exchanged tones make of a word: its number, with all elements turned over. */
export function asHeard(word, isExchanged) {
    return isExchanged ? word ^ 127 : word;
}

/** How likely each word is where nothing of it was heard. */
export const UNHEARD = new Float64Array(WORDS).fill(1);

/** How likely each word is. `sent(element, tone)` tells how probable a tone is in an element. */
export function wordsByElements(sent) {
    const row = new Float64Array(WORDS);
    row[0] = WORDS;
    for (let element = 0, count = 1; element < WORD; element++, count *= 2) {
        const upper = sent(element, 0);
        const lower = sent(element, 1);
        for (let word = 0; word < count; word++) {
            row[word + count] = row[word] * upper;
            row[word] *= lower;
        }
    }
    return spoilt(row);
}

/** The same, by the logarithms of likelihoods. */
export function wordsByLikelihoods(models) {
    const top = models[placeOfGreatest(models)];
    const row = models.map((one) => Math.exp(one - top));
    const scale = 1 / mean(row);
    return spoilt(row.map((one) => one * scale));
}

/** The same, where a sending may be spoilt to any word. */
function spoilt(row) {
    for (let word = 0; word < WORDS; word++) {
        row[word] = (1 - SPOILT) * row[word] + SPOILT;
    }
    return row;
}

/** How likely each pair of DX and RX is and, last, an end, over any two words. */
export function pairs(dx, rx, isExchanged) {
    const turn = isExchanged ? 127 : 0;
    const models = new Float64Array(PAIRS);
    for (let pair = 0; pair < DX.length; pair++) {
        models[pair] = dx[DX[pair] ^ turn] * rx[RX[pair] ^ turn] * PRIOR[pair];
    }
    models[DX.length] = dx[PHASING_ONE ^ turn] * LAST;
    return models;
}

/** A sum for each word, over its elements: of `values(element, tone)`. */
export function sumsOfWords(values) {
    const sums = new Float64Array(WORDS);
    for (let element = 0; element < WORD; element++) {
        const ifSent = [values(element, 1), values(element, 0)];
        for (let word = 0; word < WORDS; word++) {
            sums[word] += ifSent[(word >> element) & 1];
        }
    }
    return sums;
}
