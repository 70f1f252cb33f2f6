// The phase of the tones through a word: a sender changes from tone to tone without a jump.

import { logBessel } from './likelihood.js';
import { inState, RATIO, SIZE } from './loudness.js';
import { listOf, sum } from './numbers.js';
import { BAUD, SHIFT } from './rates.js';
import { Signal } from './signal.js';
import { PATTERNS, sumsOfWords, WORD, WORDS } from './words.js';

export const ELEMENT_SECONDS = 1 / BAUD;
export const ELEMENT_TURNS = SHIFT / 2 / BAUD;   // turns that an element adds or takes: 0.85
const LAGS = [1, 2, 3];                          // elements between those whose phases are compared

// Where the phase of each word stands at the beginning of each of its elements, turned back.
const TURNED = PATTERNS.map((pattern) => {
    let turns = 0;
    return pattern.map((bit) => {
        const angle = -2 * Math.PI * turns;
        turns += bit ? ELEMENT_TURNS : -ELEMENT_TURNS;
        return { cosine: Math.cos(angle), sine: Math.sin(angle) };
    });
});

/** The column of a tone: the upper one is sent for 1. */
function toneOf(bit) {
    return bit ? 0 : 1;
}

/** A / N times the tones of a word, turned back to the phase of its beginning. */
export function turnedBack(tones, state, place, word) {
    const turned = Signal.still(WORD);
    for (let element = 0; element < WORD; element++) {
        const tone = toneOf(PATTERNS[word][element]);
        const { cosine, sine } = TURNED[word][element];
        const size = state.get(place + element, inState(tone, SIZE));
        const heardReal = tones.get(place + element, 2 * tone);
        const heardImaginary = tones.get(place + element, 2 * tone + 1);
        turned.real[element] = (heardReal * cosine - heardImaginary * sine) * size;
        turned.imaginary[element] = (heardReal * sine + heardImaginary * cosine) * size;
    }
    return turned;
}

/** The phase in which the tones of a word begin, as the sum of 2 A / N times them, turned back. */
export function phasorOf({ real, imaginary }) {
    return { real: 2 * sum(real), imaginary: 2 * sum(imaginary) };
}

/**
 * The sum of c(i + m) c(i)*, m from 1 to 3, where c is the tones of a word turned back. Its angle
 * is 4 pi times the seconds of an element times the frequency that is left in c (Luise and
 * Reggiannini 1995).
 */
export function slopeOf({ real, imaginary }) {
    const slope = { real: 0, imaginary: 0 };
    for (const lag of LAGS) {
        for (let one = 0; one + lag < WORD; one++) {
            slope.real += real[one + lag] * real[one] + imaginary[one + lag] * imaginary[one];
            slope.imaginary += imaginary[one + lag] * real[one] - real[one + lag] * imaginary[one];
        }
    }
    return slope;
}

/** How far a slope says that the middle is off, in Hz. */
export function offBySlope({ real, imaginary }) {
    return Math.atan2(imaginary, real) / (4 * Math.PI * ELEMENT_SECONDS);
}

/**
 * The likelihood of each word whose tones follow each other without a jump of phase:
 * ln I0(|b + sum of 2 A r e^(-i phi) / N|) - ln I0(|b|) - sum of A² / N. b is what is known of the
 * phase in which the word begins; there is an answer for each of `begun`. `off` is how far the
 * middle is off, in Hz.
 */
export function wordsWithPhase(tones, state, place, off, begun) {
    const sums = turnedWords(tones, state, place, off);
    const ratios = sumsOfWords((element, tone) => state.get(place + element, inState(tone, RATIO)));
    return begun.map(({ real, imaginary }) => {
        const known = logBessel(Math.hypot(real, imaginary));
        return listOf(WORDS, (word) =>
            logBessel(Math.hypot(sums.real[word] + real, sums.imaginary[word] + imaginary)) - known - ratios[word]);
    });
}

/** The sum of 2 A r e^(-i phi) / N for each word. */
function turnedWords(tones, state, place, off) {
    const heard = Array.from({ length: WORD }, (_, element) =>
        [0, 1].map((bit) => turnedTone(tones, state, place, element, toneOf(bit), off)));
    const sums = Signal.still(WORDS);
    for (let word = 0; word < WORDS; word++) {
        for (let element = 0; element < WORD; element++) {
            const { real, imaginary } = heard[element][PATTERNS[word][element]];
            const { cosine, sine } = TURNED[word][element];
            sums.real[word] += real * cosine - imaginary * sine;
            sums.imaginary[word] += real * sine + imaginary * cosine;
        }
    }
    return sums;
}

/** 2 A r / N of a tone in an element of a word, turned back by what the middle is off. */
function turnedTone(tones, state, place, element, tone, off) {
    const scale = 2 * state.get(place + element, inState(tone, SIZE));
    const real = scale * tones.get(place + element, 2 * tone);
    const imaginary = scale * tones.get(place + element, 2 * tone + 1);
    const angle = -2 * Math.PI * off * ELEMENT_SECONDS * element;
    const cosine = Math.cos(angle);
    const sine = Math.sin(angle);
    return { real: real * cosine - imaginary * sine, imaginary: real * sine + imaginary * cosine };
}
