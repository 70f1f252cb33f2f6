// Where NAVTEX is in a recording, and whether its samples are of another rate.

import { Middle } from './middle.js';
import { placeOfGreatest } from './numbers.js';
import { pieceLength } from './rates.js';
import { SEARCHED, THERE, Whole } from './whole.js';

const RATES = [48000, 44100, 8000, 16000, 22050, 11025, 12000, 24000, 32000, 96000];
const EACH_PIECE = 5;        // scores are looked at each so many pieces
const BESIDE_PLACE = 60;     // Hz from one place that is tried to another
const BESIDE_FOUND = 200;    // Hz within which only the best of what is found is told
const BEGUN = 0.6;           // a place is clear from the second on where it has so much of its best score
const LEAD = 8;              // seconds before that from which on it is tried

/** Another usual rate at which these samples have phasing of NAVTEX, or null. */
export function otherRate(samples, rate) {
    const looked = { places: 1, seconds: 30, least: THERE };
    const isThere = (other) => find(samples, other, looked).some((one) => one.phasing);
    return RATES.find((other) => other !== rate && isThere(other)) ?? null;
}

/**
 * Where words of NAVTEX are, best first: how often phasing was met, how many locks, the middle, the
 * sideband and the second.
 *
 * Tried are the clearest places of the spectrum, at least 60 Hz apart, with more than the least
 * score, each for so many seconds from where it is first clear. Of what is found within 200 Hz of
 * something better nothing is told.
 */
export function find(samples, rate, { places = 6, seconds = 120, least = 0 } = {}) {
    const spectrum = new Middle(rate, ...SEARCHED);
    const scores = scoresOf(samples, rate, spectrum);
    const best = Float64Array.from(spectrum.places, (_, place) => Math.max(0, ...scores.map((row) => row[place])));
    const found = [];
    while (found.length < places && Math.max(...best) > least) {
        const place = placeOfGreatest(best);
        const centre = spectrum.places[place];
        const clear = scores.findIndex((row) => row[place] >= BEGUN * best[place]);
        found.push(tried(samples, rate, centre, clear, seconds));
        spectrum.places.forEach((other, at) => {
            best[at] = Math.abs(other - centre) < BESIDE_PLACE ? 0 : best[at];
        });
    }
    return clearest(found);
}

/** The scores of all places, second by second. */
function scoresOf(samples, rate, spectrum) {
    const length = pieceLength(rate);
    const scores = [];
    for (let piece = 0; (piece + 1) * length <= samples.length; piece++) {
        spectrum.hear(samples.subarray(piece * length, (piece + 1) * length));
        if (piece % EACH_PIECE === EACH_PIECE - 1) {
            scores.push(spectrum.scores());
        }
    }
    return scores;
}

/** What is heard at a place. */
function tried(samples, rate, centre, clear, seconds) {
    const second = Math.max(0, clear - LEAD);
    const one = new Whole({ rate, centre });
    one.hear(samples.subarray(Math.trunc(second * rate), Math.trunc((clear + seconds - LEAD) * rate)));
    one.end();
    return { phasing: one.phasing, locks: one.locks, middle: one.place, exchanged: one.exchanged, second };
}

/** Those with a lock, best first, without those beside a better one. */
function clearest(found) {
    const clear = [];
    for (const one of found.sort((a, b) => b.phasing - a.phasing || b.locks - a.locks)) {
        if (one.locks && clear.every((other) => Math.abs(one.middle - other.middle) > BESIDE_FOUND)) {
            clear.push(one);
        }
    }
    return clear;
}
