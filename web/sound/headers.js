// The header of a message, decided together, since its form is known.
//
// It is ZCZC, a space, two letters, the figure shift, two digits, a carriage return and a line feed
// (ITU-R M.540). Where one letter of a header is damaged the receiver prints nothing of the
// message. So what is fixed is written as it is known, where all of it together is sure. The
// identity isn't guessed: it is written where its four characters together are surer than a word
// has to be, since a wrong one names another message. A header begins only behind phasing, or
// behind an end of a message; so no text is taken for one.

import { probability } from './likelihood.js';
import { sum } from './numbers.js';
import { COMBINATION } from './words.js';

const ALPHABET = Array.from({ length: 26 }, (_, letter) => letter);   // by their number in DX
const DIGITS = Array.from('PQWERTYUIO', numberOf);                    // 0 to 9, in figures
const [RETURN, FEED, LETTER_SHIFT, FIGURE_SHIFT, SPACE] = [26, 27, 28, 29, 30];
const FORM = [
    ...Array.from('ZCZC', (letter) => [numberOf(letter)]), [SPACE], ALPHABET, ALPHABET,
    [FIGURE_SHIFT], DIGITS, DIGITS, [RETURN], [FEED],
];
const NAMED = 0.995;         // the identity is written where it is so probable
const OFTEN = 0.02;          // how often a header begins at a position where it may
const WAITED = 14;           // positions that aren't sure at most, from phasing or an end to a header
const END = 4;               // N of an end

export const HEADER_POSITIONS = FORM.length;

function numberOf(letter) {
    return letter.charCodeAt(0) - 'A'.charCodeAt(0);
}

/** Whether a header may begin, by the words that were sure. */
export class HeaderPlace {
    constructor() {
        this.isBehind = false;   // whether phasing or an end was heard, and no other word since
        this.unsure = 0;         // positions since the latest sure one
        this.ends = 0;           // N in a row
    }

    /** Takes a position: its number in DX, or null where it isn't sure. */
    hear(number, isPhasing) {
        if (number === null) {
            this.unsure += 1;
            return;
        }
        this.unsure = 0;
        this.ends = number === numberOf('N') ? this.ends + 1 : 0;
        const isPassed = [RETURN, FEED, LETTER_SHIFT].includes(number) && this.isBehind;
        this.isBehind = isPhasing || isPassed || this.ends >= END;
    }

    get isOpen() {
        return this.isBehind && this.unsure <= WAITED;
    }
}

/**
 * The numbers in DX of the words of a header, null for those that aren't sure; null where it isn't
 * sure that there is one. `models` tells how likely each pair is at each of its positions.
 */
export function headerOf(models, sure) {
    const places = FORM.map((numbers, place) => formPlace(models[place], numbers));
    const odds = places.reduce((total, { evidence }) => total + evidence, Math.log(OFTEN / (1 - OFTEN)));
    let share = probability(odds);
    if (share < sure) {
        return null;
    }
    const words = places.map(({ number }) => number);
    const isIdentity = (place) => FORM[place].length > 1;
    const identity = places.map((_, place) => place).filter(isIdentity);
    identity.sort((one, other) => places[other].share - places[one].share);
    for (const place of identity) {
        share *= places[place].share;
        words[place] = share >= NAMED ? words[place] : null;
    }
    return words;
}

/** The likeliest of the words that may stand at a place, and what speaks for one of them. */
function formPlace(model, numbers) {
    const parts = numbers.map((number) => model[number]);
    const most = Math.max(...parts);
    const all = sum(parts);
    return {
        number: numbers[parts.indexOf(most)],
        share: most / (all + 1e-300),
        evidence: Math.log(all / numbers.length / sum(model) + 1e-300) - Math.log(COMBINATION),
    };
}
