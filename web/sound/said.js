// What is said of a sound, in the words of examples/sound/elements.

import { THERE } from './whole.js';

const SAID_SINGLE = 50;   // locks refused for one tone alone, some 7 s of them, are worth to be said
const SAID_OUTSIDE = 25;  // pieces of a clock that is too fast or slow, 5 s of them, are worth to be said
export const QUIET = 1e-4;   // of the full scale: what is less loud is silence (-80 dB)

/** How loud, where, locked or not, how many elements and phasings. */
export function statusLine(status) {
    return `${status.seconds.toFixed(0)} s: ${status.level.toFixed(0)} dB, middle ${status.middle.toFixed(0)} Hz, `
        + `${status.sideband} tone B, ${status.locked ? 'locked' : 'no lock'}, ${status.told} elements, `
        + `phasing met ${status.phasing} times, ${status.sure} words sure, ${status.unsure} not`;
}

/**
 * What was heard: "heard NAVTEX" alone where nothing was amiss. `loudest` is the power of the
 * loudest piece, `other` a rate at which there is NAVTEX, if it isn't the one that is named.
 */
export function judged(one, loudest, other) {
    const heard = (one.exchanged ? ', the lower tone as B (lower sideband)' : '')
        + amiss(one).map((text) => `; ${text}`).join('');
    if (other !== null) {
        return `heard samples of ${other} a second: name --rate ${other}`;
    }
    if (one.phasing) {
        return `heard NAVTEX${heard}`;
    }
    if (one.locks) {
        return `heard words of NAVTEX but no phasing, as where a recording begins in the middle${heard}; or try --find`;
    }
    if (!one.told) {
        return 'no sound came: look at what the program before it says';
    }
    return loudest < QUIET ** 2 ? 'heard silence' : judgedWithoutWords(one);
}

/** What was heard where no word was found. */
function judgedWithoutWords(one) {
    const middle = one.middle.toFixed(0);
    if (one.aside.score > 0) {
        const aside = one.aside.place.toFixed(0);
        return `heard two tones near ${aside} Hz, where --centre names others: name ${aside}, or none`;
    }
    if (one.outside > SAID_OUTSIDE) {
        return `heard two tones near ${middle} Hz, but elements came more than 1.2 per cent too fast or too slow`;
    }
    if (one.single > SAID_SINGLE) {
        return `heard words on one tone alone, the other one is missing near ${middle} Hz: `
            + 'look at the filter of the radio';
    }
    if (one.tone > THERE) {
        return `heard two tones near ${middle} Hz now and then, but no words of NAVTEX; try --find`;
    }
    return `heard sound, but no two tones 170 Hz apart near ${middle} Hz; try --find`;
}

/** What wasn't as it should be, though words were heard. */
function amiss(one) {
    const said = [];
    if (one.unsure > 0) {
        said.push(`${one.unsure} of ${one.sure + one.unsure} words weren't sure`);
    }
    if (one.jumps > 0) {
        said.push(`sound was lost or doubled ${one.jumps} times, look at what the program before it says`);
    }
    if (one.single > SAID_SINGLE) {
        said.push('one of the two tones was missing for a time');
    }
    if (one.outside > SAID_OUTSIDE) {
        said.push('elements came more than 1.2 per cent too fast or too slow for a time');
    }
    if (one.aside.score > 0) {
        said.push(`two tones were clearer near ${one.aside.place.toFixed(0)} Hz`);
    }
    return said;
}
