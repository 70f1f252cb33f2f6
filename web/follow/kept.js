// The log of a watch, read as its next watch would read it. It is a gate, an entry, a gate, and so on,
// a gate. A gate is one byte, closed where it is a space; an entry counts once the gate before it is open.
import { entryAt, gapBehind, headAt } from '../receiver/entries.js';

const MOST_TORN = 4147;   // bytes behind a closed gate: the longest entry and its gate
const LONGEST_HEAD = 46;  // bytes, of a head with its end
const TEXT_BYTE = /[A-Z0-9 \n*\-?:().,'=+/]/;

/**
 * Reads what stands from a gate on: `entries`, each with the place of the gate before it and of the one
 * behind it (`next`); `gate`, the last one; and `broken`, the first byte with which no bytes to come make
 * the text good, or null. Where the text ends within an entry `broken` is its end, and `isEarly` says so.
 */
export function readKept(text) {
    const entries = [];
    let gate = 0;
    for (;;) {
        const left = text.length - gate - 1;
        if (left <= 0) return { entries, gate, broken: null, isEarly: false };
        if (text[gate] === ' ') {
            const broken = left > MOST_TORN ? gate + 1 + MOST_TORN : null;
            return { entries, gate, broken, isEarly: false };
        }
        const entry = entryAt(text, gate + 1);
        if (entry === null) return { entries, gate, ...brokenAt(text, gate + 1) };
        const next = gate + 1 + entry.log.length;
        entries.push({ ...entry, place: gate, next });
        gate = next;
    }
}

/** The byte with which what begins at a place is no entry. Of a head, which is one line, that is its
 *  first one. */
function brokenAt(text, at) {
    const head = headAt(text, at);
    if (head !== null) return brokenWithin(text, head);
    const rest = text.slice(at, at + LONGEST_HEAD);
    const isEarly = at + rest.length === text.length && !rest.includes('\n');
    return { broken: at, isEarly };
}

function brokenWithin(text, { begin, errors, characters }) {
    let lost = 0;
    for (let place = begin; place < begin + characters; place++) {
        if (place === text.length) return { broken: place, isEarly: true };
        if (text[place] === '*') lost += 1;
        const left = begin + characters - place - 1;
        if (!TEXT_BYTE.test(text[place]) || lost > errors || errors - lost > left) {
            return { broken: place, isEarly: false };
        }
    }
    const end = begin + characters;
    const gap = gapBehind(text.slice(begin, end));
    const found = text.slice(end, end + gap.length);
    const shared = [...found].findIndex((letter) => letter !== '\n');
    const broken = end + (shared < 0 ? found.length : shared);
    return { broken, isEarly: broken === text.length };
}
