// The choices of the page, which stay over a reload: how it looks, the tones of each frequency, what
// rings, names of stations. A value that is none of these is as if nobody had chosen.
import { CHANNELS } from '../receiver/receiver.js';
import { shipOf } from '../places/ship.js';
import { PageFault } from '../show/faults.js';

const KEY = 'navtex.choices';
const OLDER = 'navtex.received'; // where a page of before this store kept its messages
const OLDER_VERSION = 1;

export const USUAL_TUNING = Object.freeze({ centre: 1000, search: true, exchanged: false });
export const RINGING = ['A', 'B', 'D', 'L', '00']; // a subject, or the number
const USUAL_RINGING = ['D', '00'];
const LONGEST_NAME = 40;
const SILENCES = [0, 4, 8, 12, 24, 48]; // hours after which a log that doesn't grow is told; 0 is never
const USUAL_SILENCE = 12;

const isObject = (value) => typeof value === 'object' && value !== null && !Array.isArray(value);
const listed = (value, all, usual) => (Array.isArray(value) ? all.filter((one) => value.includes(one)) : usual);

function tuningOf(value) {
    const { centre, search, exchanged } = isObject(value) ? value : {};
    return {
        centre: Number.isFinite(centre) && centre >= 385 && centre <= 3415 ? centre : USUAL_TUNING.centre,
        search: typeof search === 'boolean' ? search : USUAL_TUNING.search,
        exchanged: exchanged === true,
    };
}

function namesOf(value) {
    return Object.fromEntries(Object.entries(isObject(value) ? value : {})
        .filter(([letter, name]) => /^[A-Z]$/.test(letter) && typeof name === 'string' && name.trim() !== '')
        .map(([letter, name]) => [letter, name.trim().slice(0, LONGEST_NAME)]));
}

/** Choices of a value that may be anything. */
export function choicesOf(value) {
    const { view, tunings, rings, notifies, names, ends, silence, ship } = isObject(value) ? value : {};
    return {
        view: listed(view, ['night', 'large'], []),
        tunings: Array.from({ length: CHANNELS }, (_, channel) => tuningOf(Array.isArray(tunings) && tunings[channel])),
        rings: listed(rings, RINGING, USUAL_RINGING),
        notifies: notifies === true,
        names: namesOf(names),
        ends: ends === 'now' ? 'now' : 'changed',
        silence: SILENCES.includes(silence) ? silence : USUAL_SILENCE,
        ship: shipOf(ship),
    };
}

/** The browser's small store, or null where it gives none to this page. */
function storage() {
    try {
        return window.localStorage;
    } catch {
        return null;
    }
}

function valueOf(key) {
    try {
        return JSON.parse(storage()?.getItem(key) ?? 'null');
    } catch {
        return null;
    }
}

export function readChoices() {
    return choicesOf(valueOf(KEY));
}

/** Keeps choices; a store that is full or closed is no harm. */
export function keepChoices(choices) {
    try {
        storage()?.setItem(KEY, JSON.stringify(choices));
    } catch {
        // they hold until the page is closed
    }
}

/** What an older page kept: the state and the entries; null where there is nothing. */
export function keptBefore() {
    const value = valueOf(OLDER);
    if (value === null) return null;
    if (value.version !== OLDER_VERSION || typeof value.state !== 'string' || !Array.isArray(value.entries)) {
        throw new PageFault('This browser keeps messages of another version of this page. They are left as they '
            + 'are, and are not shown.');
    }
    return { state: value.state, entries: value.entries.filter(isObject) };
}
