// The places of messages, read once.
import { positionsIn } from './positions.js';

const read = new WeakMap(); // the positions of entries that were asked for

/** The positions of an entry. */
export function positionsOf(entry) {
    if (!read.has(entry)) read.set(entry, positionsIn(entry.text));
    return read.get(entry);
}

/** The places of a message, each once: those of all its copies, the best first. */
export function placesOf(message) {
    const places = new Map();
    for (const entry of [message.best, ...message.others]) {
        for (const place of positionsOf(entry)) {
            const name = `${place.latitude} ${place.longitude}`;
            if (!places.has(name)) places.set(name, { ...place, said: entry.text.slice(place.at, place.end) });
        }
    }
    return [...places.values()];
}
