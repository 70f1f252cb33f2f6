// Kept logs that are made for a trial: entries, and a watch that puts them into a file.
import { closeSync, fstatSync, openSync, writeFileSync, writeSync } from 'node:fs';
import { civilOf } from '../receiver/entries.js';

/** An entry as it stands in a log. */
export function entryOf(text, { identity = 'EA01', channel = 0, moment = 1735692000, how = 'full' } = {}) {
    const mark = channel === 0 ? '' : `/${channel}`;
    const gap = text === '' || text.endsWith('\n') ? '\n' : '\n\n';
    return `[${identity}${mark} ${civilOf(moment)} ${how} ${text.split('*').length - 1}/${text.length}]\n${text}${gap}`;
}

/** The kept log of entries, at rest. */
export const keptOf = (entries) => `${entries.map((entry) => `\n${entry}`).join('')} `;

/** Writes a kept log anew. */
export const writeKept = (file, entries) => writeFileSync(file, keptOf(entries), 'latin1');

/** Puts an entry into a kept log as a watch does: behind the closed gate, and then the gate open.
 *  `isKilled` leaves it as a watch does that is killed before the gate was written; `part` of the entry. */
export function put(file, entry, { isKilled = false, part = entry.length + 1 } = {}) {
    const place = openSync(file, 'r+');
    const gate = fstatSync(place).size - 1;
    writeSync(place, `${entry} `.slice(0, part), gate + 1, 'latin1');
    if (!isKilled) writeSync(place, '\n', gate, 'latin1');
    closeSync(place);
}
