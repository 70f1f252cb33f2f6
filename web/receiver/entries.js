// What the entries of a log say, read from its text; and the same as JSON, as `navtex log` gives it.
import { MAX_MOMENT } from './receiver.js';

const HEAD = /\[([A-Z])([A-Z])(\d\d)(?:\/([12]))? (\d{4}-\d\d-\d\d \d\d:\d\d:\d\d) (full|cut|long) (0|[1-9]\d{0,3})\/(0|[1-9]\d{0,3})\]\n/y;
const TEXT = /^[A-Z0-9 \n*\-?:().,'=+/]*$/;
const MOST_CHARACTERS = 4100;

/** What the head says that stands at a place of a text, and where the text behind it begins; or null. */
export function headAt(text, at) {
    HEAD.lastIndex = at;
    const head = HEAD.exec(text);
    if (head === null) return null;
    const [whole, station, subject, number, channel = '0', time, how] = head;
    const [errors, characters] = [Number(head[7]), Number(head[8])];
    const moment = momentOf(time);
    if (moment === null || errors > characters || characters > MOST_CHARACTERS) return null;
    return { station, subject, number, channel: Number(channel), time, moment, how, errors, characters,
        begin: at + whole.length };
}

/** The entry that begins at a place of a text, or null where none stands there. */
export function entryAt(text, at = 0) {
    const head = headAt(text, at);
    if (head === null) return null;
    const { begin, ...said } = head;
    const body = text.slice(begin, begin + said.characters);
    const gap = gapBehind(body);
    const isWhole = body.length === said.characters && TEXT.test(body)
        && body.split('*').length - 1 === said.errors && text.startsWith(gap, begin + body.length);
    if (!isWhole) return null;
    return { ...said, text: body, log: text.slice(at, begin + body.length + gap.length) };
}

/** What stands behind the text of an entry. */
export function gapBehind(body) {
    return body === '' || body.endsWith('\n') ? '\n' : '\n\n';
}

/** Seconds since 1970 of a time of UTC, as 2025-01-01 00:40:00; null where there is no such time. */
export function momentOf(civil) {
    const milliseconds = Date.parse(civil.replace(' ', 'T') + 'Z');
    if (!(milliseconds >= 0 && milliseconds <= MAX_MOMENT * 1000)) return null;
    return civilOf(milliseconds / 1000) === civil ? milliseconds / 1000 : null;
}

export function civilOf(moment) {
    return new Date(moment * 1000).toISOString().slice(0, 19).replace('T', ' ');
}

/** All entries of a log, of a kept log, or of several one behind the other. `onStray` gets the place of
 *  what belongs to none of them. */
export function* entriesOf(text, onStray = () => {}) {
    for (let at = 0; at < text.length;) {
        const entry = text[at] === '[' ? entryAt(text, at) : null;
        if (entry !== null) yield entry;
        else if (!/\s/.test(text[at])) onStray(at);
        at += entry?.log.length ?? 1;
    }
}

/** Those entries, and the first line that belongs to none of them, or null. */
export function readLog(text) {
    let stray = null;
    const entries = [...entriesOf(text, (at) => { stray ??= lineOf(text, at); })];
    return { entries, stray };
}

/** The line of a text in which a place stands, from 1 on. */
export function lineOf(text, at) {
    return text.slice(0, at).split('\n').length;
}

/** Whether a log remembers the entry: it is whole, and less than 4 per cent of it are lost. */
export function isGood(entry) {
    return entry.how === 'full' && 25 * entry.errors < Math.max(1, entry.characters);
}

/** Whether nothing of it is lost. */
export function isWhole({ how, errors }) {
    return how === 'full' && errors === 0;
}

export function identityOf(entry) {
    return entry.station + entry.subject + entry.number;
}

/** One line of JSON: keys and order are those of `navtex log --json`. */
export function jsonOf(entry) {
    return JSON.stringify({
        channel: entry.channel,
        characters: entry.characters,
        end: entry.how,
        errors: entry.errors,
        good: isGood(entry),
        identity: identityOf(entry),
        moment: entry.moment,
        number: Number(entry.number),
        station: entry.station,
        subject: entry.subject,
        text: entry.text,
        time: entry.time.replace(' ', 'T') + 'Z',
    });
}
