// Files that come to the page and go from it.
import { LineSplitter, readLine } from '../receiver/air.js';
import { momentOf, readLog } from '../receiver/entries.js';
import { PageFault } from '../show/faults.js';

const PROBED = 16384; // bytes by which a file is known
const LINES = 40;     // lines by which an air file is known
const SLICE = 65536;  // bytes that are read at a time
const KEPT = 10000;   // milliseconds in which a browser takes up a file that it is offered
const MARK = '\xef\xbb\xbf'; // with which some programs begin a text

/** Bytes as a text, without the mark at its beginning. */
function textOf(bytes) {
    const text = new TextDecoder('latin1').decode(bytes);
    return text.startsWith(MARK) ? text.slice(MARK.length) : text;
}

/** What a file is, by its beginning: 'air', 'log' or 'sound'. */
export async function kindOf(file) {
    if (file.size === 0) throw new PageFault(`${file.name} is empty.`);
    const text = textOf(await file.slice(0, PROBED).arrayBuffer());
    if (!/^[\n\r\t -~]*$/.test(text)) return 'sound';
    const splitter = new LineSplitter();
    const lines = [...splitter.push(text).slice(0, LINES), splitter.rest];
    if (lines.some((line) => readLine(line) !== null)) return 'air';
    if (readLog(text.replaceAll('\r\n', '\n')).entries.length > 0) return 'log';
    throw new PageFault(`${file.name} is a text, but neither an air file nor a log of navtex.`);
}

/** The text of a log, its lines ended by LF alone. */
export async function logOf(file) {
    return textOf(await file.arrayBuffer()).replaceAll('\r\n', '\n');
}

/** The lines of an air file, some of them at a time, with the part of the file that was read. */
export async function* linesOf(file) {
    const splitter = new LineSplitter();
    for (let from = 0; from < file.size; from += SLICE) {
        const bytes = await file.slice(from, from + SLICE).arrayBuffer();
        const text = from === 0 ? textOf(bytes) : new TextDecoder('latin1').decode(bytes);
        yield [splitter.push(text), from / file.size];
    }
    if (splitter.rest !== '') yield [[splitter.rest], 1];
}

/** The moment that a text names, as 2025-01-01 00:40 in UTC; null where it is empty. */
export function momentSaid(text) {
    const said = text.trim().replace('T', ' ').replace(/Z$/, '');
    if (said === '') return null;
    const moment = momentOf(/^\d{4}-\d\d-\d\d \d\d:\d\d$/.test(said) ? `${said}:00` : said);
    if (moment === null) throw new PageFault('The beginning has to be a time of UTC, as 2025-01-01 00:40.');
    return moment;
}

/** Offers a text as a file. */
export function offer(text, name) {
    const link = document.createElement('a');
    link.href = URL.createObjectURL(new Blob([text], { type: 'text/plain' }));
    link.download = name;
    link.click();
    setTimeout(() => URL.revokeObjectURL(link.href), KEPT);
}
