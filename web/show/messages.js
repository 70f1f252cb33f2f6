// One message, as the page shows it.
import { placesOf, positionsOf } from '../places/places.js';
import { identityOf } from '../receiver/entries.js';
import { subjectName } from './subjects.js';

export const FREQUENCIES = ['518 kHz', '490 kHz', '4209.5 kHz'];

const ENDS = {
    full: 'complete',
    cut: "cut: its end wasn't heard",
    long: 'too long: cut after 4100 characters',
};

export function made(name, className, ...inside) {
    const element = document.createElement(name);
    if (className) element.className = className;
    element.append(...inside);
    return element;
}

/** A button with words, and what it does. */
export function button(words, onPress) {
    const element = made('button', '', words);
    element.type = 'button';
    element.addEventListener('click', onPress);
    return element;
}

/** What is said of a message in one line; `names` are those of stations, by letter. */
export function titleOf(message, names) {
    const name = names[message.station];
    return `${identityOf(message)}: station ${message.station}${name === undefined ? '' : ` ${name}`}, `
        + `${message.subject} ${subjectName(message.subject)}, number ${message.number}`;
}

function countOf(message) {
    if (message.characters === 0) return 'without a text';
    if (message.errors === 0) return `none of ${message.characters} letters lost`;
    return `${message.errors} of ${message.characters} letters lost`;
}

/** What is said of a message of which some entries were `added`. */
export function newsOf(message, added, names) {
    const isAdded = (entry) => added.includes(entry);
    const isBetter = message.replaced !== null && isAdded(message.best);
    const kind = message.copies.every(isAdded) ? 'New message' : isBetter ? 'A better copy' : 'Another copy';
    return `${kind}. ${titleOf(message.best, names)}.`;
}

/** A text in which each lost letter is marked. */
function withLost(text) {
    return text.split(/(\*+)/).filter((part) => part !== '').map((part) => {
        if (!part.startsWith('*')) return part;
        const mark = made('mark', 'lost', part);
        mark.title = part.length === 1 ? 'a lost letter' : `${part.length} lost letters`;
        return mark;
    });
}

/** The text of an entry, with its lost letters and its positions marked. */
function textOf(entry) {
    const parts = [];
    let done = 0;
    for (const { at, end } of positionsOf(entry)) {
        parts.push(...withLost(entry.text.slice(done, at)), made('mark', 'place', entry.text.slice(at, end)));
        done = end;
    }
    return made('pre', '', ...parts, ...withLost(entry.text.slice(done).replace(/\n$/, '')));
}

/** From how many sendings an entry was put together; nothing where it is one. */
function sendingsSaid({ sendings }) {
    return sendings > 1 ? `, from ${sendings} sendings` : '';
}

/** When an entry came, how much of it, and from how many sendings. */
function factsOf(entry) {
    const time = made('time', '', `${entry.time} UTC`);
    time.dateTime = entry.time.replace(' ', 'T') + 'Z';
    const facts = `, ${FREQUENCIES[entry.channel]}, ${ENDS[entry.how]}, ${countOf(entry)}${sendingsSaid(entry)}`;
    return made('p', 'facts', time, facts);
}

/** What is said where the best copy took the place of a worse one. */
function replacedOf({ replaced }) {
    if (replaced === null) return [];
    const words = `Better than the copy before it (${ENDS[replaced.how]}, ${countOf(replaced)}).`;
    return [made('p', 'replaced', words)];
}

/** How far it is to each place of a message, where the ship's place is known. */
function waysOf(message, waySaid) {
    const ways = placesOf(message).map((place) => [place.said.replace(/\n/g, ' '), waySaid(place)]);
    if (ways.length === 0 || ways[0][1] === '') return [];
    return [made('ul', 'ways facts', ...ways.map(([said, way]) => made('li', '', `${said}: ${way}`)))];
}

/** The other copies of a message, behind a click. */
function othersOf({ others }) {
    if (others.length === 0) return [];
    const fresh = others.filter(({ isRead }) => !isRead).length;
    const count = `${others.length} other ${others.length === 1 ? 'copy' : 'copies'} of it`;
    const words = made('summary', '', fresh > 0 ? `${count}, ${fresh} not read yet` : count);
    return [made('details', 'copies', words, ...others.map((one) => made('div', '', factsOf(one), textOf(one))))];
}

/** A message as an item of the list: its best copy, and the others behind it. `rings` says whether it is one
 *  of those that ring. */
export function itemOf(message, { names, rings, waySaid, onRead }) {
    const { best } = message;
    const title = made('h3', '', titleOf(best, names));
    const head = made('div', 'head', title);
    if (!message.isRead) addUnread(head, title, message, onRead);
    const kinds = ['message', message.isRead ? '' : 'unread', rings ? 'vital' : ''];
    return made('li', kinds.filter(Boolean).join(' '), made('article', '', head, factsOf(best), textOf(best),
        ...replacedOf(message), ...waysOf(message, waySaid), ...othersOf(message)));
}

function addUnread(head, title, message, onRead) {
    title.prepend(made('span', 'badge', 'New'), ' ');
    const mark = button('Mark as read', () => onRead(message));
    mark.setAttribute('aria-label', `Mark ${identityOf(message.best)} as read`);
    head.append(mark);
}

/** How many there are and how many of them are new, in words. */
export function countsOf({ all, unread, chosen, placeless }) {
    if (all === 0) return 'No message was received yet.';
    const some = chosen === all ? '' : `, ${chosen} of them chosen`;
    const left = placeless > 0 ? `. ${placeless} more ${placeless === 1 ? 'has' : 'have'} no place that is read` : '';
    return `${all} ${all === 1 ? 'message' : 'messages'}, ${unread} not read yet${some}${left}`;
}
