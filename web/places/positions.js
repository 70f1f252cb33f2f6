// Positions in the text of a message, in a closed list of forms (docs/PAGE.md). What isn't read exactly is
// no position: nothing with a lost letter in it, and no latitude of an area that has its longitudes elsewhere.

// A latitude or a longitude. One with lost letters counts too, so that what follows it is known as its part.
const COORDINATE = /([\d*]{2,3})([-*]?)([\d*]{2}(?:[.*][\d*]{1,3})?)[ \n]?([NSEW])/g;
const WHOLE = /^(\d{2,3})(-?)(\d\d(?:\.\d{1,3})?)[ \n]?[NSEW]$/;
const JOINED = /^[ \n]*(?:[-,/]|AND|TO)?[ \n]*$/; // what joins coordinates of one list
const BETWEEN = ['', ' ', '\n'];                  // and those of one position
const BEFORE = ['', ' ', '\n', '(', ',', ':', '/'];
const MARKS = ['(', ',', ':', '/'];
const BEHIND = /[A-Z0-9*]/;

const isNorth = ({ letter }) => letter === 'N' || letter === 'S';

/** The coordinates of a text, in order, each with its place. */
function coordinatesIn(text) {
    return [...text.matchAll(COORDINATE)].map(({ 0: written, 4: letter, index }) =>
        ({ at: index, end: index + written.length, written, letter }));
}

/** What a coordinate says: whether it has a dash, and its degrees; or null where it isn't read exactly. */
function readCoordinate(coordinate) {
    const found = WHOLE.exec(coordinate.written);
    if (found === null) return null;
    const [, degrees, dash, minutes] = found;
    const [digits, most] = isNorth(coordinate) ? [2, 90] : [3, 180];
    if (degrees.length !== digits || Number(minutes) >= 60) return null;
    const value = Number(degrees) + Number(minutes) / 60;
    if (value > most) return null;
    return { dash, value: 'SW'.includes(coordinate.letter) ? -value : value };
}

/** Whether a coordinate may begin a position where it stands. */
function isApart(text, at) {
    const before = text.slice(Math.max(0, at - 1), at);
    return BEFORE.includes(before) && !(MARKS.includes(before) && /[\d*]/.test(text[at - 2] ?? ''));
}

/** The positions of a text in order: where each is written, and its degrees, north and east above 0. */
export function positionsIn(text) {
    const all = coordinatesIn(text);
    const between = (at) => text.slice(all[at]?.end, all[at + 1]?.at);
    const isJoined = (at) => at >= 0 && at + 1 < all.length && JOINED.test(between(at));
    const isPair = (at) => isNorth(all[at]) && isJoined(at) && !isNorth(all[at + 1]);
    const found = [];
    for (let at = 0, isBehindPair = false; at + 1 < all.length; at++) {
        if (!isPair(at)) {
            isBehindPair = false;
            continue;
        }
        // a latitude before it, a longitude of no position before it, or one behind it: a list of another kind
        const isAlone = (isBehindPair || !isJoined(at - 1)) && !(isJoined(at + 1) && !isNorth(all[at + 2]));
        const position = isAlone && BETWEEN.includes(between(at)) ? readPair(text, all[at], all[at + 1]) : null;
        if (position !== null) found.push(position);
        isBehindPair = true;
        at += 1;
    }
    return found;
}

function readPair(text, north, east) {
    const [latitude, longitude] = [readCoordinate(north), readCoordinate(east)];
    if (latitude === null || longitude === null || latitude.dash !== longitude.dash) return null;
    if (!isApart(text, north.at) || BEHIND.test(text[east.end] ?? '')) return null;
    return { at: north.at, end: east.end, latitude: latitude.value, longitude: longitude.value };
}

/** The position that a text is, and nothing else; or null. */
export function positionOf(text) {
    const said = text.trim().toUpperCase();
    const [position] = positionsIn(said);
    return position?.at === 0 && position.end === said.length ? position : null;
}

/** A position as messages write it. */
export function positionSaid({ latitude, longitude }) {
    const part = (value, digits, letters) => {
        const tenths = Math.round(Math.abs(value) * 600); // of a minute
        const degrees = String(Math.floor(tenths / 600)).padStart(digits, '0');
        return `${degrees}-${((tenths % 600) / 10).toFixed(1).padStart(4, '0')}${letters[value < 0 ? 1 : 0]}`;
    };
    return `${part(latitude, 2, 'NS')} ${part(longitude, 3, 'EW')}`;
}
