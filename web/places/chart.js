// A chart of places with a graticule: Mercator, north up, no coast. It shows what its points need.
const NARROWEST = 280; // pixels of its width
const HIGH = 0.66;     // its height, as a part of that
const LEAST_HIGH = 260;
const EDGE = 26;       // room for the words of the graticule
const NORTHMOST = 85;  // degrees; what is nearer to a pole isn't drawn
const LEAST = 0.5;     // degrees of longitude that its height is worth at least
const MARGIN = 0.08;   // part of it around the points
const LINES = 6;       // lines of the graticule each way, about
const MINUTES = [1, 2, 5, 10, 20, 30, 60, 120, 300, 600, 900, 1800]; // from line to line
const SPACE = 'http://www.w3.org/2000/svg';

const northing = (latitude) => Math.log(Math.tan(Math.PI / 4 + (latitude * Math.PI) / 360)) * (180 / Math.PI);
const latitudeAt = (y) => (Math.atan(Math.exp((y * Math.PI) / 180)) * 360) / Math.PI - 90;

/** A longitude within half a turn of another. */
export const near = (longitude, other) => other + ((((longitude - other) % 360) + 540) % 360) - 180;

/** The middle of longitudes: the others lie within the smallest span around it. */
export function middleOf(longitudes) {
    const sorted = [...longitudes].sort((one, other) => one - other);
    let [widest, behind] = [-1, sorted[0]];
    sorted.forEach((longitude, at) => {
        const following = sorted[(at + 1) % sorted.length];
        const gap = at + 1 < sorted.length ? following - longitude : following + 360 - longitude;
        if (gap > widest) [widest, behind] = [gap, following];
    });
    return near(behind + (360 - widest) / 2, 0);
}

export const canDraw = ({ latitude }) => Math.abs(latitude) <= NORTHMOST;

/** How large a chart is where it has so much room. */
export function sizeIn(room) {
    const width = Math.max(NARROWEST, room);
    return { width, height: Math.max(LEAST_HIGH, Math.round(HIGH * width)) };
}

/** What a chart of a size shows of points that can be drawn, and where each of its degrees lies. */
export function frameOf(points, { width, height }) {
    const middle = middleOf(points.map(({ longitude }) => longitude));
    const xs = points.map(({ longitude }) => near(longitude, middle));
    const ys = points.map(({ latitude }) => northing(latitude));
    const [inner, high] = [width - 2 * EDGE, height - 2 * EDGE];
    const [left, right, low, top] = [Math.min(...xs), Math.max(...xs), Math.min(...ys), Math.max(...ys)];
    const need = Math.max((right - left) / inner, (top - low) / high) * (1 + 2 * MARGIN);
    const degree = Math.max(need, LEAST / high); // degrees of longitude in a unit of the chart
    const [x, y] = [(left + right) / 2, (low + top) / 2];
    return {
        width, height,
        west: x - (degree * inner) / 2, east: x + (degree * inner) / 2,
        south: y - (degree * high) / 2, north: y + (degree * high) / 2,
        across: (longitude) => width / 2 + (near(longitude, x) - x) / degree,
        along: (longitude) => width / 2 + (longitude - x) / degree,
        down: (latitude) => height / 2 - (northing(latitude) - y) / degree,
    };
}

/** The degrees at which lines of the graticule stand from one to another. */
export function linesBetween(from, to) {
    const step = MINUTES.find((minutes) => ((to - from) * 60) / minutes <= LINES) ?? MINUTES.at(-1);
    const first = Math.ceil((from * 60) / step);
    const last = Math.floor((to * 60) / step);
    return Array.from({ length: Math.max(0, last - first + 1) }, (_, at) => ((first + at) * step) / 60);
}

/** Degrees and minutes as a line of the graticule names them. */
export function lineSaid(degrees, digits, letters) {
    const minutes = Math.round(Math.abs(degrees) * 60);
    const letter = minutes === 0 || (digits === 3 && minutes === 10800) ? '' : letters[degrees < 0 ? 1 : 0];
    return `${String(Math.floor(minutes / 60)).padStart(digits, '0')}°`
        + `${minutes % 60 === 0 ? '' : `${String(minutes % 60).padStart(2, '0')}'`}${letter}`;
}

function drawn(name, attributes, ...inside) {
    const element = document.createElementNS(SPACE, name);
    for (const [key, value] of Object.entries(attributes)) element.setAttribute(key, value);
    element.append(...inside);
    return element;
}

function graticule(frame) {
    const { width, height } = frame;
    const parts = [];
    for (const longitude of linesBetween(frame.west, frame.east)) {
        const x = frame.along(longitude);
        parts.push(drawn('line', { class: 'line', x1: x, x2: x, y1: EDGE, y2: height - EDGE }),
            drawn('text', { class: 'degrees', x, y: height - EDGE / 2 + 4, 'text-anchor': 'middle' },
                lineSaid(near(longitude, 0), 3, 'EW')));
    }
    const [low, top] = [Math.max(-89, latitudeAt(frame.south)), Math.min(89, latitudeAt(frame.north))];
    for (const latitude of linesBetween(low, top)) {
        const y = frame.down(latitude);
        parts.push(drawn('line', { class: 'line', x1: EDGE, x2: width - EDGE, y1: y, y2: y }),
            drawn('text', { class: 'degrees', x: EDGE + 4, y: y - 3 }, lineSaid(latitude, 2, 'NS')));
    }
    return [...parts, drawn('rect', { class: 'frame', x: EDGE, y: EDGE, width: width - 2 * EDGE,
        height: height - 2 * EDGE })];
}

/** A point of a message; `words` stand beside it, where they have room. */
function point(frame, { latitude, longitude, name, words, kind, onPress }, taken) {
    const [x, y] = [frame.across(longitude), frame.down(latitude)];
    const mark = drawn('g', { class: `point ${kind}` }, drawn('circle', { cx: x, cy: y, r: 6 }),
        drawn('title', {}, words));
    const [side, anchor] = x > frame.width - 80 ? [-10, 'end'] : [10, 'start'];
    const isFree = !taken.some((other) => Math.abs(other.x - x) < 52 && Math.abs(other.y - y) < 15);
    if (isFree) {
        taken.push({ x, y });
        mark.append(drawn('text', { x: x + side, y: y + 5, 'text-anchor': anchor }, name));
    }
    mark.addEventListener('click', onPress);
    return mark;
}

function ship(frame, { latitude, longitude }) {
    const [x, y] = [frame.across(longitude), frame.down(latitude)];
    return drawn('g', { class: 'ship' }, drawn('circle', { cx: x, cy: y, r: 9 }),
        drawn('path', { d: `M${x - 15} ${y}h30M${x} ${y - 15}v30` }), drawn('title', {}, "the ship's place"));
}

/** Draws points, and the ship's place where it is known, into an element of SVG. */
export function drawChart(element, points, here) {
    const all = here === null ? points : [...points, here];
    element.classList.toggle('empty', all.length === 0);
    if (all.length === 0) {
        element.replaceChildren();
        return;
    }
    const frame = frameOf(all, sizeIn(element.parentElement.clientWidth - 2 * EDGE));
    element.setAttribute('viewBox', `0 0 ${frame.width} ${frame.height}`);
    const taken = [];
    const marks = points.map((one) => point(frame, one, taken)).reverse(); // the newest above the others
    element.replaceChildren(...graticule(frame), ...marks, ...(here === null ? [] : [ship(frame, here)]));
}
