// Tries what the page makes of a log that is followed and of places, by node, without the receiver.
// usage: node web/trial/followed.mjs
import assert from 'node:assert/strict';
import { spawnSync } from 'node:child_process';
import { readFileSync, readdirSync } from 'node:fs';
import { FollowedLog } from '../follow/followed.js';
import { readKept } from '../follow/kept.js';
import { Marks } from '../follow/marks.js';
import { LogReader } from '../follow/reader.js';
import { addressOf, followedIn, spanSaid } from '../follow/section.js';
import { frameOf, linesBetween, lineSaid, middleOf, near, sizeIn } from '../places/chart.js';
import { waySaid, wayTo } from '../places/earth.js';
import { positionOf, positionSaid, positionsIn } from '../places/positions.js';
import { shipOf } from '../places/ship.js';
import { Messages } from '../receiver/copies.js';
import { entryAt, lineOf, readLog } from '../receiver/entries.js';
import { newsOf } from '../show/messages.js';
import { chanceOf } from './chance.mjs';
import { entryOf, keptOf } from './kept.mjs';

const ROOT = new URL('../../', import.meta.url).pathname;
const EXAMPLES = new URL('../../examples/', import.meta.url);
const CASES = 4000;    // texts that are compared with the plain reader
const FOLLOWED = 120;  // files that grow, are cut and replaced

const chance = chanceOf(20250101);
const below = (most) => Math.floor(chance() * most);

const logged = readdirSync(EXAMPLES).filter((name) => name.endsWith('.log'))
    .flatMap((name) => readLog(readFileSync(new URL(name, EXAMPLES), 'latin1')).entries.map(({ log }) => log));
const some = () => Array.from({ length: below(5) }, () => logged[below(logged.length)]);

const changed = (text, at, letter) => text.slice(0, at) + letter + text.slice(at + 1);
const COUNTS = ['00/5', '0/05', '9/5', '1/5', '0/4101', '0/6']; // that aren't those of a text of five letters

/** A kept log, most often torn or damaged in some way. */
function torn() {
    let text = keptOf(some());
    const ways = [
        () => {},
        () => { text = text.slice(0, below(text.length + 1)); },
        () => { text = `${text}${logged[below(logged.length)]} `.slice(0, text.length + below(60)); },
        () => { text = changed(text, below(text.length), '*\n [X9\xff'[below(7)]); },
        () => { text = changed(text, below(text.length), ''); },
        () => { text = `${text}${'x'.repeat(4140 + below(10))}`; },
        () => { text = `${text.slice(0, -1)}\n`; },
        () => { text = keptOf([entryOf('A'.repeat(4099 + below(3)))]).slice(0, 4200 - below(100)); },
        () => { text = keptOf([entryOf('AAAAA')]).replace('0/5', COUNTS[below(COUNTS.length)]); },
    ];
    ways[below(ways.length)]();
    return text;
}

/** Of many texts the page reads the entries and the damaged line that the plain reader of ci/ does. */
function triesKept() {
    const texts = Array.from({ length: CASES }, torn);
    const plain = spawnSync('python3', ['-c', `
import json, sys
sys.path.insert(0, ${JSON.stringify(`${ROOT}ci`)})
import log_reader
for text in json.load(sys.stdin):
    entries, line = log_reader.read_kept(text.encode("latin-1"))
    print(json.dumps([[log_reader.bytes_of(it).decode("latin-1") for it in entries], line]))
`], { input: JSON.stringify(texts), encoding: 'utf8', maxBuffer: 1e9,
        env: { ...process.env, PYTHONDONTWRITEBYTECODE: '1' } });
    assert.equal(plain.status, 0, plain.stderr);
    const wanted = plain.stdout.trim().split('\n').map((line) => JSON.parse(line));
    texts.forEach((text, at) => {
        const { entries, broken } = readKept(text);
        const line = broken === null ? null : lineOf(text, broken);
        assert.deepEqual([entries.map(({ log }) => log), line], wanted[at], JSON.stringify(text));
        for (const { place, next, log } of entries) assert.equal(text.slice(place + 1, next), log);
    });
}

/** A server of one file, which gives ranges or not. */
function serverOf(file, givesRanges) {
    return async (_, { headers }) => {
        file.asked += 1;
        const range = /^bytes=(\d+)-$/.exec(headers.Range ?? '');
        const from = range === null || !givesRanges ? 0 : Number(range[1]);
        if (from > 0 && from >= file.text.length) return new Response('', { status: 416 });
        const text = file.text.slice(from);
        file.sent += text.length;
        const said = from > 0 ? { 'Content-Range': `bytes ${from}-${file.text.length - 1}/${file.text.length}` } : {};
        return new Response(Buffer.from(text, 'latin1'), { status: from > 0 ? 206 : 200, headers: said });
    };
}

/** A watch that puts into a file, step by step; a step in which it may be killed each time. */
function* putting(file, log) {
    const begin = file.text.length - 1;
    for (let count = 0; count <= log.length; count += 1 + below(40)) {
        file.text = file.text.slice(0, begin + 1) + log.slice(0, count);
        yield;
    }
    file.text = `${file.text.slice(0, begin + 1)}${log} `;
    yield;
    file.text = `${file.text.slice(0, begin)}\n${file.text.slice(begin + 1)}`;
    yield;
}

/** Of a log that grows, tears, is cut and is replaced, what is followed is always what it stands for. */
async function triesFollowing() {
    for (let run = 0; run < FOLLOWED; run++) {
        const begun = run % 4 < 2 ? some() : Array.from({ length: 400 }, () => logged[below(logged.length)]);
        const file = { text: keptOf(begun), asked: 0, sent: 0 };
        const reader = new LogReader('http://x/watch.log', serverOf(file, run % 2 === 0));
        const log = new FollowedLog(new Marks('/watch.log', () => {}, null));
        const expectSame = async () => {
            const before = log.messages.map(({ id }) => id);
            const read = await reader.read();
            const added = log.take(read);
            const stands = readKept(file.text).entries.map(({ log: said }) => said);
            assert.deepEqual(log.messages.map(({ log: said }) => said), stands);
            assert.equal(new Set(log.messages.map(({ id }) => id)).size, log.messages.length);
            const kept = log.messages.slice(0, before.length).map(({ id }) => id);
            if (!read.isAnew) assert.deepEqual(kept, before, 'no entry twice');
            assert.equal(added.length, log.messages.length - (read.isAnew ? 0 : before.length));
            return read;
        };
        await expectSame();
        for (let step = 0; step < 12; step++) {
            const kind = below(10);
            if (kind < 6) {
                for (const _ of putting(file, logged[below(logged.length)])) {
                    if (chance() < 0.3) await expectSame();
                    if (chance() < 0.02) break; // the watch is killed
                }
                const { entries } = readKept(file.text);
                file.text = keptOf(entries.map(({ log: said }) => said)); // its next start
            } else if (kind === 6) file.text = keptOf(some()); // replaced
            else if (kind === 7) file.text = file.text.slice(0, below(file.text.length)); // cut
            else if (kind === 8) file.text = ''; // made anew
            const read = await expectSame();
            if (kind === 9) assert.equal(read.isAnew, false);
        }
    }
}

/** Of a file of a megabyte what is new alone is asked for, and one that is replaced begins anew. */
async function triesRanges() {
    const many = Array.from({ length: 3000 }, (_, at) => entryOf(`MESSAGE ${at}\n`, { moment: 1735692000 + at }));
    const file = { text: keptOf(many), asked: 0, sent: 0 };
    const reader = new LogReader('http://x/watch.log', serverOf(file, true));
    assert.equal((await reader.read()).added.length, 3000);
    file.sent = 0;
    file.text = keptOf([...many, entryOf('ONE MORE\n')]);
    assert.deepEqual((await reader.read()).added.map(({ text }) => text), ['ONE MORE\n']);
    assert.ok(file.sent < 9000, `${file.sent} bytes were sent`);
    const damaged = `${file.text.slice(0, -1)}\nnotes of somebody\n`;
    file.text = damaged;
    assert.deepEqual((({ damaged: line, isUnsure }) => [line, isUnsure])(await reader.read()), [null, true]);
    const read = await reader.read();
    assert.equal(read.damaged, lineOf(damaged, readKept(damaged).broken), 'lines are counted from the beginning');
    file.text = keptOf([...many.slice(0, -1), entryOf('ANOTHER 2999\n'), entryOf('ONE MORE\n')]);
    assert.equal((await reader.read()).isAnew, true);
    file.text = keptOf(many.slice(0, 5));
    const cut = await reader.read();
    assert.deepEqual([cut.isAnew, cut.added.length], [true, 5]);
    file.text = `${keptOf(many.slice(0, 4))}${many[4]} `; // the gate before the last one is closed again
    const closed = await reader.read();
    assert.deepEqual([closed.isAnew, closed.added.length], [true, 4]);
}

/** What ends within an entry may still be written: it is told as damaged where it stays so. */
async function triesEarly() {
    const text = keptOf(['[EA01 2025-01-01 00:40:00 full 0/5]\nTEST\n\n']);
    const file = { text: text.slice(0, 30), asked: 0, sent: 0 };
    const reader = new LogReader('http://x/watch.log', serverOf(file, true));
    assert.equal((await reader.read()).damaged, null);
    assert.equal((await reader.read()).damaged, 2);
    file.text = text;
    const { damaged, added } = await reader.read();
    assert.deepEqual([damaged, added.length], [null, 1]);
}

/** A server that gives the length of one moment and the bytes of a later one damages no log: the watch was killed,
 *  and the next one cut what it left, and put a longer entry in its place. */
async function triesTwoMoments() {
    const [one, two] = [entryOf('ONE\n'), entryOf('THIS IS LONGER\n', { identity: 'EA02' })];
    const torn = `${keptOf([one])}${two.slice(0, 20)}`;
    const file = { text: torn, asked: 0, sent: 0 };
    const reader = new LogReader('http://x/watch.log', serverOf(file, false));
    const told = async () => (({ damaged, isUnsure, added }) => [damaged, isUnsure, added.length])(await reader.read());
    assert.deepEqual(await told(), [null, false, 1]);
    file.text = keptOf([one, two]).slice(0, torn.length);
    assert.deepEqual(await told(), [null, true, 0]);
    file.text = keptOf([one, two]);
    assert.deepEqual(await told(), [null, false, 1]);
}

/** What servers answer beside a log. */
async function triesServers() {
    const answer = (given) => new LogReader('http://x/l', given).read();
    const missing = async () => new Response('', { status: 404, statusText: 'Not Found' });
    await assert.rejects(answer(missing), /answers 404 Not Found/);
    await assert.rejects(answer(async () => { throw new TypeError('x'); }), /doesn't answer/);
    const { now, changed, damaged } = await answer(async () => new Response('<html>', { headers: {
        Date: 'Wed, 01 Jan 2025 00:50:00 GMT', 'Last-Modified': 'Wed, 01 Jan 2025 00:40:00 GMT' } }));
    assert.deepEqual([now, changed], [1735692600, 1735692000]);
    assert.equal(damaged, null, 'it may be a first byte and the beginning of an entry');
    const file = { text: keptOf(some().concat(logged.slice(0, 3))), asked: 0, sent: 0 };
    let isOdd = false; // from here on ranges of other bytes
    const odd = new LogReader('http://x/l', async (address, given) => {
        const usual = await serverOf(file, true)(address, given);
        if (!isOdd || usual.status !== 206) return usual;
        return new Response('x', { status: 206, headers: { 'Content-Range': 'bytes 0-0/1' } });
    });
    const { added } = await odd.read();
    isOdd = true;
    file.text = keptOf([...added.map(({ log }) => log), entryOf('LAST\n')]);
    assert.deepEqual((await odd.read()).added.map(({ text }) => text), ['LAST\n'], 'then it takes all of it');
}

function triesNames() {
    assert.equal(followedIn('http://x/navtex.html?log=watch.log'), 'watch.log');
    assert.equal(followedIn('http://x/navtex.html?log='), null);
    assert.equal(followedIn('http://x/navtex.html'), null);
    assert.equal(addressOf('watch.log', 'http://x/a/navtex.html?log=watch.log'), 'http://x/a/watch.log');
    assert.throws(() => addressOf('http://y/watch.log', 'http://x/navtex.html'), /is on another server/);
    assert.throws(() => addressOf('javascript:alert(1)', 'http://x/navtex.html'), /is on another server/);
    assert.throws(() => addressOf('http://[', 'http://x/navtex.html'), /is no name of a log/);
    assert.throws(() => addressOf('watch.log', 'file:///navtex.html?log=watch.log'), /opened from a disk/);
    assert.deepEqual([30, 60, 7199, 7200, 172800].map(spanSaid),
        ['less than a minute', '1 minute', '119 minutes', '2 hours', '2 days']);
}

/** Marks stay over a reload and a log that is shortened; of equal entries each has its own. */
function triesMarks() {
    const kept = new Map();
    const store = { getItem: (key) => kept.get(key) ?? null, setItem: (key, value) => kept.set(key, value) };
    const entries = [entryOf('ONE\n'), entryOf('TWO\n'), entryOf('TWO\n')].map((log) => entryAt(log));
    const opened = (added) => {
        const log = new FollowedLog(new Marks('/l', () => {}, store));
        log.take({ added, isAnew: false });
        return log;
    };
    const first = opened(entries);
    first.markRead([first.messages[0], first.messages[2]]);
    assert.deepEqual(opened(entries).messages.map(({ isRead }) => isRead), [true, false, true]);
    assert.deepEqual(opened(entries.slice(0, 1)).messages.map(({ isRead }) => isRead), [true]);
    const other = new FollowedLog(new Marks('/other', () => {}, store));
    other.take({ added: entries, isAnew: false });
    assert.ok(other.messages.every(({ isRead }) => !isRead));
    kept.set('navtex.read /l', '{"odd":1}');
    assert.ok(opened(entries).messages.every(({ isRead }) => !isRead));
    kept.set('navtex.read /l', '{');
    assert.equal(opened(entries).messages.length, 3);
}

/** Who opens an old log hears no alarm of last year; an entry of a clock far ahead silences none. */
function triesAlarming() {
    const log = new FollowedLog(new Marks('/l', () => {}, null));
    const moments = [...Array.from({ length: 250 }, (_, at) => 1735692000 + at), 32503679999];
    log.take({ isAnew: false, added: moments.map((moment) => entryAt(entryOf('TEST\n', { moment }))) });
    assert.deepEqual(log.alarming.map(({ moment }) => moment), moments.slice(-200));
}

/** Of the entries of a message the best is shown. */
function triesCopies() {
    let id = 0;
    const copy = (text, given = {}) => ({ ...entryAt(entryOf(text, given)), id: ++id, isRead: false });
    const told = (...entries) => new Messages(entries).all
        .map(({ best, others }) => [best, ...others].map(({ text }) => text.trim()));
    const later = { moment: 1735692000 + 14400 };
    assert.deepEqual(told(copy('A*\n'), copy('AB\n', later)), [['AB', 'A*']]);
    assert.deepEqual(told(copy('AB\n'), copy('A*\n', later)), [['AB', 'A*']]);
    assert.deepEqual(told(copy('A\n', { how: 'cut' }), copy('A**\n', later)), [['A**', 'A']], 'full before fewer errors');
    assert.deepEqual(told(copy('A**\n'), copy('A\n', { ...later, how: 'cut' })), [['A**', 'A']]);
    assert.deepEqual(told(copy('A\n', { how: 'long' }), copy('A*\n', { ...later, how: 'cut' })), [['A', 'A*']]);
    assert.deepEqual(told(copy('AB\n'), copy('CD\n', later)), [['CD', 'AB']], 'then the later one');
    assert.deepEqual(told(copy('1*\n'), copy('2**\n', later), copy('3***\n', later)),
        [['1*', '3***', '2**']]);
    assert.deepEqual(told(copy('A\n'), copy('B\n', { channel: 1 })), [['A'], ['B']]);
    assert.deepEqual(told(copy('A\n'), copy('B\n', { identity: 'EA02' })), [['A'], ['B']]);
    assert.deepEqual(told(copy('A\n', { identity: 'EA00' }), copy('A\n', { identity: 'EA00' })), [['A'], ['A']]);
    const span = (seconds) => told(copy('A*\n'), copy('A\n', { moment: 1735692000 + seconds })).length;
    assert.deepEqual([span(237599), span(237600), span(-237599), span(-237600)], [1, 2, 1, 2]);
    assert.deepEqual(told(copy('A*\n'), copy('X\n', { identity: 'EA02' }), copy('A\n', later)), [['X'], ['A', 'A*']],
        'a message stands where its last copy came');
    const messages = new Messages([copy('A*\n'), copy('X\n', { identity: 'EA02' })]);
    const [changed] = messages.add([copy('A\n', later)]);
    assert.equal(changed, messages.all[1]);
    assert.equal(changed.isRead, false);
    for (const one of changed.copies) one.isRead = true;
    assert.equal(changed.isRead, true);
}

/** A message says whose place its best copy took, and what is new of it. */
function triesBetter() {
    const copy = (text, given = {}) => ({ ...entryAt(entryOf(text, given)), isRead: false });
    const [worst, worse, whole] = [copy('A***\n', { how: 'cut' }), copy('A***\n'), copy('ABCD\n')];
    const replaced = (...entries) => new Messages(entries).all[0].replaced;
    assert.equal(replaced(worst), null);
    assert.equal(replaced(worst, worse), worst);
    assert.equal(replaced(worst, worse, whole), worse, 'the best of those before it');
    assert.equal(replaced(worse, worst, whole), worse);
    assert.equal(replaced(whole, worst, worse), null, 'what comes behind it takes no place');
    assert.equal(replaced(whole, copy('ABCD\n')), null, 'nor does what is as good');
    const title = 'EA01: station E, A navigational warning, number 01.';
    const messages = new Messages([worst]);
    const news = (...added) => messages.add(added).map((message) => newsOf(message, added, {}));
    assert.deepEqual(news(worse), [`A better copy. ${title}`]);
    assert.deepEqual(news(copy('A***\n', { how: 'cut' })), [`Another copy. ${title}`]);
    assert.deepEqual(news(copy('A*\n', { channel: 1 }), whole, copy('AB\n', { channel: 1 })),
        [`A better copy. ${title}`, `New message. ${title}`]);
}

/** 220 texts with their places beside them, which web/trial/places.py wrote or somebody by hand. */
function triesPositions() {
    const kept = readFileSync(new URL('places.jsonl', import.meta.url), 'utf8');
    const made = spawnSync('python3', [new URL('places.py', import.meta.url).pathname], { encoding: 'utf8' });
    assert.equal(made.stdout, kept);
    const lines = kept.trim().split('\n');
    assert.ok(lines.length >= 200);
    const degrees = ([letter, ...digits], minutes) =>
        ('SW'.includes(letter) ? -1 : 1) * (Number(digits.join('')) + Number(minutes) / 60);
    for (const { text, places } of lines.map((line) => JSON.parse(line))) {
        const wanted = places.map((place) => place.split(' '))
            .map(([north, minutes, east, others]) => [degrees(north, minutes), degrees(east, others)]);
        const found = positionsIn(text).map(({ latitude, longitude }) => [latitude, longitude]);
        assert.equal(found.length, wanted.length, `${JSON.stringify(text)}: ${found}`);
        wanted.forEach((place, at) => place.forEach((part, side) =>
            assert.ok(Math.abs(part - found[at][side]) < 1e-9, `${JSON.stringify(text)}: ${found}`)));
    }
    for (const { at, end } of positionsIn('POSN 54-10.5N\n007-53.2E.')) assert.deepEqual([at, end], [5, 23]);
    assert.deepEqual(positionOf(' 54-10.5n 007-53.2e '),
        { at: 0, end: 18, latitude: 54 + 10.5 / 60, longitude: 7 + 53.2 / 60 });
    for (const text of ['', '54', '54-10.5N 007-53.2E.', 'AT 54-10.5N 007-53.2E']) assert.equal(positionOf(text), null, text);
    for (const text of ['54-10.5N 007-53.2E', '00-00.1S 179-59.9W', '90-00.0S 180-00.0E', '00-00.0N 000-00.0E']) {
        assert.equal(positionSaid(positionOf(text)), text);
    }
    assert.equal(positionSaid({ latitude: 53.99999, longitude: -7.99999 }), '54-00.0N 008-00.0W');
    assert.equal(shipOf({ latitude: 91, longitude: 0, moment: 0 }), null);
    assert.equal(shipOf({ latitude: '1', longitude: 0, moment: 0 }), null);
    assert.equal(shipOf([]), null);
    assert.deepEqual(shipOf({ latitude: 1, longitude: 2, moment: 3, x: 4 }), { latitude: 1, longitude: 2, moment: 3 });
}

/** Ways that were worked out by the cosine rule, which the page doesn't use. */
function triesWays() {
    const ways = [
        [54, 8, 55, 8, 60, 0], [0, 0, 0, 1, 60, 90], [54.175, 7 + 53.2 / 60, 53.5, 8.2, 41.992, 164.555],
        [50, -5, 40, -70, 2731.959, 283.382], [-33.87, 151.21, -36.85, 174.76, 1163.099, 105.577], [10, 179.5, 10, -179.5, 59.088, 89.913],
        [60, -170, 55, 165, 853.687, 260.488], [-1, 0.5, 1, 0.5, 120, 0],
    ];
    for (const [latitude, longitude, north, east, miles, bearing] of ways) {
        const way = wayTo({ latitude, longitude }, { latitude: north, longitude: east });
        assert.ok(Math.abs(way.miles - miles) < 0.01, `${way.miles} for ${miles}`);
        assert.ok(Math.abs(((way.bearing - bearing + 540) % 360) - 180) < 0.01, `${way.bearing} for ${bearing}`);
    }
    assert.equal(waySaid({ miles: 12.34, bearing: 4.6 }), '12.3 miles, 005°');
    assert.equal(waySaid({ miles: 99.96, bearing: 359.7 }), '100 miles, 000°');
    assert.equal(waySaid({ miles: 0.01, bearing: 12 }), '0.0 miles');
}

/** A chart has all of its points in it, over the edge of longitudes too. */
function triesChart() {
    for (let run = 0; run < 500; run++) {
        const [middle, reach] = [below(360) - 180, below(90) + 0.1];
        const points = Array.from({ length: 1 + below(6) }, () => ({
            latitude: (chance() - 0.5) * 2 * Math.min(85, reach),
            longitude: near(middle + (chance() - 0.5) * reach, 0),
        }));
        const frame = frameOf(points, sizeIn(below(1200)));
        for (const { latitude, longitude } of points) {
            const [x, y] = [frame.across(longitude), frame.down(latitude)];
            const isWithin = x > 26 && x < frame.width - 26 && y > 26 && y < frame.height - 26;
            assert.ok(isWithin, JSON.stringify([points, x, y]));
        }
    }
    assert.ok(Math.abs(Math.abs(middleOf([179, -179])) - 180) < 1e-9);
    assert.equal(middleOf([10, 20]), 15);
    assert.deepEqual(linesBetween(7.9, 8.3), [7.916666666666667, 8, 8.083333333333334, 8.166666666666666, 8.25]);
    assert.deepEqual(linesBetween(-1.2, 1.4), [-1, -0.5, 0, 0.5, 1]);
    const lines = [[54.5, 2, 'NS'], [-7, 3, 'EW'], [0, 2, 'NS'], [180, 3, 'EW']];
    assert.deepEqual(lines.map((given) => lineSaid(...given)), ["54°30'N", '007°W', '00°', '180°']);
}

triesKept();
await triesFollowing();
await triesRanges();
await triesEarly();
await triesTwoMoments();
await triesServers();
triesNames();
triesMarks();
triesAlarming();
triesCopies();
triesBetter();
triesPositions();
triesWays();
triesChart();
console.log('ci/web: by node: the log that is followed, copies, places');
