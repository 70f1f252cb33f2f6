// Tries what the scripts of web/ make of the module of the receiver, and those that need no browser.
// usage: node web/trial/module.mjs MODULE [PROGRAM]
import assert from 'node:assert/strict';
import { spawnSync } from 'node:child_process';
import { readFileSync, readdirSync } from 'node:fs';
import { kindOf, linesOf, logOf } from '../hear/files.js';
import { Look } from '../hear/look.js';
import { Ring } from '../worker/ring.js';
import { flacOf } from '../hear/flac.js';
import { m4aOf } from '../hear/m4a.js';
import { frameAt, framesIn, mp3PiecesOf } from '../hear/mp3.js';
import { oggOf } from '../hear/ogg.js';
import { layoutOf, samplesOf } from '../hear/wave.js';
import { choicesOf, USUAL_TUNING } from '../keep/choices.js';
import { StoreFault } from '../keep/store.js';
import { AirRun, LineSplitter, readLine } from '../receiver/air.js';
import { entryAt, isGood, jsonOf, momentOf, readLog } from '../receiver/entries.js';
import { COMBINING_CHANNEL, FAMILY, MAX_ENTRY, Receiver, ReceiverFault, ROOM, Status } from '../receiver/receiver.js';
import { EMPTY_STATE, readState, refusedIn, stateAt, stateRefusing, stateWith, writeState } from '../receiver/state.js';
import { joined, keptOver as over, NOW, printed, storeOf } from './over.mjs';
import { flacFile, M4A, m4aTimes, OGGS, oggTimes } from './packed.mjs';
import { headOf, waveOf } from './waves.mjs';

const EXAMPLES = new URL('../../examples/', import.meta.url);
const PIECES = [Infinity, 1, 7, 4096];
const FAR = 32503680000; // later than every moment

const [, , modulePath, program] = process.argv;
const module = readFileSync(modulePath);
const example = (name) => readFileSync(new URL(name, EXAMPLES), 'latin1');
const keptOver = (store) => over(module, store);
const names = readdirSync(EXAMPLES).filter((name) => name.endsWith('.log')).map((name) => name.slice(0, -4));

/** The lines of an air file, those of elements that follow each other on a channel joined to one. */
function joinedLines(air) {
    const said = air.split('\n').slice(0, -1).map(readLine);
    assert.ok(said.every((line) => line !== null));
    const joined = [];
    for (const line of said) {
        const last = joined.at(-1);
        if (line.kind === 'elements' && last?.kind === 'elements' && last.channel === line.channel) {
            last.elements = Uint8Array.from([...last.elements, ...line.elements]);
        } else {
            joined.push(line);
        }
    }
    return joined;
}

/** The log of an air file by a receiver that is open, its elements given in pieces. */
function logInPieces(receiver, air, piece) {
    const entries = [];
    for (const line of joinedLines(air)) {
        if (line.kind === 'moment') receiver.setMoment(line.moment);
        else if (line.kind === 'choice') receiver[line.call](line.channel, line.letter);
        else {
            const size = Math.min(piece, line.elements.length);
            for (let at = 0; at < line.elements.length; at += size) {
                entries.push(...receiver.hear(line.channel, line.elements.subarray(at, at + size)));
            }
        }
    }
    return entries;
}

async function triesExamples() {
    const receiver = await Receiver.load(module);
    for (const name of names) {
        for (const piece of PIECES) {
            receiver.open(0);
            const log = joined([...logInPieces(receiver, example(`${name}.air`), piece), ...receiver.close()]);
            assert.equal(log, example(`${name}.log`), `${name}, in pieces of ${piece}`);
        }
    }
}

/** As the page does it: the text of the file in pieces, line by line. */
async function triesTextInPieces() {
    const receiver = await Receiver.load(module);
    for (const name of names) {
        for (const piece of PIECES) {
            receiver.open(0);
            const [run, splitter] = [new AirRun(receiver), new LineSplitter()];
            const air = example(`${name}.air`);
            const entries = [];
            for (let at = 0; at < air.length; at += Math.min(piece, air.length)) {
                for (const line of splitter.push(air.slice(at, at + piece))) entries.push(...run.take(line));
            }
            assert.equal(run.withoutEffect, 0);
            const log = joined([...entries, ...receiver.close()]);
            assert.equal(log, example(`${name}.log`), `${name}, its text in pieces of ${piece}`);
        }
    }
}

async function triesWeek() {
    const receiver = await Receiver.load(module);
    for (const piece of PIECES) {
        let state = example('week/0.state');
        for (let day = 1; day <= 7; day++) {
            receiver.openFrom(state);
            const entries = logInPieces(receiver, example(`week/${day}.air`), piece);
            state = receiver.save();
            const log = joined([...entries, ...receiver.close()]);
            assert.equal(log, example(`week/${day}.log`), `week/${day}, in pieces of ${piece}`);
            assert.equal(state, example(`week/${day}.state`), `week/${day}, in pieces of ${piece}`);
        }
    }
}

/** What the page reads and writes itself: states, and what a log remembers. */
function triesStates() {
    assert.equal(writeState(readState(example('week/0.state'))), EMPTY_STATE);
    for (let day = 1; day <= 7; day++) {
        const state = example(`week/${day}.state`);
        assert.equal(writeState(readState(state)), state);
        assert.equal(stateAt(state, FAR), state);
        const { entries } = readLog(example(`week/${day}.log`));
        const remembered = readState(stateWith(example(`week/${day - 1}.state`), entries));
        assert.deepEqual(remembered.map((one) => one.remembered), readState(state).map((one) => one.remembered));
    }
    const refusing = 'STATE 2\nC0\nRS B\nRJ C\nEA01 1735929600\nC1\nC2\nEND\n';
    assert.equal(stateRefusing(refusing, refusedIn(EMPTY_STATE)), refusing.replace('RS B\nRJ C\n', ''));
    const [bad, good] = readLog(example('buoy.combined')).entries;
    for (const [state, entries] of [[EMPTY_STATE, [bad, good]], [stateWith(EMPTY_STATE, [good]), [bad]]]) {
        assert.deepEqual(readState(stateWith(state, entries))[0].remembered, [{ identity: 'EA01', moment: good.moment }],
            'the later one counts');
    }
    const ahead = 'STATE 2\nC0\nEA01 1735929600\nEA02 1735929601\nC1\nC2\nEND\n';
    assert.equal(stateAt(ahead, 1735692001), ahead.replace('EA02 1735929601\n', ''));
}

/** The numbers of receiver.js are those of the header. */
function triesHeader() {
    const header = readFileSync(new URL('../../crates/nx_live/navtex-live.h', import.meta.url), 'utf8');
    assert.match(header, new RegExp(`#define NX_LIVE_KEPT ${ROOM}$`, 'm'));
    assert.match(header, new RegExp(`#define NX_LIVE_MAX_ENTRY ${MAX_ENTRY}$`, 'm'));
    assert.match(header, new RegExp(`#define NX_LIVE_COMBINING_CHANNEL ${COMBINING_CHANNEL}$`, 'm'));
    assert.match(header, new RegExp(`#define NX_LIVE_FAMILY ${FAMILY}$`, 'm'));
    for (const [name, number] of Object.entries(Status)) {
        assert.match(header, new RegExp(`\\bNX_LIVE_${name} = ${number}\\b`));
    }
}

async function triesFaults() {
    const receiver = await Receiver.load(module);
    const faultOf = (call) => {
        try {
            call();
        } catch (fault) {
            assert.ok(fault instanceof ReceiverFault);
            return fault.status;
        }
        return Status.DONE;
    };
    assert.equal(faultOf(() => receiver.setMoment(1)), Status.CLOSED);
    assert.equal(faultOf(() => receiver.openFrom('STATE 2\n')), Status.STATE_CUT);
    assert.equal(faultOf(() => receiver.openFrom('Buoy\n')), Status.STATE_LINE);
    receiver.open(1735692000);
    assert.equal(faultOf(() => receiver.open(1735692000)), Status.ALREADY_OPEN);
    assert.equal(faultOf(() => receiver.setMoment(1735691999)), Status.MOMENT_BACK);
    assert.equal(faultOf(() => receiver.setMoment(FAR)), Status.MOMENT_RANGE);
    assert.equal(faultOf(() => receiver.refuseSubject(0, 'L')), Status.VITAL);
    assert.equal(faultOf(() => receiver.refuseStation(0, 'a')), Status.NO_STATION);
    assert.equal(faultOf(() => receiver.hear(3, new Uint8Array(1))), Status.NO_CHANNEL);
    assert.equal(faultOf(() => receiver.hear(0, Uint8Array.of(2))), Status.NO_ELEMENT);
    receiver.abandon();
}

/** What is kept goes on in another receiver: nothing is printed again, and a log is taken up. */
async function triesKeeping() {
    const store = storeOf();
    const first = await keptOver(store);
    first.kept.choose('Station', 1, 'B', true);
    assert.deepEqual(await printed(first, example('ea01.air')),
        { log: example('ea01.log'), heard: 1, added: 1, known: 0, refused: 0, notWhole: 0 });
    const later = await keptOver(store);
    assert.equal(later.kept.messages.length, 1);
    assert.deepEqual(later.kept.refused[1].stations, ['B']);
    assert.deepEqual(await printed(later, example('ea01.air')),
        { log: '', heard: 1, added: 0, known: 1, refused: 0, notWhole: 0 });
    const badly = await keptOver(storeOf());
    assert.equal((await printed(badly, example('heard-badly.air'))).log, example('heard-badly.log'));
    assert.equal((await printed(badly, example('ea01.air'))).log, '',
        'a moment that goes back leaves the one in force');
    const other = await keptOver(storeOf());
    const load = (text) => other.kept.load(text, NOW, async () => {});
    assert.deepEqual(await load(` \n${example("ea01.log")} `), { found: 1, added: 1, stray: null });
    assert.deepEqual(await load(`x\n${example("ea01.log")}`), { found: 1, added: 0, stray: 1 });
    assert.equal((await printed(other, example('ea01.air'))).log, '');
    await other.kept.beginAnew(NOW);
    assert.equal((await printed(other, example('cut.air'))).log, example('cut.log'));
    assert.deepEqual([first, later, badly, other].flatMap(({ told }) => told.faults), []);
}

/** Commands in a file hold for that file alone, in the store too; and what they refuse is counted. */
async function triesCommands() {
    const store = storeOf();
    const one = await keptOver(store);
    const { log, ...counts } = await printed(one, example('refused.air'));
    assert.equal(log, example('refused.log'));
    assert.deepEqual(counts, { heard: 2, added: 1, known: 0, refused: 1, notWhole: 0 });
    assert.deepEqual(one.kept.refused, refusedIn(EMPTY_STATE));
    assert.doesNotMatch(store.state, /^R[SJ]/m);
}

/** A store whose values are odd, or that is full, ends nothing. */
async function triesOddStores() {
    const entry = { id: 1, text: example('ea01.log'), isRead: true };
    const damaged = storeOf('STATE 2\nC0\n', [entry]);
    const mended = await keptOver(damaged);
    assert.match(mended.told.faults[0], /put aside/);
    assert.equal((await printed(mended, example('ea01.air'))).log, '', 'the messages tell what is remembered');
    assert.equal(damaged.aside, 'STATE 2\nC0\n');
    for (const state of [7, null, {}, 'Buoy 7']) {
        const odd = await keptOver(storeOf(state, [entry]));
        assert.equal((await printed(odd, example('ea01.air'))).log, '');
    }
    const strange = await keptOver(storeOf(EMPTY_STATE, [entry, { id: 2, text: 'Buoy' }, { id: 3 },
        { id: 'x', text: example('ea01.log') }, { id: 5, text: 5, isRead: [] }]));
    assert.match(strange.told.faults[0], /^The browser's store has 4 entries that are no messages/);
    assert.equal(strange.kept.messages.length, 1);
    await printed(strange, example('cut.air'));
    const ids = strange.kept.messages.map(({ id }) => id);
    assert.deepEqual(ids, [1, 6, 7], 'an odd entry is never written over');
    const full = storeOf();
    full.keep = async () => { throw new StoreFault('full'); };
    const still = await keptOver(full);
    assert.equal((await printed(still, example('ea01.air'))).log, example('ea01.log'));
    assert.deepEqual(new Set(still.told.faults), new Set(['full']));
    const forgetting = storeOf(EMPTY_STATE, [entry]);
    forgetting.gone = [1];
    const fewer = await keptOver(forgetting);
    await printed(fewer, example('cut.air'));
    assert.deepEqual(fewer.kept.messages.map(({ id }) => id), [2, 3]);
    assert.match(fewer.told.faults[0], /is full: the 1 oldest messages went/);
}

/** Choices that may be anything. */
function triesChoices() {
    const usual = choicesOf(null);
    assert.deepEqual(usual, { view: [], tunings: Array(3).fill({ ...USUAL_TUNING }), rings: ['D', '00'],
        notifies: false, names: {}, ends: 'changed', silence: 12, ship: null });
    for (const odd of [7, 'x', [], { view: 7, tunings: { centre: 'x' }, rings: 'D', names: [1], notifies: 'yes' },
        { tunings: [{ centre: 1e9, search: 'no' }, null, 5], names: { e: 'x', E: 7, F: ' ' } },
        { silence: 7, ship: { latitude: 54, longitude: 181, moment: 0 } }, { silence: '4', ship: [] }]) {
        assert.deepEqual(choicesOf(odd), usual);
    }
    const chosen = { ...usual, view: ['night'], names: { E: 'Niton' }, silence: 0,
        ship: { latitude: 54.5, longitude: -7, moment: 1735692000 } };
    assert.deepEqual(choicesOf(JSON.parse(JSON.stringify(chosen))), chosen);
}

/** A file, as the browser gives one. */
function fileOf(bytes, name = 'x') {
    const file = new Blob([bytes]);
    file.name = name;
    return file;
}

/** Files of Windows: a mark at the beginning, and lines ended by CR LF. */
async function triesFiles() {
    const dressed = (text) => Buffer.from('\xef\xbb\xbf' + text.replaceAll('\n', '\r\n'), 'latin1');
    const air = fileOf(dressed(example('two-messages.air')));
    assert.equal(await kindOf(air), 'air');
    const lines = [];
    for await (const [some] of linesOf(air)) lines.push(...some);
    assert.equal(lines.join('\n'), example('two-messages.air').trimEnd());
    const log = fileOf(dressed(example('two-messages.log')));
    assert.equal(await kindOf(log), 'log');
    assert.equal(await logOf(log), example('two-messages.log'));
    assert.equal(await kindOf(fileOf(example('ea01.log'))), 'log');
    assert.equal(await kindOf(fileOf(waveOf([[0, 1]]))), 'sound');
    await assert.rejects(kindOf(fileOf('Buoy 7 is unlit\n', 'note.txt')), /note.txt is a text, but neither/);
    await assert.rejects(kindOf(fileOf('', 'none.wav')), /none.wav is empty/);
}

/** WAV files of each kind give their samples, in slices too. */
async function triesWaves() {
    const left = [0, 0.5, -0.5, 0.25, -1, 0.75];
    const right = left.map((sample) => -sample / 2);
    const near = (found, wanted, step) => {
        assert.equal(found.length, wanted.length);
        found.forEach((sample, at) => assert.ok(Math.abs(sample - wanted[at]) <= step, `${sample} for ${wanted[at]}`));
    };
    for (const [bits, step] of [[8, 0.01], [16, 1e-4], [24, 1e-6], [32, 0]]) {
        const file = fileOf(waveOf([left, right], { bits, rate: 11025 }));
        const layout = await layoutOf(file);
        assert.equal(layout.rate, 11025);
        const slice = await file.slice(layout.begin + layout.width, layout.end).arrayBuffer();
        near(samplesOf(slice, layout, 'left'), left.slice(1), step);
        near(samplesOf(slice, layout, 'right'), right.slice(1), step);
        near(samplesOf(slice, layout, 'both'), left.slice(1).map((sample) => sample / 4), step);
    }
    for (const length of [0, 0xffffffff, 1e9]) {
        const head = headOf({ length: 0 });
        head.writeUInt32LE(length, 40);
        const { begin, end } = await layoutOf(fileOf(Buffer.concat([head, Buffer.alloc(7)])));
        assert.deepEqual([begin, end], [44, 50], `a length of ${length}`);
    }
    const packed = headOf({ tag: 17, bits: 4, length: 8 });
    assert.equal(await layoutOf(fileOf(packed)), null);
    assert.equal(await layoutOf(fileOf('RIFF')), null);
    assert.equal(await layoutOf(fileOf(Buffer.alloc(100))), null);
}

/** Heads of MP3 frames: 128 kbit a second of 44100 have 417 bytes, and one more where they are padded. */
function triesMp3() {
    const headed = (...head) => frameAt(Uint8Array.from(head), 0);
    assert.deepEqual(headed(0xff, 0xfb, 0x90, 0x64), { length: 417, samples: 1152, rate: 44100, sides: 2 });
    assert.equal(headed(0xff, 0xfb, 0x92, 0xc4).length, 418);
    assert.equal(headed(0xff, 0xfb, 0x92, 0xc4).sides, 1);
    for (const head of [[0xff, 0xfb, 0x00, 0], [0xff, 0xfb, 0xf0, 0], [0xff, 0xfd, 0x90, 0], [0xff, 0xeb, 0x90, 0], [0xff, 0xfb, 0x9c, 0],
        [0xff, 0xfb, 0x90]]) {
        assert.equal(headed(...head), null);
    }
    const file = readFileSync(new URL('slip.mp3', import.meta.url)); // 16 kbit a second of 16000, so 72 bytes a frame
    const frames = [...framesIn(file, 16000)];
    assert.equal(frames.length, file.length / 72);
    assert.ok(frames.every(({ at, length, samples }, number) => at === 72 * number && length === 72 && samples === 576));
    assert.equal([...framesIn(file.subarray(0, -1), 16000)].length, frames.length - 1);
    assert.equal([...framesIn(Buffer.concat([Buffer.alloc(99), file]), 16000)].length, frames.length);
}

/** Pieces follow each other, and are as long as they should be; each begins before what is wanted of it. */
function expectPieces({ pieces }, size, warm, total) {
    let first = 0;
    for (const { from, to, base, count } of pieces) {
        assert.ok(from < to && base <= first && (first === 0 || base <= first - warm));
        first += count;
    }
    assert.ok(pieces.slice(0, -1).every(({ count }) => count >= size && count < 1.5 * size));
    assert.equal(first, total);
}

/** A tag as it stands before the sound of some files. */
const tagOf = (length) =>
    Buffer.from([...Buffer.from('ID3'), 4, 0, 0, 0, 0, length >> 7, length & 127, ...Buffer.alloc(length, 255)]);

const countsOf = ({ pieces }) => pieces.map(({ count }) => count);

/** A FLAC file is cut where its frames begin: the pieces joined are the file, behind a tag too. What is lost, and
 *  what only looks like a frame, takes no time from what follows. */
async function triesFlac() {
    const samples = Int16Array.from({ length: 100000 }, (_, at) => ((at * at * 7919) % 65536) - 32768);
    const own = 42; // bytes of a head
    for (const sides of [1, 2]) {
        const bytes = flacFile(samples, { rate: 44100, sides });
        const cutOf = (...parts) => flacOf(fileOf(Buffer.concat(parts)), sides * 20000);
        const cut = await cutOf(bytes);
        assert.equal(cut.rate, 44100);
        expectPieces(cut, 20000, 0, samples.length);
        const files = await Promise.all(cut.pieces.map((piece) => cut.fileOf(piece)));
        assert.deepEqual(Buffer.concat(files.map((file) => Buffer.from(file).subarray(own))), bytes.subarray(own));
        assert.deepEqual(countsOf(await cutOf(tagOf(1000), bytes)), countsOf(cut));
        const [, { from, to }] = cut.pieces;
        const others = Buffer.from([0xff, 0xf8, 0x69, 0x08, 0]);
        const hurt = countsOf(await cutOf(bytes.subarray(0, from), others, bytes.subarray(to)));
        assert.equal(hurt.reduce((sum, count) => sum + count), samples.length);
    }
    for (const other of ['fLaC', 'fLaX'.padEnd(99), 'RIFF'.padEnd(99)]) assert.equal(await flacOf(fileOf(other), 1), null);
}

/** An Ogg file is cut at its pages. Where it is one piece, that is the file, with the sums of its own encoder. */
async function triesOgg() {
    for (const [name, { rate, length, step }] of Object.entries(OGGS)) {
        const once = readFileSync(new URL(name, import.meta.url));
        const whole = await oggOf(fileOf(once), Infinity);
        assert.equal(whole.pieces.length, 1);
        assert.deepEqual(Buffer.from(await whole.fileOf(whole.pieces[0])), once, name);
        assert.equal(whole.pieces[0].count, length);
        const cut = await oggOf(fileOf(oggTimes(once, 9, step)), 20 * rate);
        assert.equal(cut.rate, rate);
        expectPieces(cut, 20 * rate, rate / 4, 8 * step + length);
        for (const piece of cut.pieces) {
            const own = await oggOf(fileOf(Buffer.from(await cut.fileOf(piece))), Infinity);
            assert.ok(own.pieces[0].count >= piece.count && own.pieces[0].count < piece.count + 5 * rate);
        }
        const two = once.map((byte, at) => (at === 14 ? byte ^ 1 : byte));
        assert.equal(await oggOf(fileOf(Buffer.concat([once, two])), rate), null, 'two streams');
        assert.equal(await oggOf(fileOf(once.subarray(0, 50)), rate), null);
    }
    assert.equal(await oggOf(fileOf(Buffer.alloc(100)), 1), null);
}

/** An MP3 file is cut at its frames, and a frame without sound is in no piece. */
async function triesMp3Pieces() {
    const once = readFileSync(new URL('slip.mp3', import.meta.url));
    const samples = (once.length / 72) * 576;
    const thrice = fileOf(Buffer.concat([tagOf(1000), once, once, once]));
    expectPieces(await mp3PiecesOf(thrice, 160000), 160000, 8000, 3 * samples);
    const index = Buffer.from(once.subarray(0, 72));
    index.write('Info', 21);
    const [first] = (await mp3PiecesOf(fileOf(Buffer.concat([index, once])), 160000)).pieces;
    assert.equal(first.from, 72);
    assert.equal(await mp3PiecesOf(fileOf(Buffer.alloc(100)), 1), null);
}

/** An M4A file is cut at its frames, wherever its tables stand: what is behind the heads of all frames of all
 *  pieces, each once, is its sound. What the tables don't say is for the browser. */
async function triesM4a() {
    const once = readFileSync(new URL('ea01.m4a', import.meta.url));
    const framesOf = (bytes) => {
        const frames = [];
        for (let at = 0; at < bytes.length;) {
            assert.equal(bytes.readUInt16BE(at), 0xfff1);
            const length = (bytes.readUIntBE(at + 3, 3) >> 5) & 8191;
            frames.push(bytes.subarray(at + 7, at + length));
            at += length;
        }
        return frames;
    };
    for (const isEarly of [false, true]) {
        const bytes = m4aTimes(once, 9, { isEarly });
        const cut = await m4aOf(fileOf(bytes), 160000);
        assert.equal(cut.rate, M4A.rate);
        const files = await Promise.all(cut.pieces.map((piece) => cut.fileOf(piece)));
        const sound = files.flatMap((file, at) => {
            const frames = framesOf(Buffer.from(file));
            const { base, count } = cut.pieces[at];
            return frames.slice(at === 0 ? 0 : -Math.ceil(count / M4A.frame));
        });
        expectPieces(cut, 160000, 2 * M4A.frame, sound.length * M4A.frame - M4A.silent);
        const at = bytes.indexOf('mdat');
        assert.deepEqual(Buffer.concat(sound), bytes.subarray(at + 4, at - 4 + bytes.readUInt32BE(at - 4)));
    }
    const [whole] = (await m4aOf(fileOf(once), Infinity)).pieces;
    assert.ok(Math.abs(whole.count - M4A.length) < M4A.frame);
    const other = (word, change) => {
        const bytes = Buffer.from(once);
        change(bytes, bytes.indexOf(word));
        return m4aOf(fileOf(bytes), 1);
    };
    assert.notEqual(await other('mdat', () => {}), null);
    assert.equal(await other('mp4a', (bytes, at) => bytes.write('alac', at)), null, 'another kind of sound');
    assert.equal(await other('soun', (bytes, at) => bytes.write('vide', at)), null, 'a picture');
    assert.equal(await other('stco', (bytes, at) => bytes.write('free', at)), null, 'no places');
    assert.equal(await other('stsz', (bytes, at) => bytes.writeUInt32BE(9000, at + 16)), null, 'too long a frame');
    assert.equal(await other('moov', (bytes, at) => bytes.writeUInt32BE(0xffffffff, at - 4)), null);
    for (let length = 0; length < once.length; length += 97) await m4aOf(fileOf(once.subarray(0, length)), 1);
    assert.equal(await m4aOf(fileOf(once.subarray(0, -1)), 1), null);
}

function triesRing() {
    const ring = new Ring(5);
    ring.push(Float32Array.of(1, 2, 3));
    assert.deepEqual([...ring.take(2)], [1, 2]);
    ring.push(Float32Array.of(4, 5, 6, 7, 8));
    assert.equal(ring.lost, 1);
    assert.equal(ring.count, 5);
    assert.deepEqual([...ring.take(9)], [3, 4, 5, 6, 7]);
    assert.deepEqual([...ring.take(1)], []);
}

function triesLogs() {
    const all = names.map((name) => example(`${name}.log`)).join('');
    const { entries, stray } = readLog(all);
    assert.equal(stray, null);
    assert.equal(entries.map(({ log }) => log).join(''), all);
    assert.equal(readLog(`x\n${all}[EA01 2025-\n${all}`).entries.length, 2 * entries.length);
    assert.equal(readLog(`\n\n[EA01 2025-\n${all}`).stray, 3);
    assert.equal(momentOf('2025-02-30 00:00:00'), null);
    assert.equal(entryAt(example('heard-badly.log')).errors, 1);
    assert.ok(!isGood(entryAt(example('heard-badly.log'))));
    assert.equal(jsonOf(entryAt(example('ea01.log'))), '{"channel":0,"characters":5,"end":"full","errors":0,"good":true,'
        + '"identity":"EA01","moment":1735692000,"number":1,"station":"E","subject":"A","text":"TEST\\n","time":"2025-01-01T00:40:00Z"}');
    if (!program) return;
    const { stdout, status } = spawnSync(program, ['log', '--json'], { input: all, encoding: 'latin1' });
    assert.equal(status, 0);
    assert.equal(entries.map((entry) => `${jsonOf(entry)}\n`).join(''), stdout);
}

function triesLook() {
    const digits = [...example('half-damaged.air').matchAll(/^B ([01]+)$/gm)].map(([, bits]) => bits).join('');
    assert.equal(new Look().push(digits), '\nZCZC EA01\nTEST\nNNNN\n\n');
}

triesHeader();
triesStates();
triesLogs();
triesLook();
triesChoices();
triesRing();
triesMp3();
await triesMp3Pieces();
await triesFlac();
await triesOgg();
await triesM4a();
await triesFiles();
await triesWaves();
await triesExamples();
await triesTextInPieces();
await triesWeek();
await triesFaults();
await triesKeeping();
await triesCommands();
await triesOddStores();
