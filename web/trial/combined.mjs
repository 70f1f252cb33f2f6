// Tries what takes several sendings of a message together, by node: the calls of the module, and the sounds of
// the page that are heard one after the other.
// usage: node web/trial/combined.mjs MODULE [PROGRAM]
import assert from 'node:assert/strict';
import { spawnSync } from 'node:child_process';
import { readFileSync, readdirSync } from 'node:fs';
import { fileURLToPath } from 'node:url';
import { Demodulator } from '../demodulator.js';
import { AirRun } from '../receiver/air.js';
import { isBetter } from '../receiver/copies.js';
import { identityOf, isGood } from '../receiver/entries.js';
import { Receiver } from '../receiver/receiver.js';
import { chanceOf } from './chance.mjs';
import { NOISY, noisySendings, RATE } from './noisy.mjs';
import { FAMILIES, joined, keptOver as over, printed, storeOf } from './over.mjs';

const EXAMPLES = new URL('../../examples/', import.meta.url);
const PIECES = [Infinity, 100, 7, 1];
const WORD = 7; // elements
const BROKEN = 1400; // elements of a sending that breaks off
const MARKER = 1750; // elements of one that breaks off within the second sending of NNNN
const MANY = 300; // sounds behind each other
const FILES = 300; // by chance

const [, , modulePath, program] = process.argv;
const module = readFileSync(modulePath);
const example = (name) => readFileSync(new URL(name, EXAMPLES), 'latin1');
const keptOver = (store = storeOf()) => over(module, store);
const namesOf = (end) => readdirSync(EXAMPLES).filter((name) => name.endsWith(end)).map((name) => name.slice(0, -end.length));

/** The sendings of an example, each an air file with a moment. */
const sendingsOf = (name) => example(name).split(/(?=^T )/m);

/** The elements of an air file, as digits. */
const bitsOf = (air) => [...air.matchAll(/^B ([01]+)$/gm)].map(([, digits]) => digits).join('');

/** An air file of a moment and of elements. */
const airOf = (moment, bits) => `T ${moment}\n${bits.match(/.{1,512}/g).map((digits) => `B ${digits}\n`).join('')}`;

/** Elements of which some words, by their places, arrive as none. */
function without(bits, ...words) {
    return words.reduce((left, word) =>
        `${left.slice(0, word * WORD)}${'0'.repeat(WORD)}${left.slice((word + 1) * WORD)}`, bits);
}

/** Elements whose sendings both lack a letter: the one that this word and the one five words on have. */
const lacking = (bits, word) => without(bits, word, word + 5);

const WHOLE = bitsOf(sendingsOf('buoy.air')[1]); // BUOY 51-24.3N 002-11.0E UNLIT, as sent
const [M0, M1, M2] = [1735692000, 1735706400, 1735720800];
const TEXT = 'BUOY 51-24.3N 002-11.0E UNLIT\n';

/** What is printed of an air file, its elements given in pieces: each entry, with its sendings. */
function entriesOf(receiver, air, piece) {
    receiver.open(0);
    const run = new AirRun(receiver);
    const lines = air.split('\n').slice(0, -1).flatMap((line) => {
        const [word, digits] = line.split(' ');
        if (!/^B[012]?$/.test(word) || digits.length <= piece) return [line];
        return digits.match(new RegExp(`.{1,${piece}}`, 'g')).map((some) => `${word} ${some}`);
    });
    return [...lines.flatMap((line) => run.take(line)), ...receiver.close()];
}

async function triesExamples() {
    const receiver = await Receiver.load(module, FAMILIES);
    assert.equal(receiver.families, FAMILIES);
    const names = namesOf('.combined');
    assert.ok(names.length >= 3);
    for (const name of names) {
        for (const piece of PIECES) {
            const entries = entriesOf(receiver, example(`${name}.air`), piece);
            assert.equal(joined(entries), example(`${name}.combined`), `${name}, in pieces of ${piece}`);
            assert.deepEqual(entries.map(({ sendings }) => sendings), [1, 2], name);
        }
    }
}

/** All of examples/, as the program takes them together. */
async function triesProgram() {
    if (!program) return;
    const receiver = await Receiver.load(module, FAMILIES);
    for (const name of namesOf('.log')) {
        const { stdout, status } = spawnSync(program, ['listen', '--combine'],
            { input: example(`${name}.air`), encoding: 'latin1' });
        assert.equal(status, 0, name);
        assert.equal(joined(entriesOf(receiver, example(`${name}.air`), Infinity)), stdout, name);
    }
}

/** Two recordings of one message, of which none is whole: together they are. It is new again, and how many
 *  sendings there were stays over a reload. */
async function triesTwoSounds() {
    const store = storeOf();
    const page = await keptOver(store);
    const [first, second] = sendingsOf('two-halves.air');
    const [bad, good] = example('two-halves.combined').split(/(?<=\n\n)/);
    assert.deepEqual(await printed(page, first),
        { log: bad, heard: 1, added: 1, known: 0, refused: 0, notWhole: 1 });
    page.kept.markRead(page.kept.messages);
    await printed(page, example('number-00.air').replace(/^T .*\n/gm, '')); // another sound between them
    assert.deepEqual(await printed(page, second),
        { log: good, heard: 1, added: 1, known: 0, refused: 0, notWhole: 0 });
    const ofBoth = page.kept.messages.at(-1);
    assert.deepEqual([ofBoth.log, ofBoth.sendings, ofBoth.isRead], [good, 2, false]);
    const later = await keptOver(store);
    assert.deepEqual(later.kept.messages.map(({ log, sendings }) => [log, sendings]),
        page.kept.messages.map(({ log, sendings }) => [log, sendings > 1 ? sendings : undefined]));
    assert.deepEqual(await printed(page, airOf(M2, bitsOf(second))),
        { log: '', heard: 1, added: 0, known: 1, refused: 0, notWhole: 0 });
    assert.deepEqual([...page.told.faults, ...later.told.faults], []);
}

/** What the page's demodulator makes of samples, as an air file that begins at a moment. */
function airOfSound(samples, begin) {
    const demodulator = new Demodulator({ rate: RATE, search: true });
    const told = [...demodulator.push(samples), ...demodulator.finish()];
    return told.map(({ moment, bits }) => `${airOf(begin + Math.floor(moment), bits)}`).join('');
}

/** Two recordings with noise, of which each has holes: together they are whole. */
async function triesNoise() {
    const page = await keptOver();
    const [first, second] = noisySendings().map((samples, at) => airOfSound(samples, [M0, M1][at]));
    const alone = await over(module, storeOf(), 0);
    await printed(alone, first);
    await printed(alone, second);
    assert.ok(alone.kept.messages.every(({ errors }) => errors > 2), joined(alone.kept.messages));
    await printed(page, first);
    await printed(page, second);
    const { text, how, errors, sendings } = page.kept.messages.at(-1);
    assert.deepEqual([text, how, errors, sendings], [NOISY.text, 'full', 0, 2]);
}

/** One sound has both: the message counts once, and is whole. */
async function triesOneSound() {
    const page = await keptOver();
    assert.deepEqual(await printed(page, example('two-halves.air')),
        { log: example('two-halves.combined'), heard: 1, added: 1, known: 0, refused: 0, notWhole: 0 });
}

/** What a sound breaks off is printed as it is without families, and the next sending is joined to it. */
async function triesCut() {
    const page = await keptOver();
    const alone = await over(module, storeOf(), 0);
    const broken = airOf(M0, WHOLE.slice(0, BROKEN));
    const cut = await printed(page, broken);
    assert.match(cut.log, /^\[EA01 2025-01-01 00:40:00 cut \d+\/\d+\]\nBUOY 51/);
    assert.equal(cut.log, (await printed(alone, broken)).log);
    const again = await printed(page, airOf(M1, lacking(WHOLE, 174)));
    assert.equal(again.log, `[EA01 2025-01-01 04:40:00 full 0/${TEXT.length}]\n${TEXT}\n`);
    assert.equal(page.kept.messages.at(-1).sendings, 2);
    assert.match((await printed(alone, airOf(M1, lacking(WHOLE, 174)))).log, / full 1\//);
    const other = await keptOver();
    await printed(other, airOf(M0, lacking(WHOLE, 174)));
    const whole = await printed(other, airOf(M1, WHOLE.slice(0, BROKEN)));
    assert.equal(whole.log, `[EA01 2025-01-01 04:40:00 full 0/${TEXT.length}]\n${TEXT}\n`, 'the end of the sound joins too');
    assert.equal(other.kept.messages.at(-1).sendings, 2);
}

/** A sound that ends within the second sending of the marker: closing the receiver knows no end, a pause does. */
async function triesEnding() {
    for (const families of [0, FAMILIES]) {
        const page = await over(module, storeOf(), families);
        assert.deepEqual(await printed(page, airOf(M0, WHOLE.slice(0, MARKER))), {
            log: `[EA01 2025-01-01 00:40:00 full 0/${TEXT.length}]\n${TEXT}\n`,
            heard: 1, added: 1, known: 0, refused: 0, notWhole: 0 });
    }
}

/** Three sendings, of which each lacks another letter and one that all lack but the last. */
async function triesThree() {
    const page = await keptOver();
    const errors = [];
    for (const [moment, words] of [[M0, [174, 176]], [M1, [174, 192]], [M2, [192]]]) {
        const bits = words.reduce(lacking, WHOLE);
        await printed(page, airOf(moment, bits));
        const { errors: lost, sendings } = page.kept.messages.at(-1);
        errors.push([lost, sendings]);
    }
    assert.deepEqual(errors, [[2, 1], [1, 2], [0, 3]]);
}

/** Commands of a sound hold for that sound alone, also where the receiver goes on with the next one. */
async function triesCommands() {
    const page = await keptOver();
    page.kept.choose('Station', 0, 'Q', true);
    const [first, second] = sendingsOf('two-halves.air');
    await printed(page, `${first}RS E\nAS Q\nRJ C\n`);
    assert.deepEqual(page.kept.refusedHere[0], { stations: ['Q'], subjects: [] });
    assert.match((await printed(page, second)).log, / full 0\//);
    assert.deepEqual(page.kept.refused[0], { stations: ['Q'], subjects: [] });
}

/** Air files by chance, each with its log as an independent reader has it. */
function byChance() {
    const script = `import json, random, sys
sys.path.insert(0, sys.argv[1])
from combined_air import random_air
from combined_reader import run_of
chance = random.Random(24)
for _ in range(${FILES}):
    air = random_air(chance)
    run = run_of(air)
    if run.fault is None:
        print(json.dumps([air.decode("latin1"), run.combined.decode("latin1")]))`;
    const { stdout, status } = spawnSync('python3', ['-c', script, fileURLToPath(new URL('../../ci', import.meta.url))],
        { encoding: 'latin1', maxBuffer: 1e9 });
    assert.equal(status, 0);
    return stdout.trim().split('\n').map((line) => JSON.parse(line));
}

/** An air file cut into sounds at some of its lines, each with its moment. */
function soundsOf(air, chance) {
    const sounds = [];
    let moment = 0;
    for (const line of air.split('\n').slice(0, -1)) {
        if (sounds.length === 0 || chance() < 0.2) sounds.push({ moment, air: '' });
        if (line.startsWith('T ')) moment = Number(line.slice(2));
        sounds.at(-1).air += `${line}\n`;
    }
    return sounds;
}

/** Whether what one page has of a message makes up for an entry that another one has. */
const makesUpFor = (entry) => (other) => other.channel === entry.channel && identityOf(other) === identityOf(entry)
    && Math.abs(other.moment - entry.moment) < 237600 && (isGood(other) || !isBetter(entry, other));

/** As one sound each file gives the log that it should. As several no message is lost or worse than it would be
 *  without families. */
async function triesChance() {
    const receiver = await Receiver.load(module, FAMILIES);
    const chance = chanceOf(24);
    let better = 0;
    for (const [air, log] of byChance()) {
        assert.equal(joined(entriesOf(receiver, air, Infinity)), log);
        const [page, alone] = [await keptOver(), await over(module, storeOf(), 0)];
        for (const { moment, air: sound } of soundsOf(air, chance)) {
            for (const one of [page, alone]) await printed(one, sound, moment);
        }
        const added = page.told.added;
        for (const entry of alone.told.added) {
            assert.ok(added.some(makesUpFor(entry)), `${entry.log}is lost:\n${joined(added)}${air}`);
        }
        better += added.filter(({ sendings }) => sendings > 1).length;
        assert.deepEqual(page.told.faults, []);
    }
    assert.ok(better > FILES / 10, `only ${better} entries are put together`);
}

/** A moment that goes back has no effect where a message has a hole that may be filled. Where each is whole, or
 *  where none is taken together, the time of what is remembered is in force. */
async function triesBack() {
    const sounds = [airOf(M1, [174, 176].reduce(lacking, WHOLE)), airOf(M0, lacking(WHOLE, 178))];
    for (const [families, withoutEffect, time] of [[FAMILIES, 1, '04:40:00 full 0'], [0, 0, '00:40:00 full 1']]) {
        const page = await over(module, storeOf(), families);
        await printed(page, sounds[0], M1);
        const run = page.kept.begin(M0);
        for (const line of sounds[1].split('\n').slice(0, -1)) page.kept.take(line);
        await page.kept.endOfSound(M2);
        assert.equal(run.withoutEffect, withoutEffect);
        assert.ok(page.told.added.at(-1).log.startsWith(`[EA01 2025-01-01 ${time}/`), page.told.added.at(-1).log);
    }
}

/** How often memory is taken while something is done. */
async function countGrowing(action) {
    const { grow } = WebAssembly.Memory.prototype;
    let count = 0;
    WebAssembly.Memory.prototype.grow = function (...given) {
        count += 1;
        return grow.apply(this, given);
    };
    try {
        await action();
    } finally {
        WebAssembly.Memory.prototype.grow = grow;
    }
    return count;
}

/** All sounds use the room that was taken as the page was opened. */
async function triesManySounds() {
    const page = await keptOver();
    const taken = await countGrowing(async () => {
        for (let sound = 0; sound < MANY; sound++) {
            const air = airOf(M0 + 100000 * sound, lacking(WHOLE, 174 + 2 * (sound % 5)));
            await printed(page, sound % 3 === 0 ? air : air.slice(0, -400));
        }
    });
    assert.equal(taken, 0);
    assert.ok(page.told.added.length >= MANY / 3);
    assert.deepEqual(page.told.faults, []);
}

/** Where there is no memory for families each copy is judged alone. */
async function triesSmallMemory() {
    const { grow } = WebAssembly.Memory.prototype;
    WebAssembly.Memory.prototype.grow = function (pages) {
        if (pages > 2) throw new RangeError('no memory');
        return grow.call(this, pages);
    };
    const page = await keptOver();
    WebAssembly.Memory.prototype.grow = grow;
    assert.equal((await printed(page, example('two-halves.air'))).log, example('two-halves.log'));
    const receiver = await Receiver.load(module);
    assert.equal(receiver.families, 0);
}

await triesExamples();
await triesProgram();
await triesTwoSounds();
await triesOneSound();
await triesNoise();
await triesCut();
await triesEnding();
await triesThree();
await triesCommands();
await triesBack();
await triesChance();
await triesManySounds();
await triesSmallMemory();
console.log('ci/web: by node: several sendings together');
