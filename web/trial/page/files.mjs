// Tries files: air files, recordings, logs, what is refused, what is kept, and what is told at the end.
import assert from 'node:assert/strict';
import { existsSync, readFileSync, utimesSync, writeFileSync } from 'node:fs';
import { setTimeout as pause } from 'node:timers/promises';
import { NOISY, noisySendings } from '../noisy.mjs';
import { bitsOf, example, path, tonesOf, waveOf } from '../waves.mjs';

async function triesAirFile({ tab }) {
    assert.deepEqual(await tab.hear(path('heard-badly.air')),
        ['heard-badly.air: 1 message heard: 1 new, 0 known, 0 refused.'], 'twice in one sound');
    assert.deepEqual(await tab.titles(), ['New EA01: station E, A navigational warning, number 01']);
    assert.match((await tab.textsOf('#list .facts'))[0], /complete, none of 25 letters lost, from 2 sendings$/,
        'the best copy');
    assert.deepEqual(await tab.textsOf('#list summary'), ['1 other copy of it, 1 not read yet']);
    assert.equal((await tab.textsOf('#list .copies mark.lost')).length, 1);
    assert.match(await tab.textOf('look'), /ZCZC EA01/);
    assert.equal(await tab.textOf('counts'), '1 message, 1 not read yet');
    await tab.value("document.querySelector('.unread button').focus()");
    await tab.press('.unread button');
    assert.equal(await tab.value('document.activeElement.id'), 'messages', 'nothing else is new');
    assert.equal(await tab.textOf('counts'), '1 message, 0 not read yet');
}

async function triesReload({ tab }) {
    await tab.loadAgain();
    assert.equal(await tab.textOf('counts'), '1 message, 0 not read yet');
    assert.deepEqual(await tab.hear(path('ea01.air')), ['ea01.air: 1 message heard: 0 new, 1 known, 0 refused.']);
    assert.match((await tab.faults())[0], /^Lines without effect: 1\. The first is line 1: the time is before/);
    assert.equal((await tab.titles()).length, 1);
    await tab.forgetFaults();
}

async function triesRecording({ tab, room }) {
    const [, first] = example('two-messages.air').split(/^T .*\n/m);
    const samples = tonesOf(bitsOf(first), { centre: 1437 });
    const file = `${room}/two-messages.wav`;
    writeFileSync(file, waveOf([samples]));
    await tab.set('began', '2025-01-05 00:40');
    const before = (await tab.ended()).length;
    await tab.dropFiles('#drop', file);
    await tab.untilEnded(before + 1);
    assert.match((await tab.ended())[0], /^two-messages.wav: 2 messages heard: 2 new, .* The demodulator heard NAVTEX/);
    const shown = await tab.titles();
    assert.equal(shown.length, 3);
    assert.match(shown[0], /EB02: station E, B meteorological warning, number 02$/);
    assert.match((await tab.textsOf('#list time'))[0], /^2025-01-05 00:40:\d\d UTC$/);
    assert.equal(await tab.value("document.getElementById('began').value"), '', 'it is said of one recording');
    await tab.set('began', '2025-01-04 00:40');
    assert.match((await tab.hear(file))[0], /2 messages heard: 0 new, 2 known/);
    assert.match((await tab.faults())[0], /^The time of this sound had no effect: the time is before the one in force/);
    await tab.forgetFaults();
}

/** Hears samples as a recording that began at a time: the line of its end. */
async function hearSamples({ tab, room }, name, samples, began) {
    writeFileSync(`${room}/${name}.wav`, waveOf([samples], { rate: 8000 }));
    await tab.set('began', began);
    return (await tab.hear(`${room}/${name}.wav`))[0];
}

const FIRST = '#list > li:first-child article >'; // in the first message of the list

/** Two recordings of one message, each without another letter: what they are put together to takes the place of
 *  the first, says so, and is New again. So it is over a reload, and then none of it comes anew. */
async function triesTwoRecordings(given) {
    const { tab } = given;
    const [first, second] = example('two-halves.air').split(/(?=^T )/m)
        .map((air) => tonesOf(bitsOf(air), { rate: 8000 }));
    assert.match(await hearSamples(given, 'first', first, '2025-01-09 00:40'),
        /^first.wav: 1 message heard: 1 new, 0 known, 0 refused; 1 of the new not whole\./);
    assert.deepEqual(await tab.textsOf(`${FIRST} pre`), ['*BCDEFGHIJKLMNOPQRSTUVWX']);
    await tab.press('#list > li:first-child .head button');
    assert.match((await tab.titles())[0], /^EA01/);
    assert.match(await hearSamples(given, 'second', second, '2025-01-09 04:40'),
        /^second.wav: 1 message heard: 1 new, 0 known, 0 refused\./);
    for (const isLoaded of [false, true]) {
        if (isLoaded) await tab.loadAgain();
        assert.match((await tab.titles())[0], /^New EA01/);
        assert.deepEqual(await tab.textsOf(`${FIRST} pre`), ['ABCDEFGHIJKLMNOPQRSTUVWX']);
        assert.match((await tab.textsOf(`${FIRST} .facts`))[0],
            /^2025-01-09 04:40:\d\d UTC, 518 kHz, complete, none of 25 letters lost, from 2 sendings$/);
        assert.deepEqual(await tab.textsOf(`${FIRST} .replaced`),
            ['Better than the copy before it (complete, 1 of 25 letters lost).']);
        assert.match((await tab.textsOf('#list > li:first-child .copies .facts'))[0], /complete, 1 of 25 letters lost$/);
    }
    assert.match(await hearSamples(given, 'third', second, '2025-01-09 08:40'), /1 message heard: 0 new, 1 known, 0 refused/);
    await tab.forgetFaults();
}

/** Two recordings with noise, of which each has holes. */
async function triesNoise(given) {
    const { tab } = given;
    const lines = [];
    for (const [at, samples] of noisySendings().entries()) {
        lines.push(await hearSamples(given, `noisy-${at}`, samples, `2025-01-13 0${4 * at}:40`));
    }
    assert.match(lines[0], /: 1 message heard: 1 new, 0 known, 0 refused; 1 of the new not whole\./);
    assert.match(lines[1], /: 1 message heard: 1 new, 0 known, 0 refused\./);
    assert.equal((await tab.textsOf(`${FIRST} pre`))[0], NOISY.text.trim());
    assert.match((await tab.textsOf(`${FIRST} .facts`))[0], /complete, none of 68 letters lost, from 2 sendings$/);
    await tab.forgetFaults();
}

/** A recording ends when its file was changed last, or just now where that is chosen. */
async function triesEnds({ tab, room }) {
    const bits = bitsOf(example('slip.air'));
    const samples = tonesOf(bits, { rate: 8000 });
    const file = `${room}/changed.wav`;
    writeFileSync(file, waveOf([samples], { rate: 8000 }));
    const end = Date.UTC(2025, 1, 3, 4, 5, 6) / 1000;
    utimesSync(file, end, end);
    await tab.hear(file);
    const [time] = await tab.textsOf('#list time');
    const moment = Date.parse(time.replace(' UTC', 'Z').replace(' ', 'T')) / 1000;
    assert.ok(moment > end - samples.length / 8000 && moment < end, time);
    await tab.forgetFaults();
}

/** Sides, numbers of samples, and ways in which samples are written. */
async function triesWaves({ tab, room }) {
    const other = tonesOf(bitsOf(example('cut.air')), { rate: 11025, centre: 2000 });
    const wanted = tonesOf(bitsOf(example('refused.air')), { rate: 11025, centre: 2000 });
    writeFileSync(`${room}/sides.wav`, waveOf([other, wanted], { rate: 11025, bits: 24 }));
    await tab.set('side', 'right');
    await tab.hear(`${room}/sides.wav`);
    await tab.set('side', 'both');
    assert.match((await tab.titles())[0], /EL06/);
}

async function triesRefusal({ tab }) {
    const labels = "[...document.querySelectorAll('#stations label')]";
    const box = `${labels}.find((one) => one.textContent === ' E').firstChild`;
    const count = (await tab.titles()).length;
    await tab.value(`${box}.click()`);
    assert.match(await tab.textOf('refused'), /^Refused on 518 kHz:station E Lift$/);
    assert.match((await tab.hear(path('number-00.air')))[0], /: 3 messages heard: 0 new, 0 known, 3 refused\.$/);
    await tab.loadAgain();
    assert.equal(await tab.value(`${box}.checked`), true);
    await tab.press('#refused button');
    assert.equal(await tab.value(`${box}.checked`), false);
    assert.equal(await tab.value("document.getElementById('refused').hidden"), true);
    assert.match((await tab.hear(path('number-00.air')))[0], /: 3 messages heard: 3 new/);
    await tab.forgetFaults();
    assert.equal((await tab.titles()).length, count + 3);
    assert.equal(await tab.value("document.querySelectorAll('#subjects input:disabled').length"), 4);
}

/** Commands in a file hold for that file alone. */
async function triesCommands({ tab, room }) {
    writeFileSync(`${room}/commands.air`, `RS Q\nRJ C\n${example('refused.air')}`);
    await tab.hear(`${room}/commands.air`);
    await tab.forgetFaults();
    assert.equal(await tab.value("document.getElementById('refused').hidden"), true);
    await tab.loadAgain();
    assert.equal(await tab.value("document.querySelectorAll('#subjects input:checked').length"), 0);
}

/** Files of Windows: a mark at the beginning, and lines that end by CR LF. */
async function triesWindowsFiles({ tab, room }) {
    const dressed = (text) => Buffer.from('\xef\xbb\xbf' + text.replaceAll('\n', '\r\n'), 'latin1');
    writeFileSync(`${room}/windows.air`, dressed(example('two-channels.air')));
    const [line] = await tab.hear(`${room}/windows.air`);
    assert.doesNotMatch(line, /: no message/);
    await tab.forgetFaults();
    writeFileSync(`${room}/windows.log`, dressed(example('ea01.log')));
    assert.deepEqual(await tab.hear(`${room}/windows.log`), ['windows.log: a log of 1 message, 1 new here.']);
}

async function triesFaults({ tab, room }) {
    writeFileSync(`${room}/note.txt`, 'Buoy 7 is unlit\n');
    writeFileSync(`${room}/noise.bin`, Buffer.from(Array.from({ length: 5000 }, (_, at) => (at * at) % 251)));
    writeFileSync(`${room}/empty.wav`, '');
    const expect = async (words, ...files) => {
        await tab.forgetFaults();
        const [line] = await tab.hear(...files);
        assert.match(line, /: not heard\.$/);
        assert.match((await tab.faults())[0], words);
    };
    await expect(/neither an air file nor a log/, `${room}/note.txt`);
    await expect(/no sound that the browser can decode/, `${room}/noise.bin`);
    await expect(/empty.wav is empty/, `${room}/empty.wav`);
    await tab.forgetFaults();
    await tab.set('began', 'yesterday');
    await tab.giveFiles('#file', path('ea01.air'));
    await tab.until("document.querySelector('#faults .fault')");
    assert.match((await tab.faults())[0], /has to be a time of UTC/);
    await tab.set('began', '');
    await tab.forgetFaults();
    await tab.giveFiles('#load-log', `${room}/note.txt`);
    await tab.until("document.querySelector('#faults .fault')");
    assert.match((await tab.faults())[0], /has no message/);
    await tab.forgetFaults();
}

/** The text of a file that the page offers where a button is pressed. */
async function saved(tab, room, button, name) {
    await tab.press(button);
    for (let tried = 0; tried < 100 && !existsSync(`${room}/${name}`); tried++) await pause(100);
    return readFileSync(`${room}/${name}`, 'latin1');
}

/** The log as a file, and what another page that takes it remembers. */
async function triesLogs({ browser, tab, room }) {
    await browser.downloadsTo(room);
    const count = (await tab.titles()).length;
    const log = await saved(tab, room, '#save-log', 'navtex.log');
    for (const entry of example('heard-badly.log').split(/(?=\[)/)) assert.ok(log.includes(entry), entry);
    const lines = (await saved(tab, room, '#save-json', 'navtex.json')).split('\n').slice(0, -1).map(JSON.parse);
    const others = await tab.textsOf('#list .copies > div');
    assert.ok(others.length > 0);
    assert.equal(lines.length, count + others.length, 'each copy of each message');
    assert.ok(lines.some(({ text }) => text === 'ABCDEFGHIJKLMNOPQRSTUVWX\n'));
    tab.agrees = false;
    await tab.press('#anew');
    assert.match(tab.asked.at(-1), /^Forget all messages/);
    assert.equal((await tab.titles()).length, count);
    tab.agrees = true;
    await tab.press('#anew');
    await tab.until("document.querySelectorAll('#list li').length === 0");
    await tab.giveFiles('#load-log', `${room}/navtex.log`);
    await tab.until(`document.querySelectorAll('#list li').length === ${count}`);
    assert.match((await tab.hear(path('ea01.air')))[0], /: 1 message heard: 0 new, 1 known/);
    await tab.forgetFaults();
    await tab.loadAgain();
    assert.equal((await tab.titles()).length, count);
}

async function triesNoRequests({ tab, address }) {
    assert.deepEqual(tab.requests.filter((asked) => asked !== address), []);
}

const all = [triesAirFile, triesReload, triesRecording, triesTwoRecordings, triesNoise, triesEnds, triesWaves, triesRefusal,
    triesCommands, triesWindowsFiles, triesFaults];

/** What a Firefox gives no trial: files that are saved, and what the network was asked for. */
export const trials = (kind) => (kind === 'chromium' ? [...all, triesLogs, triesNoRequests] : all);
