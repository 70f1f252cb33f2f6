// Tries the page that follows the log of a watch: by http.server of Python, and by a server that gives ranges.
// The log grows, is cut, replaced and damaged, and the watch and the server are killed. Then places and copies.
import assert from 'node:assert/strict';
import { copyFileSync, existsSync, mkdirSync, readFileSync, rmSync, truncateSync, utimesSync,
    writeFileSync } from 'node:fs';
import { createServer } from 'node:http';
import { setTimeout as pause } from 'node:timers/promises';
import { entryOf, keptOf, put, writeKept } from '../kept.mjs';
import { folderOf, freePort, hasNginx, hasService, host, nginxServer, plainServer, serviceServer }
    from '../servers.mjs';
import { example } from '../waves.mjs';
import { expectNarrow } from './looks.mjs';

const SOON = 20000; // milliseconds in which the page has read the log again, on a busy machine

/** The page needs no receiver here, so it isn't opened from the disk first. */
export const isOpened = false;

const port = await freePort(); // of http.server, which comes back where it was

/** A server that gives the part of a file that is asked for; `sent` has how many bytes of each log it sent. */
async function rangeServer(folder) {
    const sent = [];
    const server = createServer(({ url, headers }, answer) => {
        const file = `${folder}${new URL(url, 'http://x').pathname}`;
        if (!existsSync(file)) {
            answer.writeHead(404).end();
            return;
        }
        const bytes = readFileSync(file);
        const from = Number(/^bytes=(\d+)-$/.exec(headers.range ?? '')?.[1] ?? 0);
        if (from > 0 && from >= bytes.length) {
            answer.writeHead(416).end();
            return;
        }
        if (file.endsWith('.log')) sent.push(bytes.length - from);
        answer.writeHead(from > 0 ? 206 : 200, {
            'Content-Type': file.endsWith('.html') ? 'text/html' : 'application/octet-stream',
            ...(from > 0 ? { 'Content-Range': `bytes ${from}-${bytes.length - 1}/${bytes.length}` } : {}),
        }).end(bytes.subarray(from));
    });
    await new Promise((resolve) => server.listen(0, '0.0.0.0', resolve));
    const stop = async () => {
        server.close();
        server.closeAllConnections();
    };
    return { address: `http://${host}:${server.address().port}`, sent, stop };
}

const at = (hour, given = {}) => ({ moment: Date.UTC(2025, 0, 1, hour) / 1000, ...given });
const FIRST = entryOf('GALE WARNING\n', at(0, { identity: 'EB01' }));
const SECOND = entryOf('BUOY ADRIFT\n', at(4, { identity: 'EA02' }));
const THIRD = entryOf('FORECAST\n', at(8, { identity: 'EE03' }));

/** The identities that the list shows, with New before those that are. */
async function shown(tab) {
    return (await tab.titles()).map((title) => title.split(':')[0]);
}

async function untilShown(tab, ...titles) {
    const shownTitles = "[...document.querySelectorAll('#list h3')].map((one) => one.textContent.split(':')[0])";
    await tab.until(`JSON.stringify(${shownTitles}) === ${JSON.stringify(JSON.stringify(titles))}`, SOON);
}

const open = (tab, server) => tab.openPage(`${server.address}/navtex.html?log=watch.log`);
const again = (tab) => tab.value("document.dispatchEvent(new Event('visibilitychange'))"); // it reads at once

/** What the log stands for is shown, each entry once, while it grows, tears, is cut, replaced and damaged. */
async function triesLog(browser, server, folder) {
    const log = `${folder}/watch.log`;
    rmSync(log, { force: true });
    const tab = await browser.tab();
    await open(tab, server);
    assert.match(await tab.textOf('failing'),
        /^watch.log can't be read since .* UTC. The server answers 404 .*It is tried again.$/);
    writeKept(log, []);
    await tab.until("document.getElementById('last-heard').textContent === 'The log has no message yet.'", SOON);
    put(log, FIRST);
    await untilShown(tab, 'New EB01');
    assert.equal(await tab.textOf('last-heard'), 'Last heard: EB01 at 2025-01-01 00:00:00 UTC.');
    put(log, SECOND, { part: 30, isKilled: true });
    await again(tab);
    await pause(1000);
    assert.deepEqual(await shown(tab), ['New EB01'], 'an entry that is being put is not shown');
    assert.equal(await tab.value("document.getElementById('damaged').hidden"), true);
    writeKept(log, [FIRST]); // the next watch cuts it
    put(log, SECOND, { isKilled: true });
    await again(tab);
    await pause(1000);
    assert.deepEqual(await shown(tab), ['New EB01'], 'nor one behind a closed gate');
    writeKept(log, [FIRST]);
    put(log, SECOND);
    await untilShown(tab, 'New EA02', 'New EB01');
    await tab.press('.unread button');
    await untilShown(tab, 'EA02', 'New EB01');
    put(log, THIRD);
    await untilShown(tab, 'New EE03', 'EA02', 'New EB01');
    await tab.loadAgain();
    await untilShown(tab, 'New EE03', 'EA02', 'New EB01');
    assert.equal(await tab.textOf('counts'), '3 messages, 2 not read yet');
    truncateSync(log, keptOf([FIRST, SECOND]).length + 10);
    await tab.until("!document.getElementById('damaged').hidden", SOON);
    await untilShown(tab, 'EA02', 'New EB01');
    assert.match(await tab.textOf('damaged'), /^watch.log is damaged at line 10, or is no log of a watch./);
    writeKept(log, [SECOND, THIRD]);
    await untilShown(tab, 'New EE03', 'EA02');
    assert.equal(await tab.value("document.getElementById('damaged').hidden"), true);
    writeFileSync(log, FIRST);
    await untilShown(tab);
    await tab.until("!document.getElementById('damaged').hidden", SOON);
    assert.match(await tab.textOf('damaged'), /is damaged at line 1, or is no log of a watch/);
    writeKept(log, [FIRST, SECOND]);
    await untilShown(tab, 'EA02', 'New EB01');
    await tab.press('#read-all');
    await untilShown(tab, 'EA02', 'EB01');
    assert.deepEqual(await tab.faults(), []);
    assert.deepEqual(tab.errors, []);
    await tab.close();
}

/** Where the server gives ranges, what is new is asked for and little more. */
async function triesRanges({ browser, room }) {
    const folder = folderOf(room, 'ranges');
    const server = await rangeServer(folder);
    try {
        await triesLog(browser, server, folder);
        const many = Array.from({ length: 2000 }, (_, count) => {
            const identity = `E${'ABCDEFGH'[count % 8]}${String((count % 99) + 1).padStart(2, '0')}`;
            return entryOf(`MESSAGE ${count}\n`, { moment: 1735692000 + 100 * count, identity });
        });
        writeKept(`${folder}/watch.log`, many);
        const tab = await browser.tab();
        await open(tab, server);
        server.sent.splice(0);
        put(`${folder}/watch.log`, FIRST);
        await tab.until("document.querySelector('#list h3').textContent.includes('EB01')", SOON);
        assert.ok(server.sent.length > 0 && server.sent.every((count) => count < 9000), `sent ${server.sent}`);
        await tab.close();
    } finally {
        await server.stop();
    }
}

/** http.server; it is killed and comes back. */
async function triesPlain({ browser, room }) {
    const folder = folderOf(room, 'plain');
    let server = await plainServer(folder, port);
    try {
        await triesLog(browser, server, folder);
        const tab = await browser.tab();
        await open(tab, server);
        await untilShown(tab, 'EA02', 'EB01');
        await server.stop();
        const words = "The server doesn't answer. What is shown is from before.";
        await tab.until(`document.getElementById('failing').textContent.includes(${JSON.stringify(words)})`, SOON);
        assert.deepEqual(await shown(tab), ['EA02', 'EB01']);
        put(`${folder}/watch.log`, THIRD);
        server = await plainServer(folder, port);
        await untilShown(tab, 'New EE03', 'EA02', 'EB01');
        assert.match(await tab.textOf('followed'), /^Read at /);
        const asked = new Set(tab.requests.map((one) => one.replace(/^http:\/\/[^/]*/, '')));
        assert.deepEqual([...asked], ['/navtex.html?log=watch.log', '/watch.log'], 'it asks for the log and nothing else');
        await tab.close();
    } finally {
        await server.stop();
    }
}

const isLocal = /^(127|10|169\.254|192\.168|172\.(1[6-9]|2\d|3[01]))\./.test(host);

/** The server of navtex-page.service, with its settings: the page and the log, and nothing else. */
async function triesService({ browser, room }) {
    if (!hasService) {
        console.error('ci/web: left out: the settings of navtex-page.service, since there is no lighttpd');
        return;
    }
    folderOf(room, 'service/navtex');
    const log = `${room}/service/other.log`;
    writeKept(log, [FIRST]);
    copyFileSync(log, `${log}.old`);
    const server = await serviceServer(`${room}/service`, log, port);
    const { address } = server;
    try {
        const answered = async (way, given) => (await fetch(`${address}${way}`, given)).status;
        for (const way of ['/page.conf', '/navtex.log.old', '/navtex.log/', '/x', '/navtex.html/', '/..%2fother.log']) {
            assert.equal(await answered(way), 403, way);
        }
        for (const method of ['PUT', 'DELETE']) assert.equal(await answered('/navtex.log', { method }), 501, method);
        assert.equal((await fetch(`http://${host}:${port}/navtex.log`)).status, isLocal ? 200 : 403);
        assert.equal(await answered('/navtex.log', { headers: { Range: 'bytes=1-' } }), 206);
        const tab = await browser.tab();
        await tab.openPage(`${address}/`);
        await untilShown(tab, 'New EB01');
        put(log, SECOND);
        await untilShown(tab, 'New EA02', 'New EB01');
        assert.deepEqual(tab.errors, []);
        await tab.close();
    } finally {
        await server.stop();
    }
}

/** nginx with the settings of docs/PAGE.md. */
async function triesNginx({ browser, room }) {
    if (!hasNginx) {
        console.error('ci/web: left out: the settings of docs/PAGE.md for nginx, which is not here (nginx-light)');
        return;
    }
    const folder = folderOf(room, 'nginx');
    const log = `${folder}/other.log`;
    writeKept(log, [FIRST]);
    const server = await nginxServer(folder, log, port);
    const { address } = server;
    try {
        const answered = async (way, given) => (await fetch(`${address}${way}`, given)).status;
        for (const way of ['/', '/other.log', '/nginx.conf', '/navtex.log/', '/x']) {
            assert.equal(await answered(way), 404, way);
        }
        for (const method of ['PUT', 'DELETE']) assert.equal(await answered('/navtex.log', { method }), 405, method);
        assert.equal(await answered('/navtex.log', { headers: { Range: 'bytes=1-' } }), 206);
        const tab = await browser.tab();
        await tab.openPage(`${address}/navtex.html?log=navtex.log`);
        await untilShown(tab, 'New EB01');
        put(log, SECOND);
        await untilShown(tab, 'New EA02', 'New EB01');
        writeKept(log, [SECOND, THIRD]);
        await untilShown(tab, 'New EE03', 'New EA02');
        assert.deepEqual(tab.errors, []);
        await tab.close();
    } finally {
        await server.stop();
    }
}

/** A log that doesn't grow is told, by the time of its file. */
async function triesSilence({ browser, room }) {
    const folder = folderOf(room, 'plain');
    const server = await plainServer(folder, port);
    try {
        writeKept(`${folder}/watch.log`, [FIRST]);
        const tab = await browser.tab();
        await open(tab, server);
        assert.equal(await tab.value("document.getElementById('silent').hidden"), true, 'its file is new');
        const old = Date.now() / 1000 - 13 * 3600;
        utimesSync(`${folder}/watch.log`, old, old);
        await tab.until("!document.getElementById('silent').hidden", SOON);
        assert.match(await tab.textOf('silent'), /^The log has not grown for 13 hours. Look whether the watch runs/);
        await tab.set('silence', '24');
        assert.equal(await tab.value("document.getElementById('silent').hidden"), true);
        await tab.loadAgain();
        assert.equal(await tab.value("document.getElementById('silence').value"), '24', 'it is kept');
        await tab.set('silence', '12');
        assert.equal(await tab.value("document.getElementById('silent').hidden"), false);
        put(`${folder}/watch.log`, SECOND);
        await tab.until("document.getElementById('silent').hidden", SOON);
        await tab.close();
    } finally {
        await server.stop();
    }
}

/** What a browser gives only by https is hidden with its reason; by file:// the page says what it can't. */
async function triesWhatIsGiven({ browser, room, address }) {
    const folder = folderOf(room, 'plain');
    const server = await plainServer(folder, port);
    const isSeen = (tab, selector) =>
        tab.value(`[...document.querySelectorAll('${selector}')].every((one) => !one.hidden)`);
    try {
        const tab = await browser.tab();
        await open(tab, server);
        assert.equal(await tab.value('isSecureContext'), host === '127.0.0.1');
        assert.equal(await isSeen(tab, '.by-http'), host !== '127.0.0.1');
        assert.equal(await tab.value("document.getElementById('ask-place').hidden"), host !== '127.0.0.1');
        assert.equal(await tab.value("document.getElementById('listen').offsetParent"), null, 'it hears nothing');
        for (const id of ['anew', 'microphone', 'file']) {
            assert.equal(await tab.value(`document.getElementById('${id}').offsetParent`), null, id);
        }
        await tab.open(`http://localhost:${port}/navtex.html?log=watch.log`);
        await tab.ready();
        assert.equal(await tab.value("document.getElementById('ask-place').hidden"), false);
        assert.equal(await isSeen(tab, '.by-https'), true);
        await tab.open(`${server.address}/navtex.html?log=http://localhost:1/watch.log`);
        await tab.ready();
        assert.match(await tab.textOf('failing'),
            /is on another server. The page follows a log of its own server alone/);
        await tab.openPage(`${server.address}/navtex.html`); // a receiver by plain http
        assert.equal(await tab.value("document.getElementById('microphone').hidden"), host !== '127.0.0.1');
        assert.equal(await isSeen(tab, '#listen .by-http'), host !== '127.0.0.1');
        await tab.open(`${address}?log=watch.log`);
        await tab.ready();
        assert.match(await tab.textOf('failing'),
            /^This page was opened from a disk, and there a browser lets no page read a file/);
        assert.deepEqual(tab.errors, []);
        await tab.close();
    } finally {
        await server.stop();
    }
}

const PLACES = [
    entryOf('BUOY TG 5 ADRIFT IN 54-00.3N 007-22.8E\n', at(0, { identity: 'EA10' })),
    entryOf('GALE WARNING GERMAN BIGHT\n', at(1, { identity: 'EB11' })),
    entryOf('SAR. YACHT MISSING. LAST SEEN 55-1*.0N 006-40.0E\n', at(2, { identity: 'ED12', how: 'cut' })),
    entryOf('PLATFORMS 57-11.7N 001-54.8E\n56-43.6N 002-12.7E\n53-28.3N 002-24*6E\n', at(3, { identity: 'GL13' })),
    entryOf('SAR. YACHT MISSING. LAST SEEN 55-12.0N 006-40.0E\n', at(6, { identity: 'ED12' })),
    entryOf('SAR. YACHT MISSING. LAST SE** 55-12.0N 006-40.0E\n', at(10, { identity: 'ED12' })),
];

/** Places are marked and drawn, and the way to each is told; copies stand behind the best one. */
async function triesPlaces({ browser, room, pictures }) {
    const folder = folderOf(room, 'plain');
    const server = await plainServer(folder, port);
    try {
        writeKept(`${folder}/watch.log`, PLACES);
        const tab = await browser.tab();
        await tab.open(`http://localhost:${port}/navtex.html?log=watch.log`);
        await tab.ready();
        await untilShown(tab, 'New ED12', 'New GL13', 'New EB11', 'New EA10');
        assert.deepEqual(await tab.textsOf('#list mark.place'), ['55-12.0N 006-40.0E', '55-12.0N 006-40.0E',
            '57-11.7N 001-54.8E', '56-43.6N 002-12.7E', '54-00.3N 007-22.8E']);
        await expectNarrow(tab);
        assert.deepEqual(await tab.textsOf('#list .copies summary'), ['2 other copies of it, 2 not read yet']);
        assert.match((await tab.textsOf('#list .facts'))[0], /06:00:00 UTC, 518 kHz, complete, none of/);
        assert.equal(await tab.value("document.querySelectorAll('#chart .point').length"), 4, 'a place of two copies is one');
        assert.equal(await tab.textOf('places-said'), '4 places of 3 of the 4 messages in the list.');
        assert.equal(await tab.value("document.getElementById('within').disabled"), true);
        await tab.set('ship', '54-10.5 n 007-53.2 e');
        assert.equal(await tab.value("document.getElementById('ship').value"), '54-10.5N 007-53.2E');
        const ways = await tab.textsOf('#list .ways li');
        assert.equal(ways[0], '55-12.0N 006-40.0E: 74.6 miles, 326°');
        assert.equal(ways.at(-1), '54-00.3N 007-22.8E: 20.5 miles, 240°');
        assert.equal(await tab.value("document.querySelectorAll('#chart .ship').length"), 1);
        await tab.set('within', '50');
        await untilShown(tab, 'New EA10');
        assert.equal(await tab.textOf('counts'),
            '4 messages, 4 not read yet, 1 of them chosen. 1 more has no place that is read');
        await tab.set('within', '');
        await tab.set('words', ' 001-54.8e  56-43.6n'); // a line ends between them
        await untilShown(tab, 'New GL13');
        await tab.set('words', '56.43');
        await untilShown(tab);
        await tab.set('words', '');
        await untilShown(tab, 'New ED12', 'New GL13', 'New EB11', 'New EA10');
        await tab.set('ship', '54-10.5N');
        assert.match((await tab.faults())[0], /has to be written as 54-10.5N 007-53.2E/);
        await tab.forgetFaults();
        await tab.loadAgain();
        assert.equal(await tab.value("document.getElementById('ship').value"), '54-10.5N 007-53.2E', 'it is kept');
        await browser.allow('geolocation');
        await tab.call('Emulation.setGeolocationOverride', { latitude: 55, longitude: 5.5, accuracy: 10 });
        await tab.press('#ask-place');
        await tab.until("document.getElementById('ship').value === '55-00.0N 005-30.0E'");
        await tab.press('#ask-place');
        await tab.press('#list .copies summary');
        await tab.value("document.querySelector('#chart .point').dispatchEvent(new Event('click'))");
        assert.ok(await tab.value("document.activeElement.matches('#list .message')"));
        await tab.press('#list .unread button');
        await untilShown(tab, 'ED12', 'New GL13', 'New EB11', 'New EA10');
        assert.equal(await tab.value("document.querySelector('#list .copies').open"), true, 'what was opened stays open');
        assert.equal(await tab.value("document.getElementById('alarm').hidden"), true, 'all copies of it are marked');
        assert.deepEqual(tab.errors, []);
        await keepsPictures(tab, pictures);
        await tab.close();
    } finally {
        await server.stop();
    }
}

/** The log of a watch that takes sendings together: what became better takes the place of the worse copy, says
 *  so, and is New again; its alarm rings again. */
async function triesCombined({ browser, room }) {
    const folder = folderOf(room, 'plain');
    const server = await plainServer(folder, port);
    const inCopies = (tab) => tab.textsOf('#list .copies .facts');
    try {
        const [bad, good] = example('buoy.combined').split(/(?<=\n\n)/);
        writeKept(`${folder}/watch.log`, [bad]);
        const tab = await browser.tab();
        await open(tab, server);
        await untilShown(tab, 'New EA01');
        await tab.press('#rings input[value="A"]');
        assert.deepEqual(await tab.textsOf('#list .replaced, #list .copies, #list mark.place'), []);
        await tab.press('.unread button');
        await untilShown(tab, 'EA01');
        assert.equal(await tab.value("document.getElementById('alarm').hidden"), true);
        put(`${folder}/watch.log`, good);
        await untilShown(tab, 'New EA01');
        assert.deepEqual(await tab.textsOf('#list article > pre'), ['BUOY 51-24.3N 002-11.0E UNLIT']);
        assert.deepEqual(await tab.textsOf('#list article > .facts'),
            ['2025-01-01 04:40:00 UTC, 518 kHz, complete, none of 30 letters lost']);
        assert.deepEqual(await tab.textsOf('#list .replaced'),
            ['Better than the copy before it (complete, 1 of 31 letters lost).']);
        assert.equal(await tab.textOf('news'), 'A better copy. EA01: station E, A navigational warning, number 01.');
        assert.deepEqual(await tab.textsOf('#list .copies summary'), ['1 other copy of it']);
        assert.deepEqual(await inCopies(tab), ['2025-01-01 00:40:00 UTC, 518 kHz, complete, 1 of 31 letters lost']);
        assert.equal(await tab.textOf('counts'), '1 message, 1 not read yet');
        assert.equal(await tab.textOf('alarm-words'), 'Alarm: EA01. It rings until marked as read.');
        assert.deepEqual(await tab.textsOf('#chart .point text'), ['EA01'], 'its place is read now');
        await tab.loadAgain();
        await untilShown(tab, 'New EA01');
        await tab.press('.unread button');
        await untilShown(tab, 'EA01');
        assert.equal((await tab.textsOf('#list .replaced')).length, 1);
        await tab.press('#rings input[value="A"]');
        assert.deepEqual(tab.errors, []);
        await tab.close();
    } finally {
        await server.stop();
    }
}

async function keepsPictures(tab, pictures) {
    if (!pictures) return;
    mkdirSync(pictures, { recursive: true });
    const keep = async (name, ...size) => {
        await tab.value('document.activeElement.blur(); window.scrollTo(0, 0)');
        writeFileSync(`${pictures}/${name}.png`, await tab.picture(...size));
    };
    await keep('follow-day', 1280, 960, false);
    await keep('follow-phone', 390, 844, true);
    await tab.value("document.getElementById('places').scrollIntoView()");
    writeFileSync(`${pictures}/follow-phone-chart.png`, await tab.picture(390, 844, true));
    await tab.press('#night');
    await keep('follow-night', 1280, 960, false);
    await tab.press('#night');
    await tab.call('Emulation.setEmulatedMedia', { features: [{ name: 'prefers-color-scheme', value: 'dark' }] });
    await keep('follow-dark', 1280, 960, false);
}

/** In Firefox what needs no leave of it and no word of its network. */
export const trials = (kind) => (kind === 'chromium'
    ? [triesPlain, triesRanges, triesService, triesNginx, triesSilence, triesWhatIsGiven, triesPlaces, triesCombined]
    : [triesRanges, triesService, triesSilence]);
