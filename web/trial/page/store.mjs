// Tries the store: a reload loses and repeats nothing, many messages cost no more, a full store and one
// of another version are told, and of two windows one receives.
import assert from 'node:assert/strict';
import { readFileSync } from 'node:fs';
import { createServer } from 'node:http';
import { networkInterfaces } from 'node:os';
import { setTimeout as pause } from 'node:timers/promises';
import { example, path } from '../waves.mjs';

const MANY = 20000;
const SLOW = 2000; // milliseconds that a message takes longer at most, with so many behind it

/** Does something with the browser's store, in the page. */
const inStore = (body) => `new Promise((resolve, reject) => {
    const asked = indexedDB.open('navtex');
    asked.onerror = () => reject(asked.error);
    asked.onsuccess = () => {
        const database = asked.result;
        const transaction = database.transaction(['messages', 'receiver'], 'readwrite');
        const [messages, rest] = ['messages', 'receiver'].map((name) => transaction.objectStore(name));
        let answer = null;
        transaction.oncomplete = () => { database.close(); resolve(answer); };
        transaction.onerror = () => reject(transaction.error);
        ${body}
    };
})`;

/** How many messages the store has. */
const COUNT = inStore('messages.count().onsuccess = ({ target }) => { answer = target.result; };');

/** Loads the page again at many moments of a file: in the end each message is there once. */
async function triesReloads({ tab }) {
    const state = inStore("rest.get('state').onsuccess = ({ target }) => { answer = target.result; };");
    for (const wait of [0, 20, 50, 100, 200, 400]) {
        await tab.giveFiles('#file', path('two-messages.air'));
        await pause(wait);
        await tab.loadAgain();
        const shown = await tab.titles();
        const remembered = (await tab.value(state) ?? '').match(/^E[A-Z]\d\d \d+$/gm) ?? [];
        assert.equal(shown.length, new Set(shown).size, `after ${wait} ms: ${shown}`);
        assert.equal(shown.length, remembered.length, `after ${wait} ms: ${shown}, remembered ${remembered}`);
    }
    await tab.hear(path('two-messages.air'));
    await tab.forgetFaults();
    assert.equal((await tab.titles()).length, 2);
}

/** Hears a file: the milliseconds that it took. */
async function timeOf(tab, name) {
    const begun = Date.now();
    await tab.hear(path(name));
    return Date.now() - begun;
}

/** A message costs the same with many behind it, and so does the mark that it was read. */
async function triesMany({ tab }) {
    const usual = await timeOf(tab, 'refused.air');
    await tab.press('#anew');
    await tab.until("document.querySelectorAll('#list li').length === 0");
    await tab.hear(path('two-messages.air'));
    await tab.value(inStore(`
        for (let id = 100; id < ${100 + MANY}; id++) {
            const text = 'MESSAGE ' + id + '\\n';
            const day = new Date(Date.UTC(2024, 0, 1 + 3 * Math.floor(id / 792))).toISOString().slice(0, 10);
            const head = '[' + 'ABCDEFGH'[id % 8] + 'E' + String(id % 99 + 1).padStart(2, '0')
                + ' ' + day + ' 00:00:00 full 0/' + text.length + ']\\n';
            messages.put({ id, text: head + text + '\\n', isRead: true });
        }`));
    const begun = Date.now();
    await tab.loadAgain();
    const loading = Date.now() - begun;
    assert.match(await tab.textOf('counts'), /^20002 messages, /);
    assert.equal(await tab.value("document.querySelectorAll('#list li').length"), 200);
    const took = await timeOf(tab, 'refused.air');
    assert.match(await tab.textOf('counts'), /^20003 messages, /);
    assert.ok(took - usual < SLOW,
        `a message took ${took} ms with ${MANY} behind it, and ${usual} with 2; loading ${loading} ms`);
    await tab.press('.unread button');
    await tab.set('words', 'message 777');
    await tab.until("document.getElementById('counts').textContent.includes(', 11 of them chosen')");
    await tab.set('words', '');
    await tab.until("!document.getElementById('counts').textContent.includes('chosen')");
    await tab.press('#more button');
    assert.equal(await tab.value("document.querySelectorAll('#list li').length"), 400);
    await tab.forgetFaults();
    await tab.press('#anew');
    await tab.until("document.querySelectorAll('#list li').length === 0");
}

/** Where the store is full the oldest go, and it is told; where that doesn't help, the page goes on. */
async function triesFull({ tab }) {
    await tab.hear(path('two-messages.air'));
    await tab.value(`
        window.put = IDBObjectStore.prototype.put;
        window.fails = 1;
        IDBObjectStore.prototype.put = function (...given) {
            if (window.fails-- > 0) throw new DOMException('full', 'QuotaExceededError');
            return window.put.apply(this, given);
        };
        true`);
    await tab.hear(path('refused.air'));
    assert.match((await tab.faults()).join('\n'), /store is full: the 2 oldest messages went/);
    assert.equal((await tab.titles()).length, 1);
    await tab.forgetFaults();
    await tab.value('window.fails = Infinity');
    await tab.hear(path('number-00.air'));
    assert.match((await tab.faults()).join('\n'), /store is full or closed: what comes now is lost with this page/);
    assert.equal((await tab.titles()).length, 3, 'they are shown all the same');
    await tab.value('window.fails = 0');
    await tab.loadAgain();
    assert.equal((await tab.titles()).length, 0);
    await tab.press('#anew');
    await tab.hear(path('refused.air'));
    assert.equal((await tab.titles()).length, 1);
}

/** Odd values in the store never stop the page, and stay there. */
async function triesOddValues({ tab }) {
    await tab.value(inStore(`messages.put({ id: 900, text: 7 });
        messages.put({ id: 901 });
        rest.put('STATE 9', 'state');`));
    await tab.value("localStorage.setItem('navtex.choices', '{\"view\":7,\"tunings\":[{\"centre\":\"x\"}]}')");
    await tab.loadAgain();
    const told = (await tab.faults()).join('\n');
    assert.match(told, /has 2 entries that are no messages/);
    assert.match(told, /What this browser kept of the receiver is put aside/);
    await tab.forgetFaults();
    assert.match((await tab.hear(path('refused.air')))[0], /0 new, 1 known/, 'the messages tell what is remembered');
    assert.equal(await tab.value(COUNT), 3);
    const aside = inStore(`rest.getAllKeys().onsuccess = ({ target }) => {
        const key = target.result.find((one) => one.startsWith('aside'));
        rest.get(key).onsuccess = (got) => { answer = got.target.result; };
    };`);
    assert.equal(await tab.value(aside), 'STATE 9');
    await tab.value("localStorage.setItem('navtex.choices', '{')");
    await tab.loadAgain();
    await tab.forgetFaults();
}

/** One window receives; another looks on, shows what comes, and takes over where the first is closed. */
async function triesTwoWindows({ browser, tab, address }) {
    const other = await browser.tab();
    await other.openPage(address);
    assert.equal(await other.value("document.getElementById('looking').hidden"), false);
    assert.equal(await other.value("document.getElementById('listen').inert"), true);
    const before = (await tab.titles()).length;
    await tab.hear(path('two-messages.air'));
    await tab.forgetFaults();
    const count = (await tab.titles()).length;
    assert.ok(count > before);
    await other.until(`document.querySelectorAll('#list li').length === ${count}`);
    await tab.press('.unread button');
    await other.until("document.querySelectorAll('#list .unread').length === "
        + `${await tab.value("document.querySelectorAll('#list .unread').length")}`);
    await other.press('#take-over');
    await other.until("document.getElementById('looking').hidden");
    await tab.until("!document.getElementById('looking').hidden");
    await tab.giveFiles('#file', path('number-00.air'));
    await tab.until("document.querySelector('#faults .fault')");
    assert.match((await tab.faults())[0], /^Another window of this page receives/);
    await tab.forgetFaults();
    await other.hear(path('number-00.air'));
    await tab.until(`document.querySelectorAll('#list li').length === ${count + 3}`);
    await other.close();
    await tab.until("document.getElementById('looking').hidden");
    assert.match((await tab.hear(path('ea01.air')))[0], /^ea01.air: 1 message heard/);
    await tab.forgetFaults();
}

/** A window that ends and can't say so, as one that crashes, is missed by another one, which receives then. */
async function triesGone({ browser, tab, address }) {
    const other = await browser.tab();
    await other.openPage(address);
    await other.press('#take-over');
    await other.until("document.getElementById('looking').hidden");
    await tab.until("!document.getElementById('looking').hidden");
    await other.value("window.addEventListener('pagehide', (event) => event.stopImmediatePropagation(), true); true");
    await other.close();
    await tab.until("document.getElementById('looking').hidden");
    assert.match((await tab.hear(path('ea01.air')))[0], /^ea01.air: 1 message heard/);
    await tab.forgetFaults();
}

/** A window that was taken over unseen, as one that slept, writes nothing over what another kept. */
async function triesLost({ tab }) {
    await tab.value(inStore("rest.put('another', 'owner');"));
    const count = await tab.value(COUNT);
    await tab.giveFiles('#file', path('number-00.air'));
    await tab.until("!document.getElementById('looking').hidden");
    assert.equal(await tab.value(COUNT), count);
    await tab.press('#take-over');
    await tab.until("document.getElementById('looking').hidden");
    await tab.forgetFaults();
}

/** An address of this computer that a browser doesn't take for its own, so that it gives it less. */
function foreignAddress() {
    const addresses = Object.values(networkInterfaces()).flat();
    return addresses.find(({ internal, family }) => !internal && family === 'IPv4')?.address ?? '127.0.0.1';
}

/** From a web server without https it is the same page, with the same lock. */
async function triesServer({ browser, room }) {
    const server = createServer((_, answer) => {
        answer.setHeader('Content-Type', 'text/html');
        answer.end(readFileSync(`${room}/navtex.html`));
    });
    await new Promise((resolve) => server.listen(0, '0.0.0.0', resolve));
    const host = foreignAddress();
    const address = `http://${host}:${server.address().port}/navtex.html`;
    try {
        const first = await browser.tab();
        await first.openPage(address);
        assert.equal(await first.value('isSecureContext'), host === '127.0.0.1');
        await first.hear(path('refused.air'));
        assert.equal((await first.titles()).length, 1);
        const second = await browser.tab();
        await second.openPage(address);
        assert.equal(await second.value("document.getElementById('looking').hidden"), false);
        await first.close();
        await second.until("document.getElementById('looking').hidden");
        assert.equal((await second.titles()).length, 1);
        await second.close();
    } finally {
        server.close();
        server.closeAllConnections();
    }
}

/** What an older page kept is taken up once. */
async function triesOlder({ tab }) {
    const older = { version: 1, state: 'STATE 2\nC0\nRS Q\nEA01 1735692000\nC1\nC2\nEND\n',
        entries: [{ text: example('ea01.log'), isRead: true }] };
    await emptied(tab);
    await tab.value(`localStorage.setItem('navtex.received', ${JSON.stringify(JSON.stringify(older))})`);
    await tab.loadAgain();
    assert.match((await tab.titles())[0], /^EA01/);
    assert.match(await tab.textOf('refused'), /station Q/);
    await tab.loadAgain();
    assert.equal((await tab.titles()).length, 1);
    await emptied(tab);
    await tab.value("localStorage.setItem('navtex.received', '{\"version\":7}')");
    await tab.loadAgain();
    assert.match((await tab.faults())[0], /messages of another version of this page/);
    assert.equal(await tab.value("localStorage.getItem('navtex.received')"), '{"version":7}');
    await tab.value("localStorage.removeItem('navtex.received')");
    await tab.forgetFaults();
}

/** A store of a newer version is kept and told, and the page goes on without one. */
async function triesNewer({ tab }) {
    await emptied(tab);
    await tab.value(`new Promise((resolve) => {
        const asked = indexedDB.open('navtex', 9);
        asked.onupgradeneeded = () => asked.result.createObjectStore('later').put('what is later', 1);
        asked.onsuccess = () => { asked.result.close(); resolve(true); };
    })`);
    await tab.loadAgain();
    assert.match((await tab.faults())[0], /keeps messages of a newer version of this page. They are left as they are/);
    await tab.hear(path('ea01.air'));
    assert.equal((await tab.titles()).length, 1);
    const kept = await tab.value(`new Promise((resolve) => {
        const asked = indexedDB.open('navtex', 9);
        asked.onsuccess = () => {
            asked.result.transaction('later').objectStore('later').get(1).onsuccess = ({ target }) => {
                asked.result.close();
                resolve(target.result);
            };
        };
    })`);
    assert.equal(kept, 'what is later');
    await emptied(tab);
    await tab.loadAgain();
    await tab.forgetFaults();
}

/** Takes the browser's store away; the page that has it open lets go. */
function emptied(tab) {
    return tab.value(`new Promise((resolve) => {
        const asked = indexedDB.deleteDatabase('navtex');
        asked.onsuccess = asked.onerror = () => resolve(true);
    })`);
}

export const trials = () => [triesReloads, triesMany, triesFull, triesOddValues, triesTwoWindows, triesGone, triesLost,
    triesServer, triesOlder, triesNewer];
