// Tries the page that follows a real watch, the built program, which is killed and started again under it: by
// http.server of Python, by the server of navtex-page.service, and by nginx with the settings of docs/PAGE.md. Its
// log is torn meanwhile, notes are written into it, and once it is replaced by a shortened one. NAVTEX is the
// program, KILLS how often it is killed under each server.
import assert from 'node:assert/strict';
import { existsSync } from 'node:fs';
import { resolve } from 'node:path';
import { setTimeout as pause } from 'node:timers/promises';
import { isDeepStrictEqual } from 'node:util';
import { chanceOf } from '../chance.mjs';
import { folderOf, freePort, hasNginx, hasService, nginxServer, plainServer, serviceServer } from '../servers.mjs';
import { hasStrace, Watch } from '../watch.mjs';

const KILLS = Number(process.env.KILLS ?? 50);
const NAVTEX = process.env.NAVTEX ?? '';
const SOON = 20000; // milliseconds in which the page shows what the log stands for, on a busy machine
const OFTEN = 40;   // milliseconds between two moments at which the page is made to read

/** The page needs no receiver here, so it isn't opened from the disk first. */
export const isOpened = false;

const FREQUENCIES = ['518 kHz', '490 kHz', '4209.5 kHz'];
const ENDS = { full: 'complete', cut: "cut: its end wasn't heard" };

/** What the page shows of an entry: its identity, what is told of it, and its text. */
function saidOf({ identity, time, channel, end, errors, characters, text }) {
    const lost = characters === 0 ? 'without a text' : `${errors || 'none'} of ${characters} letters lost`;
    const facts = `${time.replace('T', ' ').replace('Z', '')} UTC, ${FREQUENCIES[channel]}, ${ENDS[end]}, ${lost}`;
    return [identity, facts, text.replace(/\n$/, '')];
}

// In the page: each state of the list is noted, and whether the log was told to be damaged; and it reads the log
// over and over, since the page reads at once where it is looked at again.
const NOTES = `{
    const [list, damaged] = ['list', 'damaged'].map((id) => document.getElementById(id));
    window.entriesShown = () => [...list.querySelectorAll(':scope > li')].flatMap((one) => {
        const identity = one.querySelector('h3').textContent.replace(/^New /, '').split(':')[0];
        return [...one.querySelectorAll('p.facts')]
            .map((facts) => [identity, facts.textContent, facts.nextElementSibling.textContent]);
    });
    window.states = [];
    window.damages = [];
    new MutationObserver(() => window.states.push(window.entriesShown())).observe(list, { childList: true });
    new MutationObserver(() => { if (!damaged.hidden) window.damages.push(damaged.textContent); })
        .observe(damaged, { attributes: true, childList: true });
    setInterval(() => document.dispatchEvent(new Event('visibilitychange')), ${OFTEN});
}`;

/** A page that follows a watch, and what it showed so far. */
class Followed {
    states = 0; // of the list, in all
    #tab;
    #watch;
    #shown = 0; // entries that were shown last

    constructor(tab, watch) {
        [this.#tab, this.#watch] = [tab, watch];
    }

    /** Opens the page, or again; it has shown nothing then. */
    async open(address) {
        await this.#tab.openPage(address);
        await this.#tab.value(NOTES);
        this.#shown = 0;
    }

    /** Waits until just the entries are shown that the log stands for, each once, the newest first. Until then
     *  the list was always a beginning of them, and grew; or where the log `isReplaced` they came at once. */
    async expectStands(what, { isReplaced = false } = {}) {
        const wanted = this.#watch.stands().map(saidOf).reverse();
        await this.#untilShown(wanted, what);
        const before = isReplaced ? wanted.length : this.#shown;
        const counts = await this.#expectStates(wanted, what);
        counts.reduce((less, count) => {
            assert.ok(count >= less, `${what}: ${count} entries are shown after ${less}`);
            return count;
        }, before);
        this.#shown = wanted.length;
        this.states += counts.length;
    }

    async #untilShown(wanted, what) {
        const isQuiet = "['failing', 'damaged'].every((id) => document.getElementById(id).hidden)";
        for (const end = Date.now() + SOON; ;) {
            const [shown, quiet] = await this.#tab.value(`[window.entriesShown(), ${isQuiet}]`, false);
            if (quiet && isDeepStrictEqual(shown, wanted)) return;
            if (Date.now() > end) {
                assert.deepEqual(shown, wanted, what);
                assert.fail(`${what}: ${await this.#tab.textOf('failing')} ${await this.#tab.textOf('damaged')}`);
            }
            await pause(50);
        }
    }

    /** How many entries each state of the list had since the last look: each is a beginning of the log. */
    async #expectStates(wanted, what) {
        const [states, damages] = await this.#tab.value('[window.states.splice(0), window.damages]', false);
        assert.deepEqual(damages, [], what);
        for (const state of states) {
            assert.deepEqual(state, wanted.slice(wanted.length - state.length), `${what}: what was shown before`);
        }
        return states.map(({ length }) => length);
    }
}

/** Kills the watch so often under a page; what was done. */
async function killsUnder(browser, server, way, log, chance) {
    const tab = await browser.tab();
    const watch = new Watch(resolve(NAVTEX), log, chance);
    const page = new Followed(tab, watch);
    const address = `${server.address}${way}`;
    await page.open(address); // there is no log yet
    await watch.hearHalf();
    for (let kill = 1; kill <= KILLS; kill++) {
        await watch.hearAndBeKilled();
        await page.expectStands(`kill ${kill}`);
        if (chance() < 0.4) watch.tear();
        if (chance() < 0.1) await watch.hearHalf();
        if (kill !== Math.ceil(KILLS / 2)) continue;
        await page.expectStands('before the log is replaced');
        assert.deepEqual(watch.stands(), watch.standsPlainly());
        watch.replace();
        await page.expectStands('the log was replaced', { isReplaced: true });
    }
    await watch.hearHalf();
    await page.expectStands('the end');
    assert.deepEqual(watch.stands(), watch.standsPlainly());
    const asked = tab.requests.length;
    await page.open(address);
    await page.expectStands('the page is opened again');
    assert.deepEqual(await tab.faults(), []);
    assert.deepEqual(tab.errors, []);
    await tab.close();
    return `${KILLS} kills, ${watch.torn} of them within a put, ${watch.cut} starts that cut, ${watch.notes} notes under `
        + `a watch, ${watch.stands().length} entries at the end, ${asked} readings, ${page.states} states of the list`;
}

/** Kills the watch under a page of one server, and tells what was done. */
async function tries(given, name, log, way, start) {
    if (!existsSync(NAVTEX)) {
        console.error(`ci/web: left out: a watch that is killed under the page, by ${name}, since no program was named`);
        return;
    }
    if (!hasStrace) {
        console.error(`ci/web: left out: kills of the watch within a put, by ${name}, since there is no strace`);
    }
    const server = await start(await freePort());
    try {
        const done = await killsUnder(given.browser, server, way, log, chanceOf(20250101));
        console.log(`ci/web: ${given.kind}: watched: by ${name}: ${done}`);
    } finally {
        await server.stop();
    }
}

/** By http.server, which sends the whole log each time. */
async function triesPlain(given) {
    const folder = folderOf(given.room, 'watched');
    await tries(given, 'http.server', `${folder}/watch.log`, '/navtex.html?log=watch.log',
        (port) => plainServer(folder, port));
}

/** By the server of navtex-page.service, which sends what is new. */
async function triesService(given) {
    if (!hasService) {
        console.error('ci/web: left out: a watch that is killed under navtex-page.service, since there is no lighttpd');
        return;
    }
    const share = `${given.room}/watched-service`;
    folderOf(given.room, 'watched-service/navtex');
    const log = `${share}/navtex.log`;
    await tries(given, 'lighttpd', log, '/', (port) => serviceServer(share, log, port));
}

/** By nginx, which sends what is new too. */
async function triesNginx(given) {
    if (!hasNginx) {
        console.error('ci/web: left out: a watch that is killed under nginx, which is not here (nginx-light)');
        return;
    }
    const folder = folderOf(given.room, 'watched-nginx');
    const log = `${folder}/other.log`;
    await tries(given, 'nginx', log, '/navtex.html?log=navtex.log', (port) => nginxServer(folder, log, port));
}

/** In Chromium alone. */
export const trials = (kind) => (kind === 'chromium' ? [triesPlain, triesService, triesNginx] : []);
