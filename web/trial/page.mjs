// Tries the page as somebody uses it, in a browser without a window.
// usage: node web/trial/page.mjs BROWSER PROGRAM ROOM [PICTURES] [NAME..]
//
// BROWSER is chromium or firefox, PROGRAM the path of it. ROOM has navtex.html. PICTURES is a folder in
// which pictures of the page are kept, or '' for none; each NAME is one of the trials below. NAVTEX and
// KILLS are of one of them (web/trial/page/watched.mjs).
import assert from 'node:assert/strict';
import { mkdirSync } from 'node:fs';
import { pathToFileURL } from 'node:url';
import { Chromium } from './chromium.mjs';
import { Firefox } from './firefox.mjs';
import * as alarm from './page/alarm.mjs';
import * as files from './page/files.mjs';
import * as follow from './page/follow.mjs';
import * as lacking from './page/lacking.mjs';
import * as live from './page/live.mjs';
import * as long from './page/long.mjs';
import * as looks from './page/looks.mjs';
import * as packed from './page/packed.mjs';
import * as pictured from './page/pictured.mjs';
import * as pieces from './page/pieces.mjs';
import * as queue from './page/queue.mjs';
import * as store from './page/store.mjs';
import * as watched from './page/watched.mjs';

const TRIALS = { files, packed, queue, long, pieces, live, store, alarm, looks, pictured, lacking, follow, watched };

const [, , kind, program, room, pictures, ...names] = process.argv;
const address = pathToFileURL(`${room}/navtex.html`).href;

process.once('SIGTERM', () => process.exit(1)); // whoever stops this, stops the browser too

/** Starts a browser that has kept nothing, for one trial. */
async function started(name, options = []) {
    const folder = `${room}/${kind}-${name}`;
    mkdirSync(folder, { recursive: true });
    return kind === 'firefox' ? Firefox.start(program, folder) : Chromium.start(program, folder, options);
}

for (const [name, { options, trials, isOpened = true }] of Object.entries(TRIALS)) {
    const chosen = names.length > 0 && !names.includes(name) ? [] : trials(kind, pictures);
    if (chosen.length === 0) continue;
    const browser = await started(name, options?.(room));
    try {
        const begun = performance.now();
        const tab = await browser.tab();
        if (isOpened) await tab.openPage(address);
        const given = { browser, tab, room, address, kind, pictures };
        for (const trial of chosen) {
            try {
                await trial(given);
            } catch (fault) {
                console.error(`ci/web: ${kind}: ${name}: ${trial.name} fails`);
                throw fault;
            }
        }
        assert.deepEqual(tab.errors, []);
        const tried = chosen.map((trial) => trial.name.replace(/^tries/, '')).join(', ');
        console.log(`ci/web: ${kind}: ${name}: ${tried}; ${((performance.now() - begun) / 1000).toFixed(0)} s`);
    } finally {
        await browser.stop();
    }
}
